//! Samples of the host's end of the handshake: lists with a fault before VERSION, at it and behind
//! it.

use crate::asks::{faults, list};
use crate::damage::{resized, with_words};
use crate::hosts::{receive, services_reply, show, version_reply, VERSIONS};
use crate::samples::Samples;
use second::flat::question::{HOST_NEXT, HOST_OPEN, MAKE_HOST};
use second::message::{COMMAND, COMMAND_DONE, INDICATE_STATUS};
use second::payload::{BASIC_CONNECT, EXTENSIONS};

/// Native and advertised version, and the stage: closed, opened, after a list with VERSION, and
/// after VERSION's reply too.
type Host = (u64, u64, u64);

pub fn all(samples: &mut Samples) {
    for native in VERSIONS {
        // Nothing is advertised to a closed host, and one at 1.00 awaits no reply to VERSION.
        by_faults(samples, (native, 0x0100, 0), 5);
        for advertised in VERSIONS {
            let step = if (native, advertised) == (0x0200, 0x0100) { 1 } else { 3 };
            by_faults(samples, (native, advertised, 1), step);
            by_faults(samples, (native, advertised, 2), 5);
            if native == 0x0200 {
                by_faults(samples, (native, advertised, 3), 5);
            }
        }
    }
    for native in VERSIONS {
        for advertised in VERSIONS {
            others(samples, native, advertised);
        }
    }
    run(samples);
    no_replies(samples);
}

/// Three elements, of which the second has VERSION.
pub fn three() -> Vec<u8> {
    list(&[(EXTENSIONS, &[14]), (EXTENSIONS, &[15]), ([0; 16], &[])])
}

fn make(samples: &mut Samples, (native, advertised, stage): Host) {
    samples.ask(MAKE_HOST, &[native], &[]);
    if stage > 0 {
        samples.ask(HOST_OPEN, &[advertised], &[]);
    }
    if stage > 1 {
        services_reply(samples, 0, &list(&[(EXTENSIONS, &[15])]));
    }
    if stage > 2 {
        version_reply(samples, 0, &[0, 1, 0, 2]);
    }
}

/// Every so many of the faults, in each of the elements. A host that a list changes is made anew.
fn by_faults(samples: &mut Samples, host: Host, step: usize) {
    make(samples, host);
    for number in 0..3 {
        let skipped = (number + host.2 as usize) % step;
        for faulty in faults(&three(), number).iter().skip(skipped).step_by(step) {
            let answer = services_reply(samples, 0, faulty);
            show(samples);
            if answer.numbers[0] == 0 && answer.numbers[1] != 0 {
                make(samples, host);
            }
        }
    }
}

/// Lists at a host just opened: VERSION on either side of a fault, no VERSION beside a fault, and
/// lengths and counts that come before it.
fn others(samples: &mut Samples, native: u64, advertised: u64) {
    let sides = list(&[(EXTENSIONS, &[15]), (BASIC_CONNECT, &[]), (EXTENSIONS, &[15])]);
    let none = list(&[(EXTENSIONS, &[14]), (BASIC_CONNECT, &[15])]);
    let good = list(&[(EXTENSIONS, &[15]), ([0; 16], &[])]);
    let lists = [
        with_words(&sides, &[(20, 29)]),
        with_words(&sides, &[(16, 52), (20, 0)]),
        with_words(&sides, &[(8, 33), (20, 29)]),
        with_words(&none, &[(16, 57)]),
        with_words(&none, &[(20, 0)]),
        with_words(&good, &[(0, 33)]),
        with_words(&good, &[(0, 32)]),
        resized(&good, 4097),
        resized(&good, 56),
        resized(&good, 55),
        resized(&good, 23),
    ];
    // Whether VERSION is listed is nothing to a host at 1.00, so few of them are enough there.
    let some = if native == 0x0100 { 6 } else { lists.len() };
    for list in &lists[..some] {
        make(samples, (native, advertised, 1));
        services_reply(samples, 0, list);
        show(samples);
    }
}

/// A run whose list has a fault behind VERSION; lists that come later change nothing, and are
/// refused where the fault comes first.
fn run(samples: &mut Samples) {
    let lists = [2, 1, 0].map(|number| faults(&three(), number).swap_remove(7));
    for advertised in VERSIONS {
        make(samples, (0x0200, advertised, 1));
        for status in [9, 0] {
            services_reply(samples, status, &lists[0]);
        }
        samples.ask(HOST_NEXT, &[4], &[]);
        for list in &lists {
            services_reply(samples, 0, list);
        }
        version_reply(samples, 0, &[0, 1, 0, 2]);
        for list in &lists {
            services_reply(samples, 0, list);
            services_reply(samples, 9, list);
        }
        samples.ask(HOST_NEXT, &[0], &[]);
        show(samples);
    }
}

/// The same lists in messages that are no reply to DEVICE_SERVICES.
fn no_replies(samples: &mut Samples) {
    make(samples, (0x0200, 0x0100, 1));
    for number in 0..3 {
        let list = faults(&three(), number).swap_remove(0);
        for message_type in [COMMAND, INDICATE_STATUS] {
            receive(samples, BASIC_CONNECT, [message_type.into(), 1, 16, 0], &list);
        }
        receive(samples, EXTENSIONS, [COMMAND_DONE.into(), 1, 16, 0], &list);
    }
    show(samples);
}
