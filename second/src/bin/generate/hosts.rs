//! Samples of the host's end of the handshake.

use crate::damage::{resized, with_word, with_words, words};
use crate::random::Random;
use crate::samples::Samples;
use second::flat::question::{
    HOST_CLOSE, HOST_NEXT, HOST_OPEN, HOST_RECEIVE, MAKE_HOST, SHOW_HOST,
};
use second::flat::Answer;
use second::message::{COMMAND, COMMAND_DONE, INDICATE_STATUS};
use second::payload::{BASIC_CONNECT, EXTENSIONS};

pub const VERSIONS: [u64; 2] = [0x0100, 0x0200];
const NUMBERS: [u64; 5] = [0, 0x00FF, 0x0101, 0x0300, 0xFFFF];

pub fn all(samples: &mut Samples) {
    for native in NUMBERS {
        samples.ask(MAKE_HOST, &[0x0200], &[]);
        samples.ask(HOST_OPEN, &[0x0100], &[]);
        samples.ask(MAKE_HOST, &[native], &[]);
        show(samples);
        samples.ask(HOST_OPEN, &[native], &[]);
        show(samples);
    }
    for native in VERSIONS {
        for advertised in VERSIONS {
            // A host at 1.00 sends no VERSION, so few replies are enough there.
            let some = if native == 0x0100 { 1 } else { replies().len() };
            for reply in &replies()[..some] {
                run(samples, native, advertised, true, reply);
            }
            run(samples, native, advertised, false, &replies()[1]);
            let some = if native == 0x0100 { 4 } else { lists().len() };
            for list in lists().iter().rev().take(some) {
                lists_at(samples, native, advertised, list);
            }
        }
    }
    for stage in 0..4 {
        messages_at(samples, stage);
    }
    offsets(samples);
    walk(samples);
    strays(samples);
    pins(samples);
}

/// Gives the host a message: type, transaction, CID and word.
pub fn receive(
    samples: &mut Samples,
    service: [u8; 16],
    head: [u64; 4],
    information: &[u8],
) -> Answer {
    samples.ask(HOST_RECEIVE, &head, &[&service[..], information].concat())
}

pub fn services_reply(samples: &mut Samples, status: u64, list: &[u8]) -> Answer {
    receive(samples, BASIC_CONNECT, [COMMAND_DONE.into(), 1, 16, status], list)
}

pub fn version_reply(samples: &mut Samples, status: u64, payload: &[u8]) -> Answer {
    receive(samples, EXTENSIONS, [COMMAND_DONE.into(), 2, 15, status], payload)
}

/// A list of one element with these CIDs.
pub fn list(service: [u8; 16], cids: &[u32]) -> Vec<u8> {
    let size = 28 + 4 * cids.len() as u32;
    let head = words(&[1, 0, 16, size]);
    let numbers = words(&[0, 0, cids.len() as u32]);
    [head, service.to_vec(), numbers, words(cids)].concat()
}

/// A list of two elements, of which the second has VERSION.
pub fn twice() -> Vec<u8> {
    let head = words(&[2, 0, 24, 32, 56, 32]);
    let [first, second] = [14, 15].map(|cid| list(EXTENSIONS, &[cid])[16..].to_vec());
    [head, first, second].concat()
}

/// Lists with VERSION and without it, and refused ones.
fn lists() -> Vec<Vec<u8>> {
    let good = list(EXTENSIONS, &[15]);
    vec![
        vec![],
        with_word(&good, 12, 28),
        resized(&good, 4097),
        with_word(&good, 0, 33),
        words(&[0, 0]),
        list(BASIC_CONNECT, &[15]),
        list(EXTENSIONS, &[14, 16]),
        twice(),
        good,
    ]
}

/// Lists whose pair has a fault of its offset, alone and with others.
pub fn offset_faults() -> Vec<Vec<u8>> {
    let good = list(EXTENSIONS, &[15]);
    let in_fixed_part = [(12, 32), (13, 32)];
    let misaligned = [(17, 28), (17, 32), (u32::MAX, 32)];
    let with_zero_size = [(16, 0), (3, 0)];
    let pairs = in_fixed_part.into_iter().chain(misaligned).chain(with_zero_size);
    pairs.map(|(offset, size)| with_words(&good, &[(8, offset), (12, size)])).collect()
}

/// Lists with a size of 0 beside an offset: of one element, and of two in either pair.
pub fn stray_lists() -> Vec<Vec<u8>> {
    let one = list(EXTENSIONS, &[15]);
    vec![
        with_words(&one, &[(8, 52), (12, 0)]),
        with_words(&one, &[(8, 0xFFFF_FFFF), (12, 0)]),
        with_words(&twice(), &[(12, 0)]),
        with_words(&twice(), &[(16, 3), (20, 0)]),
    ]
}

/// Replies to VERSION: status and payload.
fn replies() -> Vec<(u64, Vec<u8>)> {
    vec![
        (0, vec![0, 1, 0, 1]),
        (0, vec![0, 1, 0, 2]),
        (0, vec![0, 1, 0]),
        (0, vec![0, 1, 0, 2, 0]),
        (0, vec![0, 1, 0, 3]),
        (0, vec![0, 2, 0, 2]),
        (2, vec![0, 1, 0, 2]),
        (9, vec![]),
        (0xFFFF_FFFF, vec![1]),
    ]
}

pub fn show(samples: &mut Samples) {
    samples.ask(SHOW_HOST, &[], &[]);
}

/// One list at a closed and at an opened host, failed and good.
fn lists_at(samples: &mut Samples, native: u64, advertised: u64, list: &[u8]) {
    samples.ask(MAKE_HOST, &[native], &[]);
    services_reply(samples, 0, list);
    samples.ask(HOST_OPEN, &[advertised], &[]);
    services_reply(samples, 9, list);
    services_reply(samples, 0, list);
    show(samples);
    services_reply(samples, 0, list);
    samples.ask(HOST_NEXT, &[4], &[]);
    samples.ask(HOST_CLOSE, &[], &[]);
    show(samples);
}

/// A run: list, VERSION's reply, and what comes after settling.
fn run(samples: &mut Samples, native: u64, advertised: u64, listed: bool, reply: &(u64, Vec<u8>)) {
    let good = list(EXTENSIONS, if listed { &[15] } else { &[] });
    let (status, payload) = reply;
    samples.ask(MAKE_HOST, &[native], &[]);
    version_reply(samples, *status, payload);
    samples.ask(HOST_OPEN, &[advertised], &[]);
    samples.ask(HOST_NEXT, &[0], &[]);
    version_reply(samples, *status, payload);
    services_reply(samples, 0, &good);
    samples.ask(HOST_NEXT, &[3], &[]);
    samples.ask(HOST_NEXT, &[5], &[]);
    version_reply(samples, *status, payload);
    show(samples);
    version_reply(samples, 0, &[0, 1, 0, 2]);
    samples.ask(HOST_NEXT, &[0], &[]);
    show(samples);
}

/// A host of 2.00 at each stage: closed, opened, asking VERSION, settled.
fn at_stage(samples: &mut Samples, stage: u64) {
    samples.ask(MAKE_HOST, &[0x0200], &[]);
    if stage > 0 {
        samples.ask(HOST_OPEN, &[0x0100], &[]);
    }
    if stage > 1 {
        services_reply(samples, 0, &list(EXTENSIONS, &[15]));
    }
    if stage > 2 {
        version_reply(samples, 0, &[0, 1, 0, 1]);
    }
}

/// Messages that are no reply to the handshake, with information that is refused, or
/// would change the host, if they were; then replies of any transaction.
fn messages_at(samples: &mut Samples, stage: u64) {
    let good = list(EXTENSIONS, &[15]);
    at_stage(samples, stage);
    for message_type in [0, 1, 2, COMMAND, 4, 0x8000_0001, INDICATE_STATUS, 0x103, u32::MAX] {
        for information in [&good[..], &[]] {
            receive(samples, BASIC_CONNECT, [message_type.into(), 1, 16, 0], information);
        }
        receive(samples, EXTENSIONS, [message_type.into(), 1, 15, 0], &[0, 1, 0, 2]);
    }
    let mut printed = EXTENSIONS;
    printed[8] = 0x9d;
    for service in [BASIC_CONNECT, EXTENSIONS, printed, [0; 16]] {
        for cid in [0, 9, 10, 11, 15, 16, 0x110, 0xFFFF_FFFF] {
            if (service, cid) != (BASIC_CONNECT, 16) && (service, cid) != (EXTENSIONS, 15) {
                receive(samples, service, [COMMAND_DONE.into(), 1, cid, cid % 2], &good);
            }
        }
    }
    show(samples);
    for transaction in [0, 1, 0xFFFF_FFFF] {
        at_stage(samples, stage);
        receive(samples, BASIC_CONNECT, [COMMAND_DONE.into(), transaction, 16, 0], &good);
        show(samples);
        receive(samples, EXTENSIONS, [COMMAND_DONE.into(), transaction, 15, 0], &[0, 1, 0, 2]);
        show(samples);
    }
}

/// Lists with an offset's fault at every stage, and at a host below the advertised version.
fn offsets(samples: &mut Samples) {
    for stage in 0..4 {
        at_stage(samples, stage);
        offsets_at(samples);
    }
    samples.ask(MAKE_HOST, &[0x0100], &[]);
    samples.ask(HOST_OPEN, &[0x0200], &[]);
    offsets_at(samples);
}

fn offsets_at(samples: &mut Samples) {
    for list in offset_faults() {
        services_reply(samples, 0, &list);
        show(samples);
    }
}

/// Random calls, each shown.
fn walk(samples: &mut Samples) {
    let mut random = Random::new(8);
    let (lists, replies) = (lists(), replies());
    samples.ask(MAKE_HOST, &[0x0200], &[]);
    for _ in 0..60 {
        match random.below(16) {
            0 => samples.ask(MAKE_HOST, &[random.pick(&[0x0100, 0x0200, 0x0200, 0x0300])], &[]),
            1 => samples.ask(HOST_CLOSE, &[], &[]),
            2..=4 => samples.ask(HOST_OPEN, &[random.pick(&[0x0100, 0x0200, 0x0200, 0])], &[]),
            5..=9 => {
                let any = random.below(lists.len());
                let list = &lists[random.pick(&[8, 8, 8, 4, any])];
                let status = random.pick(&[0, 0, 0, 2]);
                services_reply(samples, status, list)
            }
            10..=13 => {
                let (status, payload) = &replies[random.below(replies.len())];
                version_reply(samples, *status, payload)
            }
            _ => samples.ask(HOST_NEXT, &[random.pick(&[0, 3, 4, 9])], &[]),
        };
        show(samples);
    }
}

/// Lists with a size of 0 beside an offset change nothing, and a good one counts after them.
fn strays(samples: &mut Samples) {
    at_stage(samples, 1);
    for list in stray_lists() {
        services_reply(samples, 0, &list);
    }
    services_reply(samples, 9, &stray_lists()[0]);
    show(samples);
    services_reply(samples, 0, &twice());
    show(samples);
}

/// Replies on PIN change nothing at any stage, with a payload or with none.
fn pins(samples: &mut Samples) {
    let info = words(&[2, 1, 3]);
    for stage in 0..4 {
        at_stage(samples, stage);
        for (status, payload) in [(0, &info[..]), (2, &info), (2, &[])] {
            receive(samples, BASIC_CONNECT, [COMMAND_DONE.into(), 3, 4, status], payload);
        }
        receive(samples, BASIC_CONNECT, [INDICATE_STATUS.into(), 0, 4, 0], &info);
        show(samples);
    }
}
