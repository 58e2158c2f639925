//! Samples of the modem's end of the handshake.

use crate::asks::faults;
use crate::damage::{resized, with_word, words};
use crate::host_lists::three;
use crate::hosts::{list, offset_faults, stray_lists, twice};
use crate::random::Random;
use crate::samples::Samples;
use second::flat::question::{MAKE_MODEM, MODEM_CLOSE, MODEM_OPEN, MODEM_RECEIVE, SHOW_MODEM};
use second::flat::MODEM_SIZE;
use second::message::{COMMAND, COMMAND_DONE, INDICATE_STATUS};
use second::payload::{BASIC_CONNECT, EXTENSIONS};

const NUMBERS: [u64; 5] = [0x0100, 0x0200, 0, 0x0101, 0x0300];
/// Native and advertised version, and whether VERSION is in the list.
type Modem = (u64, u64, bool);
pub const MODEMS: [(u64, u64); 3] = [(0x0100, 0x0100), (0x0200, 0x0100), (0x0200, 0x0200)];
const ASKS: [&[u8]; 6] =
    [&[0, 1, 0, 1], &[0, 1, 0, 2], &[0, 1, 0, 3], &[0, 2, 0, 2], &[0, 1, 0], &[0, 1, 0, 2, 0]];
/// Commands other than VERSION and DEVICE_SERVICES, known and not.
pub const OTHERS: [([u8; 16], u64); 6] = [
    (BASIC_CONNECT, 9),
    (BASIC_CONNECT, 10),
    (BASIC_CONNECT, 11),
    (BASIC_CONNECT, 15),
    (EXTENSIONS, 16),
    ([0; 16], 15),
];

pub fn all(samples: &mut Samples) {
    made(samples);
    lists(samples);
    for (native, advertised) in MODEMS {
        for lists_version in [false, true] {
            let modem = (native, advertised, lists_version);
            asks(samples, modem);
            others(samples, modem);
            rooms(samples, modem);
            unknown(samples, modem);
        }
    }
    no_commands(samples);
    walk(samples);
    strays(samples);
    pins(samples);
    faults_behind(samples);
}

pub fn show(samples: &mut Samples) {
    samples.ask(SHOW_MODEM, &[], &[]);
}

fn make(samples: &mut Samples, (native, advertised, lists_version): Modem) {
    let services = list(EXTENSIONS, if lists_version { &[15] } else { &[14, 16] });
    samples.ask(MAKE_MODEM, &[native, advertised, MODEM_SIZE], &services);
}

/// A COMMAND of transaction 5; the head is room, CID and command type.
fn command(samples: &mut Samples, service: [u8; 16], head: [u64; 3], information: &[u8]) {
    let [room, cid, command_type] = head;
    receive(samples, service, [room, COMMAND.into(), 5, cid, command_type], information);
}

/// Any message; the head is room, type, transaction, CID and word.
fn receive(samples: &mut Samples, service: [u8; 16], head: [u64; 5], information: &[u8]) {
    let input = [&service[..], information].concat();
    samples.ask(MODEM_RECEIVE, &head, &input);
}

fn serve_list(samples: &mut Samples, command_type: u64) {
    command(samples, BASIC_CONNECT, [0, 16, command_type], &[]);
}

/// Versions: 12 comes before a refused list, and that before memory too small.
fn made(samples: &mut Samples) {
    let good = list(EXTENSIONS, &[15]);
    for native in NUMBERS {
        for advertised in NUMBERS {
            samples.ask(MAKE_MODEM, &[native, advertised, MODEM_SIZE], &good);
            show(samples);
            samples.ask(MAKE_MODEM, &[native, advertised, 0], &[]);
        }
    }
    for size in [0, 1, 2, 8, 9, 10] {
        samples.ask(MAKE_MODEM, &[0x0200, 0x0200, size], &good[..20]);
        samples.ask(MAKE_MODEM, &[0x0200, 0x0200, size], &list(EXTENSIONS, &[]));
        show(samples);
    }
}

/// Lists with VERSION and without it, and refused ones, at a modem that stands already.
fn lists(samples: &mut Samples) {
    let good = list(EXTENSIONS, &[15]);
    let lists = [
        words(&[0, 0]),
        list(BASIC_CONNECT, &[15]),
        list(EXTENSIONS, &[]),
        list(EXTENSIONS, &[14, 16, 0x10F]),
        list(EXTENSIONS, &[14, 15, 16]),
        twice(),
        resized(&good, 4096),
        vec![],
        good[..7].to_vec(),
        good[..15].to_vec(),
        good[..47].to_vec(),
        resized(&good, 4097),
        with_word(&good, 0, 33),
        with_word(&good, 0, 2),
        with_word(&good, 12, 28),
        with_word(&good, 12, 541),
        with_word(&good, 40, 129),
    ];
    for services in lists.iter().chain(&offset_faults()) {
        for (native, advertised) in MODEMS {
            make(samples, (0x0200, 0x0200, false));
            samples.ask(MAKE_MODEM, &[native, advertised, MODEM_SIZE], services);
            show(samples);
        }
        serve_list(samples, 0);
        command(samples, EXTENSIONS, [4, 15, 0], &[0, 1, 0, 2]);
    }
}

/// VERSION before the list, after it, as a set, again, and after a new start.
fn asks(samples: &mut Samples, modem: Modem) {
    let asks = match modem {
        (0x0200, 0x0100, true) => &ASKS[..],
        (_, _, true) => &ASKS[..2],
        _ => &ASKS[1..2],
    };
    for ask in asks {
        make(samples, modem);
        command(samples, EXTENSIONS, [4, 15, 0], ask);
        serve_list(samples, 0);
        for command_type in [1, 2, 0x100, 0xFFFF_FFFF] {
            command(samples, EXTENSIONS, [4, 15, command_type], ask);
        }
        command(samples, EXTENSIONS, [9, 15, 0], ask);
        show(samples);
        command(samples, EXTENSIONS, [9, 15, 0], &[0, 1, 0, 2]);
        command(samples, BASIC_CONNECT, [0, 11, 0], &[]);
        show(samples);
    }
    samples.ask(MODEM_OPEN, &[], &[]);
    show(samples);
    command(samples, BASIC_CONNECT, [0, 9, 0], &[]);
    serve_list(samples, 1);
    samples.ask(MODEM_CLOSE, &[], &[]);
    show(samples);
}

/// Another first command before the list and after it; VERSION then comes late.
fn others(samples: &mut Samples, modem: Modem) {
    let others = match modem {
        (0x0200, _, true) => &OTHERS[..],
        _ => &OTHERS[2..4],
    };
    for (service, cid) in others.iter().copied() {
        make(samples, modem);
        command(samples, service, [0, cid, 0], &[]);
        show(samples);
        serve_list(samples, 1);
        serve_list(samples, 0);
        command(samples, service, [9, cid, 1], &[1, 2, 3]);
        show(samples);
        command(samples, EXTENSIONS, [4, 15, 0], &[0, 1, 0, 2]);
        serve_list(samples, 0);
        command(samples, service, [0, cid, 0], &[]);
        show(samples);
    }
}

/// Too little room changes nothing, and status 9 needs none.
fn rooms(samples: &mut Samples, modem: Modem) {
    make(samples, modem);
    command(samples, EXTENSIONS, [0, 15, 0], &[0, 1, 0, 2]);
    serve_list(samples, 0);
    for room in [0, 3] {
        command(samples, EXTENSIONS, [room, 15, 0], &[0, 1, 0, 2]);
        command(samples, EXTENSIONS, [room, 15, 1], &[0, 1, 0, 2]);
        command(samples, EXTENSIONS, [room, 15, 0], &[0, 1]);
        show(samples);
    }
    command(samples, EXTENSIONS, [4, 15, 0], &[0, 1, 0, 1]);
    command(samples, EXTENSIONS, [0, 15, 0], &[0, 1, 0, 1]);
    show(samples);
}

/// Services and CIDs nearly known, at every stage: before the list, after it, settled by
/// VERSION or by themselves.
fn unknown(samples: &mut Samples, modem: Modem) {
    let mut printed = EXTENSIONS;
    printed[8] = 0x9d;
    let commands =
        [(BASIC_CONNECT, 0), (BASIC_CONNECT, 0x109), (EXTENSIONS, 9), (printed, 15), ([0; 16], 16)];
    for settled in [false, true] {
        make(samples, modem);
        for (service, cid) in commands {
            command(samples, service, [0, cid, 0], &[]);
        }
        serve_list(samples, 0);
        if settled {
            command(samples, EXTENSIONS, [4, 15, 0], &[0, 1, 0, 2]);
        }
        for (service, cid) in commands {
            command(samples, service, [0, cid, 1], &[0, 1, 0, 2]);
            show(samples);
        }
    }
}

/// What is no COMMAND, and a COMMAND of transaction 0: refused at every stage, with both
/// faults together too.
fn no_commands(samples: &mut Samples) {
    for stage in 0..3 {
        make(samples, (0x0200, 0x0100, true));
        if stage > 0 {
            serve_list(samples, 0);
        }
        if stage > 1 {
            command(samples, EXTENSIONS, [4, 15, 0], &[0, 1, 0, 2]);
        }
        for message_type in [0, 1, 2, 4, 0x103, COMMAND_DONE, INDICATE_STATUS, u32::MAX, COMMAND] {
            for transaction in [0, 1] {
                if (message_type, transaction) == (COMMAND, 1) {
                    continue;
                }
                let number = message_type.into();
                receive(samples, BASIC_CONNECT, [4, number, transaction, 16, 0], &[]);
                receive(samples, EXTENSIONS, [4, number, transaction, 15, 0], &[0, 1, 0, 2]);
                receive(samples, [0; 16], [0, number, transaction, 15, 2], &[]);
            }
        }
        show(samples);
        receive(samples, EXTENSIONS, [4, COMMAND.into(), 0xFFFF_FFFF, 15, 0], &[0, 1, 0, 2]);
        show(samples);
    }
}

/// Random calls, each shown.
fn walk(samples: &mut Samples) {
    let mut random = Random::new(9);
    make(samples, (0x0200, 0x0100, true));
    for _ in 0..60 {
        match random.below(16) {
            0 | 1 => {
                let (native, advertised) = random.pick(&MODEMS);
                make(samples, (native, advertised, random.pick(&[false, true, true])));
            }
            2 => drop(samples.ask(MODEM_OPEN, &[], &[])),
            3 => drop(samples.ask(MODEM_CLOSE, &[], &[])),
            4..=7 => serve_list(samples, random.below(2) as u64),
            8..=12 => {
                let head = [random.pick(&[4, 4, 4, 3, 0]), 15, random.pick(&[0, 0, 0, 1])];
                let any = random.below(ASKS.len());
                let ask = random.pick(&[ASKS[0], ASKS[1], ASKS[1], ASKS[any]]);
                command(samples, EXTENSIONS, head, ask);
            }
            _ => {
                let (service, cid) = random.pick(&OTHERS);
                command(samples, service, [0, cid, random.below(2) as u64], &[]);
            }
        }
        show(samples);
    }
}

/// Lists with a size of 0 beside an offset: after 12, before memory too small.
fn strays(samples: &mut Samples) {
    make(samples, (0x0200, 0x0200, true));
    for services in stray_lists() {
        samples.ask(MAKE_MODEM, &[0x0200, 0x0100, MODEM_SIZE], &services);
    }
    let services = &stray_lists()[0];
    samples.ask(MAKE_MODEM, &[0x0100, 0x0200, MODEM_SIZE], services);
    samples.ask(MAKE_MODEM, &[0x0200, 0x0100, 0], services);
    show(samples);
}

/// PIN, query and set, at every stage: before the list, as the first command, after VERSION, and
/// after a new start. Without a table its information is not looked at.
fn pins(samples: &mut Samples) {
    let entry = words(&[2, 0, 0, 0, 0, 0]);
    for (native, advertised) in MODEMS {
        for command_type in [0, 1] {
            make(samples, (native, advertised, true));
            command(samples, BASIC_CONNECT, [12, 4, command_type], &entry);
            serve_list(samples, 0);
            command(samples, BASIC_CONNECT, [0, 4, command_type], &[]);
            show(samples);
            command(samples, EXTENSIONS, [4, 15, 0], &[0, 1, 0, 2]);
            command(samples, BASIC_CONNECT, [12, 4, command_type], &entry);
            show(samples);
            samples.ask(MODEM_OPEN, &[], &[]);
            command(samples, BASIC_CONNECT, [12, 4, command_type], &entry);
        }
    }
    // CIDs close to it, and the other service's.
    make(samples, (0x0200, 0x0100, true));
    serve_list(samples, 0);
    for (service, cid) in
        [(BASIC_CONNECT, 3), (BASIC_CONNECT, 0x104), (EXTENSIONS, 4), ([0; 16], 4)]
    {
        command(samples, service, [12, cid, 1], &entry);
    }
    command(samples, BASIC_CONNECT, [12, 4, 2], &entry);
    show(samples);
}

/// A modem's own list is judged in full: a fault behind VERSION is one too.
fn faults_behind(samples: &mut Samples) {
    make(samples, (0x0200, 0x0100, false));
    for services in faults(&three(), 2) {
        samples.ask(MAKE_MODEM, &[0x0200, 0x0200, MODEM_SIZE], &services);
    }
    show(samples);
    samples.ask(MAKE_MODEM, &[0x0200, 0x0200, MODEM_SIZE], &three());
    show(samples);
}
