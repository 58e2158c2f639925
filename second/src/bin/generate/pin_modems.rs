//! Samples of the modem's end with a table of PINs.

use crate::damage::{resized, words};
use crate::modems::{show as show_modem, MODEMS, OTHERS};
use crate::pin_entries::{make as make_pins, set_pin, show as show_pins, Row};
use crate::pin_entries::{NEW, PUK, RIGHT, TABLE, WRONG};
use crate::random::Random;
use crate::runs::{carry, write_list};
use crate::samples::Samples;
use second::flat::question as q;
use second::flat::MODEM_SIZE;
use second::message::{COMMAND, COMMAND_DONE, INDICATE_STATUS};
use second::payload::{BASIC_CONNECT, EXTENSIONS};

/// Native and advertised version, and whether VERSION is in the list.
type Modem = (u64, u64, u64);

const ONE: Modem = (0x0200, 0x0100, 1);
const TWO: Modem = (0x0200, 0x0200, 1);
const ASK: [u8; 4] = [0, 1, 0, 2];
/// Two PINs without PUKs, so that little memory is shown.
const SHORT: [Row; 2] = [(1, 1, 9, RIGHT), (2, 1, 3, NEW)];

pub fn all(samples: &mut Samples) {
    for modem in [(0x0100, 0x0100, 0), ONE, TWO, (0x0200, 0x0200, 0)] {
        stages(samples, modem);
    }
    first_commands(samples);
    rooms(samples);
    replies(samples);
    others(samples);
    no_commands(samples);
    beside(samples);
    carried(samples);
    walk(samples);
}

/// A modem that serves our list.
fn make(samples: &mut Samples, (native, advertised, lists_version): Modem) {
    let services = write_list(samples, lists_version);
    samples.ask(q::MAKE_MODEM, &[native, advertised, MODEM_SIZE], &services);
}

/// Any message; the head is room, type, transaction, CID and word.
fn receive(samples: &mut Samples, service: [u8; 16], head: [u64; 5], information: &[u8]) {
    samples.ask(q::PIN_RECEIVE, &head, &[&service[..], information].concat());
}

/// A COMMAND of transaction 5 on PIN; the head is room and command type.
fn command(samples: &mut Samples, [room, command_type]: [u64; 2], information: &[u8]) {
    receive(samples, BASIC_CONNECT, [room, COMMAND.into(), 5, 4, command_type], information);
}

fn serve_list(samples: &mut Samples) {
    receive(samples, BASIC_CONNECT, [0, COMMAND.into(), 5, 16, 0], &[]);
}

fn version(samples: &mut Samples, room: u64) {
    receive(samples, EXTENSIONS, [room, COMMAND.into(), 5, 15, 0], &ASK);
}

fn show(samples: &mut Samples) {
    show_modem(samples);
    show_pins(samples);
}

/// Entries of every kind: wrong, right, not expected once that came, of another operation, of a
/// type that is not there, and with payloads that are refused.
fn entries() -> [Vec<u8>; 7] {
    [
        set_pin(1, 0, &[], &[]),
        set_pin(2, 0, NEW, &[]),
        set_pin(2, 0, WRONG, &[]),
        set_pin(1, 2, RIGHT, &[]),
        set_pin(3, 0, RIGHT, &[]),
        words(&[1, 0, 0, 0, 24, 0]),
        vec![1],
    ]
}

/// Entries with each room at each stage of the handshake; the table is left by OPEN and CLOSE.
fn stages(samples: &mut Samples, modem: Modem) {
    let [wrong, right, ..] = entries();
    make_pins(samples, &SHORT);
    make(samples, modem);
    for room in [0, 12] {
        command(samples, [room, 1], &wrong);
    }
    command(samples, [0, 0], &[]);
    show(samples);
    serve_list(samples);
    for room in [0, 11, 12] {
        command(samples, [room, 1], &wrong);
        show(samples);
    }
    for room in [3, 4] {
        version(samples, room);
    }
    for room in [0, 11, 12, 13] {
        command(samples, [room, 1], &wrong);
    }
    show(samples);
    let ends = [(q::MODEM_OPEN, &wrong), (q::MODEM_CLOSE, &right)];
    let some = if modem == ONE || modem == TWO { &ends[..] } else { &ends[1..] };
    for (question, entry) in some.iter().copied() {
        samples.ask(question, &[], &[]);
        show(samples);
        command(samples, [12, 1], entry);
        serve_list(samples);
        version(samples, 4);
        command(samples, [20, 1], entry);
        show(samples);
    }
}

/// Each entry, and a query, as the first command after the list: with too little room the modem is
/// not settled by what would be answered.
fn first_commands(samples: &mut Samples) {
    let heads = [[0, 1], [12, 1], [11, 1], [0, 0], [12, 2]];
    let entries = entries();
    make_pins(samples, &SHORT);
    make(samples, ONE);
    for (number, entry) in entries.iter().enumerate() {
        let some = if number < 2 { &heads[..] } else { &heads[..2] };
        for head in some {
            first(samples, *head, entry);
        }
    }
    show_pins(samples);
    make(samples, TWO);
    for head in heads {
        first(samples, head, &entries[0]);
    }
    show_pins(samples);
}

fn first(samples: &mut Samples, head: [u64; 2], entry: &[u8]) {
    samples.ask(q::MODEM_OPEN, &[], &[]);
    serve_list(samples);
    command(samples, head, entry);
    show_modem(samples);
}

/// A modem that is settled, by VERSION, at 2.00.
fn settled(samples: &mut Samples) {
    make(samples, TWO);
    serve_list(samples);
    version(samples, 4);
}

/// Each entry at a settled modem, with each room; the table is shown after each.
fn rooms(samples: &mut Samples) {
    settled(samples);
    make_pins(samples, &SHORT);
    for (number, entry) in entries().iter().enumerate() {
        let rooms = if number < 2 { &[0, 11, 12, 13][..] } else { &[0, 12] };
        for room in rooms {
            command(samples, [*room, 1], entry);
            show_pins(samples);
        }
    }
    let wrong = set_pin(1, 0, WRONG, &[]);
    for length in [0, 11, 12, 13, 23, 24, 25, 4096, 4097] {
        command(samples, [12, 1], &resized(&wrong, length));
    }
    show(samples);
}

/// Every reply of the table.
fn replies(samples: &mut Samples) {
    settled(samples);
    make_pins(samples, &TABLE);
    for (pin_type, pin) in [
        (0, RIGHT),
        (4, RIGHT),
        (3, RIGHT),
        (11, PUK),
        (14, PUK),
        (2, WRONG),
        (2, WRONG),
        (2, WRONG),
        (2, RIGHT),
        (11, WRONG),
        (11, PUK),
        (2, NEW),
        (5, WRONG),
        (5, RIGHT),
        (7, RIGHT),
        (8, WRONG),
        (16, PUK),
        (15, WRONG),
        (15, PUK),
        (9, &[]),
        (1, NEW),
    ] {
        command(samples, [12, 1], &set_pin(pin_type, 0, pin, NEW));
    }
    show_pins(samples);
}

/// What is no set on PIN, with bytes that would be an entry, is answered as without a table.
fn others(samples: &mut Samples) {
    let [wrong, ..] = entries();
    let near = [(BASIC_CONNECT, 3), (BASIC_CONNECT, 5), (BASIC_CONNECT, 0x104), (EXTENSIONS, 4)];
    let unknown = [([0; 16], 4), (BASIC_CONNECT, 0)];
    make_pins(samples, &SHORT);
    for modem in [ONE, TWO] {
        make(samples, modem);
        for stage in 0..3 {
            if stage == 1 {
                serve_list(samples);
            }
            if stage == 2 {
                version(samples, 4);
            }
            let known = if stage == 2 { &OTHERS[..] } else { &[] };
            for (service, cid) in known.iter().copied().chain(near).chain(unknown) {
                receive(samples, service, [12, COMMAND.into(), 5, cid, 1], &wrong);
            }
            show_modem(samples);
        }
        for command_type in [0, 2, 3, 0x101, 0xFFFF_FFFF] {
            command(samples, [12, command_type], &wrong);
        }
        show(samples);
    }
}

/// Messages on PIN that are no COMMAND, and a COMMAND of transaction 0.
fn no_commands(samples: &mut Samples) {
    let [wrong, ..] = entries();
    settled(samples);
    for message_type in [0, 1, 4, 0x103, COMMAND_DONE, INDICATE_STATUS, COMMAND] {
        for transaction in [0, 1] {
            let head = [12, message_type.into(), transaction, 4, 1];
            receive(samples, BASIC_CONNECT, head, &wrong);
        }
    }
    show(samples);
    for transaction in [1, 0xFFFF_FFFF] {
        receive(samples, BASIC_CONNECT, [12, COMMAND.into(), transaction, 4, 1], &wrong);
    }
    show(samples);
}

/// A modem asked with its table and without: only the first changes it.
fn beside(samples: &mut Samples) {
    let [wrong, right, ..] = entries();
    make_pins(samples, &SHORT);
    make(samples, ONE);
    serve_list(samples);
    for entry in [wrong, right] {
        for question in [q::MODEM_RECEIVE, q::PIN_RECEIVE, q::MODEM_RECEIVE] {
            let input = [&BASIC_CONNECT[..], &entry].concat();
            samples.ask(question, &[12, COMMAND.into(), 5, 4, 1], &input);
            show(samples);
        }
        samples.ask(q::PIN_ENTRY, &[], &entry);
        show_pins(samples);
    }
}

/// Entries and their replies, written, cut, received and read.
fn carried(samples: &mut Samples) {
    settled(samples);
    make_pins(samples, &SHORT);
    for (pin_type, pin) in [(1, WRONG), (1, RIGHT), (4, RIGHT)] {
        let fields = [88, pin_type, 0, pin.len() as u64, NEW.len() as u64];
        let payload = samples.ask(q::SET_PIN_WRITE, &fields, &[pin, NEW].concat()).output;
        let command = carry(samples, [COMMAND, 6, 4, 1], &payload);
        let answer = samples.ask(q::PIN_RECEIVE, &[12, COMMAND.into(), 6, 4, 1], &command);
        let status = answer.numbers[2] as u32;
        let reply = carry(samples, [COMMAND_DONE, 6, 4, status], &answer.output);
        samples.ask(q::PIN_INFO_READ, &[], &reply[16..]);
    }
    let indicated = carry(samples, [INDICATE_STATUS, 0, 4, 0], &words(&[2, 1, 3]));
    samples.ask(q::PIN_INFO_READ, &[], &indicated[16..]);
    carry(samples, [COMMAND, 7, 4, 0], &[]);
    carry(samples, [COMMAND_DONE, 7, 4, 2], &[]);
}

/// Random calls, each shown.
fn walk(samples: &mut Samples) {
    let mut random = Random::new(13);
    let entries = entries();
    make(samples, ONE);
    make_pins(samples, &SHORT);
    for round in 0..50 {
        match random.below(20) {
            0 => {
                let (native, advertised) = random.pick(&MODEMS);
                make(samples, (native, advertised, random.below(2) as u64));
            }
            1 => drop(samples.ask(q::MODEM_OPEN, &[], &[])),
            2 => drop(samples.ask(q::MODEM_CLOSE, &[], &[])),
            3..=6 => serve_list(samples),
            7..=9 => version(samples, random.pick(&[4, 4, 4, 3])),
            10 => {
                let (service, cid) = random.pick(&OTHERS);
                receive(samples, service, [12, COMMAND.into(), 5, cid, 1], &entries[0]);
            }
            11 => make_pins(samples, &SHORT),
            _ => {
                let head = [random.pick(&[12, 12, 12, 11, 0]), random.pick(&[1, 1, 1, 1, 0])];
                let any = random.below(entries.len());
                command(samples, head, &entries[random.pick(&[0, 0, 1, any])]);
            }
        }
        show_modem(samples);
        if round % 3 == 2 {
            show_pins(samples);
        }
    }
}
