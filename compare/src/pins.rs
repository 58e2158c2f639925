//! PINs: SET_PIN and PIN_INFO, tables of secrets and tries with runs of entries, modems with a table.

use crate::damage;
use crate::ends::{list, version_payload, CIDS};
use crate::payloads::{moved, put, text_length, written};
use crate::random::Random;
use crate::services::service;
use crate::sides::Sides;
use crate::sweep::{
    changed_bytes, changed_numbers, changed_pairs, changes, modem_at, number_choices, rooms,
    with_pair, CHOICES, COMMANDS,
};
use second::flat::{question as q, Answer, MODEM_SIZE, PINS_SIZE};
use second::message::COMMAND;
use second::payload::{BASIC_CONNECT, EXTENSIONS};

const ROOM: u64 = 88;
const ROWS: usize = 17;
const SECRET: usize = 32;
const TYPES: [u32; 18] = [0, 1, 2, 3, 4, 5, 6, 7, 8, 9, 10, 11, 12, 13, 14, 15, 16, 17];
/// PINs and their PUKs.
const PAIRS: [(u32, u32); 7] = [(2, 11), (3, 12), (5, 13), (6, 14), (7, 15), (8, 16), (9, 17)];
/// CIDs of Basic Connect and of the extensions.
const PIN: u64 = 4;
const LIST: u64 = 16;
const VERSION: u64 = 15;

/// Texts that differ in one byte, in length or in all; the empty one and the longest.
const TEXTS: [&[u8]; 7] =
    [b"", b"1\x002\0", b"1\x003\0", b"1\x002\x003\0", b"9\0", &[7; 32], &[7; 30]];

// ---- payloads

pub fn payloads(sides: &mut Sides, random: &mut Random) {
    let sizes = [0; 2].map(|_| text_length(random, SECRET));
    let head = [random.mostly(&TYPES), random.mostly(&[0, 0, 1, 2, 3])];
    let record = [&head[..], &sizes.map(|size| size as u64)].concat();
    let texts = random.bytes(sizes.iter().sum());
    let room = random.room(24 + texts.len() + 4);
    let payload = written(sides, q::SET_PIN_WRITE, room, &record, &texts);
    read(sides, random, q::SET_PIN_READ, &payload);
    let payload = moved_texts(random, payload);
    read(sides, random, q::SET_PIN_READ, &payload);
    let info = [random.mostly(&TYPES), random.mostly(&[0, 1]), random.hostile().into()];
    let room = random.room(12);
    let payload = written(sides, q::PIN_INFO_WRITE, room, &info, &[]);
    read(sides, random, q::PIN_INFO_READ, &payload);
}

fn read(sides: &mut Sides, random: &mut Random, question: u32, payload: &[u8]) {
    for _ in 0..3 {
        let payload = damage::maybe(random, payload);
        sides.ask_by(&[random.choice()], question, &[], &payload);
    }
}

/// The two pairs put anywhere.
fn moved_texts(random: &mut Random, mut payload: Vec<u8>) -> Vec<u8> {
    for place in [8, 16] {
        let size = text_length(random, SECRET) as u32;
        let offset = moved(random, 24, payload.len() as u32, size);
        put(&mut payload, place, offset);
        put(&mut payload, place + 4, size);
    }
    payload
}

// ---- tables and entries

/// What a table is made of: four numbers a row, and all secrets.
#[derive(Clone)]
struct Table {
    numbers: [[u64; 4]; ROWS],
    secrets: [[u8; SECRET]; ROWS],
}

impl Table {
    fn empty() -> Table {
        Table { numbers: [[0; 4]; ROWS], secrets: [[0; SECRET]; ROWS] }
    }

    fn add(&mut self, pin_type: u32, enabled: u64, tries: u32, text: &[u8]) {
        let row = pin_type as usize - 1;
        self.numbers[row] = [1, enabled, tries.into(), text.len() as u64];
        self.secrets[row][..text.len()].copy_from_slice(text);
    }

    fn make(&self, sides: &mut Sides, size: u64) -> Answer {
        let arguments = [&[size], &self.numbers.concat()[..]].concat();
        sides.step(q::MAKE_PINS, &arguments, &self.secrets.concat())
    }

    /// The secret of a type, or no text.
    fn secret(&self, pin_type: u32) -> &[u8] {
        let row = pin_type.wrapping_sub(1) as usize;
        self.secrets.get(row).map_or(&[], |secret| &secret[..self.numbers[row][3] as usize])
    }
}

/// Most types are there, with few tries; past a secret stands anything.
fn table(random: &mut Random) -> Table {
    let mut table = Table::empty();
    for pin_type in 1..=ROWS as u32 {
        let tries = random.pick(&[0, 1, 1, 2, 3, 3, 10, u32::MAX]);
        let enabled = u64::from(!random.once_in(6));
        let secret = random.bytes(SECRET);
        table.secrets[pin_type as usize - 1].copy_from_slice(&secret);
        table.add(pin_type, enabled, tries, random.pick(&TEXTS));
        table.numbers[pin_type as usize - 1][0] = u64::from(!random.once_in(6));
    }
    table
}

/// A table with a number or two that may be wrong.
fn doubtful(random: &mut Random) -> Table {
    let mut table = table(random);
    for _ in 0..1 + random.below(2) {
        table.numbers[random.below(ROWS)][random.below(4)] = random.hostile().into();
    }
    table
}

/// An entry: the types of a pair most often, the right text half of the time.
fn entry(sides: &mut Sides, random: &mut Random, table: &Table, pair: (u32, u32)) -> Vec<u8> {
    let pin_type = match random.below(10) {
        0..=4 => pair.0,
        5..=7 => pair.1,
        _ => random.mostly(&TYPES) as u32,
    };
    let text = random.pick(&TEXTS);
    let text = if random.once_in(2) { table.secret(pin_type) } else { text };
    let operation = if random.once_in(12) { random.below(4) as u64 } else { 0 };
    let payload = entered(sides, pin_type, operation, text, random.pick(&TEXTS));
    if random.once_in(8) {
        return damage::damaged(random, &payload);
    }
    payload
}

/// The payload of an entry, from either side's writer.
fn entered(sides: &mut Sides, pin_type: u32, operation: u64, pin: &[u8], new: &[u8]) -> Vec<u8> {
    let sizes = [pin.len() as u64, new.len() as u64];
    let arguments = [&[ROOM, pin_type.into(), operation], &sizes[..]].concat();
    sides.ask(q::SET_PIN_WRITE, &arguments, &[pin, new].concat()).output
}

/// Runs of entries; now and then a table made anew.
pub fn tables(sides: &mut Sides, random: &mut Random) {
    let table = table(random);
    let pair = random.pick(&PAIRS);
    table.make(sides, PINS_SIZE);
    for _ in 0..12 {
        if random.once_in(24) {
            let size = random.room(PINS_SIZE as usize).min(PINS_SIZE);
            doubtful(random).make(sides, size);
        }
        let payload = entry(sides, random, &table, pair);
        sides.step(q::PIN_ENTRY, &[], &payload);
    }
}

// ---- modems with a table

pub fn modems(sides: &mut Sides, random: &mut Random) {
    let (native, advertised) = random.pick(&[(0x0100, 0x0100), (0x0200, 0x0100), (0x0200, 0x0200)]);
    let list = list(sides, random.once_in(2));
    let table = table(random);
    sides.step(q::MAKE_MODEM, &[native, advertised, MODEM_SIZE], &list);
    table.make(sides, PINS_SIZE);
    let pair = random.pick(&PAIRS);
    for _ in 0..12 {
        command(sides, random, &table, pair);
    }
}

/// An entry most often, and what lets entries through.
fn command(sides: &mut Sides, random: &mut Random, table: &Table, pair: (u32, u32)) {
    let (service, cid, information) = match random.below(16) {
        0 => return drop(sides.step(q::MODEM_OPEN, &[], &[])),
        1 if random.once_in(4) => return drop(sides.step(q::MODEM_CLOSE, &[], &[])),
        2..=4 => (BASIC_CONNECT, LIST, Vec::new()),
        5 | 6 => (EXTENSIONS, VERSION, version_payload(random)),
        7 => (service(random), random.mostly(&CIDS), version_payload(random)),
        _ => (BASIC_CONNECT, PIN, entry(sides, random, table, pair)),
    };
    let command_type = random.mostly(if cid == PIN { &[1, 1, 1, 0] } else { &[0, 0, 0, 1] });
    let message_type = random.mostly(&[COMMAND; 4]);
    let transaction = random.mostly(&[1, 2, 3]);
    let arguments = [random.room(12), message_type, transaction, cid, command_type];
    sides.step(q::PIN_RECEIVE, &arguments, &[&service[..], &information].concat());
}

// ---- the same at every run

pub fn sweep(sides: &mut Sides) {
    set_pin(sides);
    changed_numbers(sides, q::PIN_INFO_WRITE, &[12, 2, 1, 3], 1, &[]);
    rooms(sides, q::PIN_INFO_WRITE, &[2, 1, 3], &[], 12);
    let info = sides.ask(q::PIN_INFO_WRITE, &[12, 2, 1, 3], &[]).output;
    changed_bytes(sides, q::PIN_INFO_READ, &[], &info);
    made(sides);
    every_type(sides);
    every_run(sides);
    (0..3).for_each(|stage| received(sides, stage));
    received_rooms(sides);
}

fn set_pin(sides: &mut Sides) {
    let (good, texts) = ([2, 0, 8, 10], [0x31; 72]);
    changed_numbers(sides, q::SET_PIN_WRITE, &[&[ROOM], &good[..]].concat(), 1, &texts);
    rooms(sides, q::SET_PIN_WRITE, &good, &texts, 44);
    for (pin, new) in (0..36).flat_map(|pin| [0, 2, 31, 32, 33].map(|new| (pin, new))) {
        let payload = sides.ask(q::SET_PIN_WRITE, &[ROOM, 11, 0, pin, new], &texts).output;
        sides.ask_by(&CHOICES, q::SET_PIN_READ, &[], &payload);
    }
    let payload = sides.ask(q::SET_PIN_WRITE, &[&[ROOM], &good[..]].concat(), &texts).output;
    changed_bytes(sides, q::SET_PIN_READ, &[], &payload);
    for changed in changed_pairs(&payload, &[8, 16], &[0, 1, 2, 8, 31, 32, 33, 34]) {
        sides.ask_by(&CHOICES, q::SET_PIN_READ, &[], &changed);
    }
    for changed in [&with_pair(&payload, 16, 52, 0)[..], &payload, &[]] {
        sides.ask_by(&number_choices(), q::SET_PIN_READ, &[], changed);
    }
    for length in 4094..4099 {
        let mut changed = payload.clone();
        changed.resize(length, 0);
        sides.ask_by(&CHOICES, q::SET_PIN_READ, &[], &changed);
    }
}

/// A table in which every type is there, enabled, with three tries; its text tells the type.
fn full() -> Table {
    let mut table = Table::empty();
    (1..=ROWS as u32).for_each(|pin_type| table.add(pin_type, 1, 3, &[pin_type as u8, 0]));
    table
}

/// Each number of each row, and each size of memory.
fn made(sides: &mut Sides) {
    let table = full();
    for size in [PINS_SIZE].into_iter().chain(0..PINS_SIZE) {
        table.make(sides, size);
    }
    let arguments = [&[PINS_SIZE], &table.numbers.concat()[..]].concat();
    changed_numbers(sides, q::MAKE_PINS, &arguments, 0, &table.secrets.concat());
}

/// Every type with every operation; then, of each type, entries until nothing is left.
fn every_type(sides: &mut Sides) {
    for (pin_type, operation) in (0..19).flat_map(|pin_type| (0..5).map(move |op| (pin_type, op))) {
        full().make(sides, PINS_SIZE);
        let mut payload = entered(sides, 2, 0, &[pin_type as u8, 0], &[]);
        put(&mut payload, 0, pin_type);
        put(&mut payload, 4, operation);
        sides.step(q::PIN_ENTRY, &[], &payload);
    }
    full().make(sides, PINS_SIZE);
    for pin_type in (1..=ROWS as u32).chain(1..=ROWS as u32) {
        for text in [[0, 0], [0, 0], [0, 0], [0, 0], [pin_type as u8, 0]] {
            let payload = entered(sides, pin_type, 0, &text, &[9, 9]);
            sides.step(q::PIN_ENTRY, &[], &payload);
        }
    }
}

/// A PIN with few tries or none, disabled or not, with a PUK of few tries or none or without: every run of
/// four entries, each the PIN's or the PUK's, right or wrong.
fn every_run(sides: &mut Sides) {
    let mut payloads = Vec::new();
    for pin_type in [2, 11] {
        for text in [[1, 0], [0, 0]] {
            payloads.push(entered(sides, pin_type, 0, &text, &[1, 0]));
        }
    }
    for (enabled, tries) in [(0, 0), (0, 2), (1, 0), (1, 1), (1, 2)] {
        for puk_tries in [None, Some(0), Some(1), Some(2)] {
            let mut table = Table::empty();
            table.add(2, enabled, tries, &[1, 0]);
            if let Some(tries) = puk_tries {
                table.add(11, 0, tries, &[1, 0]);
            }
            for run in 0..4usize.pow(4) {
                table.make(sides, PINS_SIZE);
                for step in 0..4 {
                    let payload = &payloads[run / 4usize.pow(step) % 4];
                    sides.step(q::PIN_ENTRY, &[], payload);
                }
            }
        }
    }
}

/// Each number of a message to a modem at this stage, with entries that come to each answer.
fn received(sides: &mut Sides, stage: u64) {
    let list = list(sides, true);
    let right = entered(sides, 2, 0, &[2, 0], &[]);
    let wrong = entered(sides, 2, 0, &[1, 0], &[]);
    let refused = with_pair(&right, 16, 24, 0);
    for (service, cid) in COMMANDS {
        for information in [&right, &wrong, &refused] {
            let input = [&service[..], information].concat();
            let good = [ROOM, COMMAND.into(), 1, cid, 1];
            for (place, number) in changes(good.len() - 1) {
                let mut arguments = good;
                arguments[place + 1] = number;
                modem_at(sides, stage, &list);
                full().make(sides, PINS_SIZE);
                sides.step(q::PIN_RECEIVE, &arguments, &input);
            }
            if cid != PIN {
                break;
            }
        }
    }
}

/// Every room, for an entry that is answered, one of status 9 and a refused one.
fn received_rooms(sides: &mut Sides) {
    let list = list(sides, true);
    let right = entered(sides, 2, 0, &[2, 0], &[]);
    let other = entered(sides, 2, 3, &[2, 0], &[]);
    let refused = with_pair(&right, 16, 24, 0);
    for (stage, room) in (0..3).flat_map(|stage| (0..14).map(move |room| (stage, room))) {
        for information in [&right, &other, &refused] {
            modem_at(sides, stage, &list);
            full().make(sides, PINS_SIZE);
            let input = [&BASIC_CONNECT[..], information].concat();
            sides.step(q::PIN_RECEIVE, &[room, COMMAND.into(), 1, PIN, 1], &input);
        }
    }
}
