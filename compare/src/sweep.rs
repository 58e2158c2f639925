//! The same at every run: each field of good records, payloads and messages in turn takes numbers at
//! and around the limits, and each payload is cut short at every length. A reader with a choice is asked
//! without it, by each and by a number that is none.

use crate::asks;
use crate::library::WHOLE;
use crate::messages::fragments;
use crate::payloads::put;
use crate::pins;
use crate::services::{same_all, same_written};
use crate::sides::Sides;
use crate::streams;
use second::flat::{question as q, ASSEMBLY_SIZE, MODEM_SIZE};
use second::message::{COMMAND, COMMAND_DONE, INDICATE_STATUS};
use second::payload::{BASIC_CONNECT, EXTENSIONS};

const ROOM: u64 = 4096;
const VERSIONS: [u64; 2] = [0x0100, 0x0200];
/// The choices, and a number that is none.
pub const CHOICES: [u64; 3] = [0, 1, 2];

/// Limits; each is taken with its neighbours.
const LIMITS: [u32; 28] = [
    1,
    4,
    7,
    12,
    16,
    17,
    20,
    24,
    28,
    31,
    32,
    36,
    40,
    44,
    48,
    52,
    64,
    99,
    126,
    128,
    256,
    324,
    512,
    540,
    4096,
    0x807F_003F,
    0x807F_00FF,
    0xFFFF_FFFE,
];

pub fn numbers() -> impl Iterator<Item = u32> {
    let near = LIMITS.into_iter().flat_map(|limit| limit - 1..=limit + 1);
    near.chain((0..32).map(|bit| 1 << bit)).chain([0xFFFF_FFFC])
}

pub fn all(sides: &mut Sides) {
    for version in VERSIONS {
        packet(sides, version);
        registration(sides, version);
        signal(sides, version);
        class_pairs(sides, version);
    }
    version_info(sides);
    services(sides);
    service_lists(sides);
    asks::sweep(sides);
    codes(sides);
    whole(sides);
    for message_type in [COMMAND, COMMAND_DONE, INDICATE_STATUS] {
        message(sides, message_type);
    }
    door(sides);
    streams::sweep(sides);
    (0..4).for_each(|stage| host(sides, stage));
    (0..4).for_each(|stage| host_lists(sides, stage));
    (0..3).for_each(|stage| modem(sides, stage));
    made(sides);
    pins::sweep(sides);
}

/// Writes with each number of the record changed, and reads the payload with each word changed. Gives
/// the payload.
fn record(sides: &mut Sides, write: u32, read: u32, record: &[u64], input: &[u8]) -> Vec<u8> {
    let good = [&[ROOM], record].concat();
    changed_numbers(sides, write, &good, 1, input);
    let payload = sides.ask(write, &good, input).output;
    for version in VERSIONS {
        changed_bytes(sides, read, &[version], &payload);
    }
    rooms(sides, write, record, input, payload.len());
    payload
}

/// Asks with every room up to one more than is needed.
pub fn rooms(sides: &mut Sides, question: u32, rest: &[u64], input: &[u8], needed: usize) {
    for room in 0..needed as u64 + 2 {
        sides.ask_by(&CHOICES, question, &[&[room], rest].concat(), input);
    }
}

/// Asks with each argument from this one on changed; a room is none of them.
pub fn changed_numbers(sides: &mut Sides, question: u32, good: &[u64], from: usize, input: &[u8]) {
    for place in from..good.len() {
        for number in numbers() {
            let mut arguments = good.to_vec();
            arguments[place] = number.into();
            sides.ask_by(&CHOICES, question, &arguments, input);
        }
    }
}

/// Asks with each word of the input changed, and with each length up to one more.
pub fn changed_bytes(sides: &mut Sides, question: u32, arguments: &[u64], good: &[u8]) {
    for place in (0..good.len()).step_by(4) {
        for number in numbers() {
            let mut input = good.to_vec();
            put(&mut input, place, number);
            sides.ask_by(&CHOICES, question, arguments, &input);
        }
    }
    for length in 0..good.len() + 2 {
        let mut input = good.to_vec();
        input.resize(length, 0);
        sides.ask_by(&CHOICES, question, arguments, &input);
    }
}

/// Sizes of a pair; 0 too.
const SIZES: [u32; 6] = [0, 4, 11, 24, 28, 541];

/// The payload with offset and size of each pair in turn changed together; each size stands beside each
/// offset.
pub fn changed_pairs(good: &[u8], places: &[usize], sizes: &[u32]) -> Vec<Vec<u8>> {
    let mut changed = Vec::new();
    for place in places {
        for offset in numbers().chain([good.len() as u32]) {
            for size in sizes {
                changed.push(with_pair(good, *place, offset, *size));
            }
        }
    }
    changed
}

pub fn with_pair(good: &[u8], place: usize, offset: u32, size: u32) -> Vec<u8> {
    let mut payload = good.to_vec();
    put(&mut payload, place, offset);
    put(&mut payload, place + 4, size);
    payload
}

/// Reads with each pair changed; then a size of 0 beside an offset, and no bytes, at every number for a
/// version and by every number for a choice.
fn pairs(sides: &mut Sides, question: u32, version: u64, good: &[u8], places: &[usize]) {
    for payload in changed_pairs(good, places, &SIZES) {
        sides.ask_by(&CHOICES, question, &[version], &payload);
    }
    for payload in [&with_pair(good, places[0], 52, 0)[..], &[]] {
        changed_numbers(sides, question, &[version], 0, payload);
        sides.ask_by(&number_choices(), question, &[version], payload);
    }
}

pub fn number_choices() -> Vec<u64> {
    numbers().map(u64::from).collect()
}

fn packet(sides: &mut Sides, version: u64) {
    let good = [version, 0, 2, 0x20, 0x40, 1, 50_000_000, 150_000_000];
    record(sides, q::PACKET_WRITE, q::PACKET_READ, &good, &[]);
}

/// Every pair of bits in each field that holds data classes; a packet service also beside each state
/// and a frequency range, where contradictions show.
fn class_pairs(sides: &mut Sides, version: u64) {
    let packet = sides.ask(q::PACKET_WRITE, &[ROOM, version, 0, 2, 8, 8, 0, 5, 6], &[]).output;
    let home = [ROOM, version, 0, 3, 1, 8, 1, 0, 8, 0, 0, 0];
    let home = sides.ask(q::REGISTRATION_WRITE, &home, &[]).output;
    let quiet = [ROOM, version, 99, 99, 5, 0, 0, 1, 127, 128, 0, 0, 8];
    let signal = sides.ask(q::SIGNAL_WRITE, &quiet, &[]).output;
    for class in (0..32).flat_map(|high| (0..high).map(move |low| 1 << low | 1 << high)) {
        for (state, range) in (0..5).flat_map(|state| [(state, 0), (state, 1)]) {
            let arguments = [ROOM, version, 0, state, class, class, range, 5, 6];
            sides.ask(q::PACKET_WRITE, &arguments, &[]);
        }
        let changed = |payload: &[u8], place| {
            let mut payload = payload.to_vec();
            put(&mut payload, place, class as u32);
            payload
        };
        sides.ask(q::PACKET_READ, &[version], &changed(&packet, 8));
        for place in (12..home.len()).step_by(36) {
            sides.ask(q::REGISTRATION_READ, &[version], &changed(&home, place));
        }
        if signal.len() > 48 {
            sides.ask(q::SIGNAL_READ, &[version], &changed(&signal, 48));
        }
    }
}

fn registration(sides: &mut Sides, version: u64) {
    let good = [version, 0, 3, 1, 0x20, 1, 0, 0x20, 10, 4, 126];
    let payload = record(sides, q::REGISTRATION_WRITE, q::REGISTRATION_READ, &good, &[0x30; 150]);
    pairs(sides, q::REGISTRATION_READ, version, &payload, &[20, 28, 36]);
    let unregistered = [version, 0, 2, 1, 0, 1, 0, 0x20, 0, 0, 0];
    record(sides, q::REGISTRATION_WRITE, q::REGISTRATION_READ, &unregistered, &[]);
}

fn signal(sides: &mut Sides, version: u64) {
    let known = [version, 99, 7, 5, 0, 0, 2, 60, 87, 0, 0, 0x20, 0, 128, 0, 0, 0x40];
    let payload = record(sides, q::SIGNAL_WRITE, q::SIGNAL_READ, &known, &[]);
    pairs(sides, q::SIGNAL_READ, version, &payload, &[20]);
    let quiet = [version, 31, 99, 5, 0, 0, 1, 127, 128, 0, 0, 0x80];
    record(sides, q::SIGNAL_WRITE, q::SIGNAL_READ, &quiet, &[]);
    record(sides, q::SIGNAL_WRITE, q::SIGNAL_READ, &[version, 31, 99, 5, 0, 0, 0], &[]);
}

fn version_info(sides: &mut Sides) {
    changed_numbers(sides, q::VERSION_WRITE, &[4, 0x0100, 0x0200], 1, &[]);
    rooms(sides, q::VERSION_WRITE, &[0x0100, 0x0200], &[], 4);
    changed_bytes(sides, q::VERSION_READ, &[], &[0x00, 0x01, 0x00, 0x02]);
    for number in 0..=u16::MAX {
        let [low, high] = number.to_le_bytes();
        sides.ask(q::VERSION_READ, &[], &[0x00, 0x01, low, high]);
    }
}

fn services(sides: &mut Sides) {
    let good = [ROOM, 3, 7, 1, 2, 2, 14, 16, 3, 4, 0, 5, 6, 1, 15];
    let ids = [EXTENSIONS, BASIC_CONNECT, EXTENSIONS].concat();
    changed_numbers(sides, q::SERVICES_WRITE, &good, 1, &ids);
    let payload = sides.ask(q::SERVICES_WRITE, &good, &ids).output;
    changed_bytes(sides, q::SERVICES_READ, &[], &payload);
    service_pairs(sides, &payload);
    for room in 0..4 {
        changed_numbers(sides, q::ELEMENT, &[room, 1], 1, &payload);
    }
    for service in [EXTENSIONS, BASIC_CONNECT, [0; 16]] {
        let input = [&service[..], &payload].concat();
        rooms(sides, q::SERVICE_CIDS, &[], &input, 2);
        for cid in numbers() {
            asks::ask(sides, &CHOICES, cid.into(), &input);
        }
    }
}

/// A list with each pair changed; then the list, one with a size of 0 beside an offset, and no bytes, by
/// every number for a choice.
fn service_pairs(sides: &mut Sides, good: &[u8]) {
    for payload in changed_pairs(good, &[8, 16, 24], &SIZES) {
        about_list(sides, &CHOICES, &payload);
    }
    for payload in [good, &with_pair(good, 8, 52, 0), &[]] {
        about_list(sides, &number_choices(), payload);
    }
}

/// Every question about a list, without a choice and by each of these.
fn about_list(sides: &mut Sides, choices: &[u64], payload: &[u8]) {
    let input = [&EXTENSIONS[..], payload].concat();
    sides.ask_by(choices, q::SERVICES_READ, &[], payload);
    sides.ask_by(choices, q::ELEMENT, &[128, 1], payload);
    sides.ask_by(choices, q::SERVICE_CIDS, &[128], &input);
    asks::ask(sides, choices, 15, &input);
    same_all(sides, choices, payload, (224, 4096));
}

/// Lists to be written: each number changed, each list cut short at every length, each room.
fn service_lists(sides: &mut Sides) {
    let fields = [1, 2, 3, 4, 5, 6, 2, 7, 8, 9, 10, 11, 12, 0, 13, 14, 15, 16, 17, 18, 1];
    let cids = [14, 16, 15];
    for place in 0..fields.len() {
        for number in numbers() {
            let mut fields = fields;
            fields[place] = number;
            same_written(sides, 7, &fields, &cids, ROOM as usize);
        }
    }
    for number in numbers() {
        same_written(sides, number, &fields, &[number; 3], ROOM as usize);
    }
    for length in 0..=fields.len() {
        for given in 0..=cids.len() {
            same_written(sides, 7, &fields[..length], &cids[..given], ROOM as usize);
        }
    }
    for count in 0..34 {
        same_written(sides, 7, &[9, 9, 9, 9, 9, 9, 0].repeat(count), &[], ROOM as usize);
    }
    for room in 0..=8 + 3 * 36 + 3 * 4 + 1 {
        same_written(sides, 7, &fields, &cids, room);
    }
}

fn codes(sides: &mut Sides) {
    for question in [q::RSRP, q::SNR, q::BARS, q::NEXT_TRANSACTION] {
        (0..140).for_each(|code| drop(sides.ask(question, &[code], &[])));
        changed_numbers(sides, question, &[0], 0, &[]);
    }
}

fn whole(sides: &mut Sides) {
    for message_type in WHOLE {
        let head = [message_type.into(), 7, 4096];
        let message = sides.ask(q::WHOLE_WRITE, &[&[16], &head[..]].concat(), &[]).output;
        changed_bytes(sides, q::WHOLE_MESSAGE, &[], &message);
        changed_numbers(sides, q::WHOLE_WRITE, &[&[16], &head[..]].concat(), 1, &[]);
        rooms(sides, q::WHOLE_WRITE, &head, &[], message.len());
    }
}

/// Whole messages while another is pending, each word changed, each length; and memory too small.
fn door(sides: &mut Sides) {
    let head = [COMMAND.into(), 7, 11, 0];
    let pieces = fragments(sides, 64, head, BASIC_CONNECT, &[9; 100]);
    let all = [ROOM, ASSEMBLY_SIZE];
    sides.ask(q::EMPTY_ASSEMBLY, &[], &[]);
    sides.ask(q::RECEIVE, &all, &pieces[0]);
    for message_type in WHOLE {
        let arguments = [16, message_type.into(), 7, 4096];
        let message = sides.ask(q::WHOLE_WRITE, &arguments, &[]).output;
        for place in (4..message.len()).step_by(4) {
            for number in numbers() {
                let mut changed = message.clone();
                put(&mut changed, place, number);
                sides.ask(q::RECEIVE, &all, &changed);
            }
        }
        for length in 4..message.len() + 60 {
            let mut cut = message.clone();
            cut.resize(length, 0);
            sides.ask(q::RECEIVE, &all, &cut);
        }
        for size in [0, 1, 48, 4096, ASSEMBLY_SIZE - 1] {
            sides.ask(q::RECEIVE, &[ROOM, size], &message);
            sides.ask(q::RECEIVE, &[ROOM, size], &message[..3]);
        }
        sides.step(q::RECEIVE, &[0, ASSEMBLY_SIZE], &message);
    }
    for piece in &pieces[1..] {
        sides.step(q::RECEIVE, &all, piece);
    }
}

/// The cutter's numbers, then each word of a first and of a later fragment.
fn message(sides: &mut Sides, message_type: u32) {
    let transaction = if message_type == INDICATE_STATUS { 0 } else { 7 };
    let head = [message_type.into(), transaction, 11, 0];
    let information = [9; 100];
    let input = [&BASIC_CONNECT[..], &information].concat();
    let cut = [&[64], &head[..]].concat();
    changed_numbers(sides, q::CUT, &[&[7000], &cut[..]].concat(), 1, &input);
    rooms(sides, q::CUT, &cut, &input, 200);
    changed_numbers(sides, q::PAYLOAD_KIND, &[head[0], 11, 0], 0, &BASIC_CONNECT);
    changed_numbers(sides, q::PAYLOAD_KIND, &[head[0], 4, 0], 0, &BASIC_CONNECT);
    let pieces = fragments(sides, 64, head, BASIC_CONNECT, &information);
    for (number, piece) in pieces.iter().enumerate() {
        for place in (0..piece.len().min(48)).step_by(4) {
            for value in numbers() {
                let mut changed = piece.clone();
                put(&mut changed, place, value);
                feed_after(sides, &pieces[..number], &changed);
            }
        }
    }
}

/// Feeds a piece after those that come before it.
fn feed_after(sides: &mut Sides, before: &[Vec<u8>], piece: &[u8]) {
    sides.ask(q::EMPTY_ASSEMBLY, &[], &[]);
    for earlier in before {
        sides.ask(q::RECEIVE, &[ROOM, ASSEMBLY_SIZE], earlier);
    }
    sides.step(q::RECEIVE, &[ROOM, ASSEMBLY_SIZE], piece);
}

/// A list of one element with VERSION.
fn list(sides: &mut Sides) -> Vec<u8> {
    sides.ask(q::SERVICES_WRITE, &[ROOM, 1, 0, 0, 0, 1, 15], &EXTENSIONS).output
}

const ASK: [u8; 4] = [0, 1, 0, 2];

/// A service and CID of either handshake command, of others, and of none.
pub const COMMANDS: [([u8; 16], u64); 6] = [
    (BASIC_CONNECT, 16),
    (EXTENSIONS, 15),
    (BASIC_CONNECT, 11),
    (BASIC_CONNECT, 4),
    (EXTENSIONS, 16),
    ([0; 16], 15),
];

/// A host of 2.00: closed, opened, asking VERSION, settled.
fn host_at(sides: &mut Sides, stage: u64, list: &[u8]) {
    let done = COMMAND_DONE.into();
    sides.ask(q::MAKE_HOST, &[0x0200], &[]);
    if stage > 0 {
        sides.ask(q::HOST_OPEN, &[0x0100], &[]);
    }
    if stage > 1 {
        let input = [&BASIC_CONNECT[..], list].concat();
        sides.ask(q::HOST_RECEIVE, &[done, 1, 16, 0], &input);
    }
    if stage > 2 {
        let input = [&EXTENSIONS[..], &ASK].concat();
        sides.ask(q::HOST_RECEIVE, &[done, 2, 15, 0], &input);
    }
}

/// Each number of a message to a host at this stage, with information good for it or not.
fn host(sides: &mut Sides, stage: u64) {
    let list = list(sides);
    for (service, cid) in COMMANDS {
        for information in [&list[..], &ASK, &[]] {
            let good = [COMMAND_DONE.into(), 1, cid, 0];
            let input = [&service[..], information].concat();
            for (place, number) in changes(good.len()) {
                let mut arguments = good;
                arguments[place] = number;
                host_at(sides, stage, &list);
                sides.step(q::HOST_RECEIVE, &arguments, &input);
            }
        }
    }
}

/// The pair of a list changed, in a reply to a host at this stage.
fn host_lists(sides: &mut Sides, stage: u64) {
    let list = list(sides);
    for changed in changed_pairs(&list, &[8], &SIZES) {
        let input = [&BASIC_CONNECT[..], &changed].concat();
        host_at(sides, stage, &list);
        sides.step(q::HOST_RECEIVE, &[COMMAND_DONE.into(), 1, 16, 0], &input);
    }
}

/// Places of so many arguments with the numbers that they take in turn; message types too.
pub fn changes(count: usize) -> impl Iterator<Item = (usize, u64)> {
    let types = WHOLE.into_iter().chain([COMMAND, COMMAND_DONE, INDICATE_STATUS]);
    let numbers: Vec<u32> = numbers().chain(types).collect();
    (0..count).flat_map(move |place| {
        let numbers = numbers.clone();
        numbers.into_iter().map(move |number| (place, number.into()))
    })
}

/// A modem of 2.00 that advertises 1.00: at its start, list served, settled by VERSION.
pub fn modem_at(sides: &mut Sides, stage: u64, list: &[u8]) {
    sides.ask(q::MAKE_MODEM, &[0x0200, 0x0100, MODEM_SIZE], list);
    if stage > 0 {
        sides.ask(q::MODEM_RECEIVE, &[ROOM, COMMAND.into(), 1, 16, 0], &BASIC_CONNECT);
    }
    if stage > 1 {
        let input = [&EXTENSIONS[..], &ASK].concat();
        sides.ask(q::MODEM_RECEIVE, &[ROOM, COMMAND.into(), 2, 15, 0], &input);
    }
}

/// Each number of a message to a modem at this stage.
fn modem(sides: &mut Sides, stage: u64) {
    let list = list(sides);
    for (service, cid) in COMMANDS {
        for information in [&ASK[..], &[]] {
            let good = [ROOM, COMMAND.into(), 1, cid, 0];
            let input = [&service[..], information].concat();
            for (place, number) in changes(good.len() - 1) {
                let mut arguments = good;
                arguments[place + 1] = number;
                modem_at(sides, stage, &list);
                sides.step(q::MODEM_RECEIVE, &arguments, &input);
            }
        }
    }
}

/// A modem's versions, each word and the pair of its list of services, and its memory.
fn made(sides: &mut Sides) {
    let list = list(sides);
    for changed in changed_pairs(&list, &[8], &SIZES) {
        sides.step(q::MAKE_MODEM, &[0x0200, 0x0100, MODEM_SIZE], &changed);
    }
    for size in 0..=MODEM_SIZE {
        changed_bytes(sides, q::MAKE_MODEM, &[0x0200, 0x0100, size], &list);
    }
    changed_numbers(sides, q::MAKE_MODEM, &[0x0200, 0x0100, 9], 0, &list);
}
