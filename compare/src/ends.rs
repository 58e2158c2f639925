//! The two ends of the handshake: random calls, and whole runs of one against the other.

use crate::damage;
use crate::messages::carry;
use crate::random::Random;
use crate::services::service;
use crate::sides::Sides;
use second::flat::{question as q, Answer, MODEM_SIZE};
use second::message::{COMMAND, COMMAND_DONE, INDICATE_STATUS};
use second::payload::{BASIC_CONNECT, EXTENSIONS};

const LIST: u64 = 16;
const VERSION: u64 = 15;
const ROOM: u64 = 4096;

/// A list with or without VERSION, from either side's writer.
pub fn list(sides: &mut Sides, lists_version: bool) -> Vec<u8> {
    let mut arguments = vec![ROOM, 1, 0, 0, 0, 5, 4, 9, 10, 11, 16];
    let mut services = BASIC_CONNECT.to_vec();
    if lists_version {
        arguments[1] = 2;
        arguments.extend([0, 0, 1, VERSION]);
        services.extend(EXTENSIONS);
    }
    sides.ask(q::SERVICES_WRITE, &arguments, &services).output
}

pub fn version_payload(random: &mut Random) -> Vec<u8> {
    let extension = (random.version() as u16).to_le_bytes();
    let payload = [0x00, 0x01, extension[0], extension[1]];
    if random.once_in(4) {
        return damage::damaged(random, &payload);
    }
    payload.to_vec()
}

fn list_payload(sides: &mut Sides, random: &mut Random) -> Vec<u8> {
    let payload = list(sides, random.once_in(2));
    if random.once_in(4) {
        return damage::damaged(random, &payload);
    }
    payload
}

pub fn host(sides: &mut Sides, random: &mut Random) {
    let native = random.pick(&[0x0100, 0x0200, 0x0200]);
    sides.step(q::MAKE_HOST, &[native], &[]);
    for _ in 0..8 {
        host_call(sides, random);
    }
}

fn host_call(sides: &mut Sides, random: &mut Random) {
    match random.below(14) {
        0 => sides.step(q::MAKE_HOST, &[random.version()], &[]),
        1..=3 => sides.step(q::HOST_OPEN, &[random.version()], &[]),
        4 => sides.step(q::HOST_CLOSE, &[], &[]),
        5 | 6 => sides.step(q::HOST_NEXT, &[random.room(4)], &[]),
        _ => host_receive(sides, random),
    };
}

/// A reply to DEVICE_SERVICES or VERSION most often.
fn host_receive(sides: &mut Sides, random: &mut Random) -> Answer {
    let message_type = random.mostly(&[COMMAND_DONE; 8]);
    let message_type = if random.once_in(12) { other_type(random) } else { message_type };
    let transaction = random.hostile().into();
    let status = random.mostly(&[0, 0, 0, 9]);
    let (service, cid, information) = match random.below(8) {
        0..=3 => (BASIC_CONNECT, LIST, list_payload(sides, random)),
        4..=6 => (EXTENSIONS, VERSION, version_payload(random)),
        _ => (service(random), random.mostly(&CIDS), version_payload(random)),
    };
    let input = [&service[..], &information].concat();
    sides.step(q::HOST_RECEIVE, &[message_type, transaction, cid, status], &input)
}

pub const CIDS: [u32; 7] = [4, 9, 10, 11, 12, 15, 16];

/// A message type that an end has no business with.
fn other_type(random: &mut Random) -> u64 {
    random.mostly(&[1, 2, COMMAND, COMMAND_DONE, INDICATE_STATUS, 4])
}

pub fn modem(sides: &mut Sides, random: &mut Random) {
    let (native, advertised) = random.pick(&[(0x0100, 0x0100), (0x0200, 0x0100), (0x0200, 0x0200)]);
    let list = list(sides, random.once_in(2));
    sides.step(q::MAKE_MODEM, &[native, advertised, MODEM_SIZE], &list);
    for _ in 0..8 {
        modem_call(sides, random);
    }
}

fn modem_call(sides: &mut Sides, random: &mut Random) {
    match random.below(12) {
        0 => {
            let numbers = [random.version(), random.version(), random.room(MODEM_SIZE as usize)];
            let list = list_payload(sides, random);
            sides.step(q::MAKE_MODEM, &numbers, &list)
        }
        1 => sides.step(q::MODEM_OPEN, &[], &[]),
        2 => sides.step(q::MODEM_CLOSE, &[], &[]),
        3..=5 => modem_receive(sides, random, BASIC_CONNECT, LIST),
        6..=8 => modem_receive(sides, random, EXTENSIONS, VERSION),
        _ => {
            let cid = random.mostly(&CIDS);
            let service = service(random);
            modem_receive(sides, random, service, cid)
        }
    };
}

/// A command most often.
fn modem_receive(sides: &mut Sides, random: &mut Random, service: [u8; 16], cid: u64) -> Answer {
    let room = random.room(4);
    let message_type = if random.once_in(12) { other_type(random) } else { COMMAND.into() };
    let transaction = if random.once_in(12) { 0 } else { random.hostile().into() };
    let command_type = random.mostly(&[0, 0, 0, 0, 1]);
    let input = [&service[..], &version_payload(random)].concat();
    let arguments = [room, message_type, transaction, cid, command_type];
    sides.step(q::MODEM_RECEIVE, &arguments, &input)
}

/// The list and its reply, then VERSION or another command, through cutter and assembly.
pub fn run(sides: &mut Sides, random: &mut Random) {
    let (native, advertised) = random.pick(&[(0x0100, 0x0100), (0x0200, 0x0100), (0x0200, 0x0200)]);
    let list = list(sides, random.once_in(2));
    sides.step(q::EMPTY_ASSEMBLY, &[], &[]);
    sides.step(q::MAKE_HOST, &[random.pick(&[0x0100, 0x0200])], &[]);
    sides.step(q::MAKE_MODEM, &[native, advertised, MODEM_SIZE], &list);
    sides.step(q::HOST_OPEN, &[advertised], &[]);
    sides.step(q::MODEM_OPEN, &[], &[]);
    to_modem(sides, 1, LIST, &[]);
    let reply = to_host(sides, 1, LIST, &list).numbers;
    if reply[0] == 0 {
        settle(sides);
    }
}

fn settle(sides: &mut Sides) {
    let next = sides.step(q::HOST_NEXT, &[ROOM], &[]);
    if next.numbers[1] != 2 {
        to_modem(sides, 2, 11, &[]);
        return;
    }
    let answered = to_modem(sides, 2, VERSION, &next.output).output;
    to_host(sides, 2, VERSION, &answered);
}

fn service_of(cid: u64) -> [u8; 16] {
    if cid == VERSION {
        EXTENSIONS
    } else {
        BASIC_CONNECT
    }
}

/// A query on its way to the modem.
fn to_modem(sides: &mut Sides, transaction: u64, cid: u64, information: &[u8]) -> Answer {
    let (head, service) = ([COMMAND.into(), transaction, cid, 0], service_of(cid));
    let information = carry(sides, head, service, information);
    let input = [&service[..], &information].concat();
    sides.step(q::MODEM_RECEIVE, &[&[ROOM], &head[..]].concat(), &input)
}

/// A good reply on its way to the host.
fn to_host(sides: &mut Sides, transaction: u64, cid: u64, information: &[u8]) -> Answer {
    let (head, service) = ([COMMAND_DONE.into(), transaction, cid, 0], service_of(cid));
    let information = carry(sides, head, service, information);
    let input = [&service[..], &information].concat();
    sides.step(q::HOST_RECEIVE, &head, &input)
}
