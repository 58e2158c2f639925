//! Whole messages, the cutter, the payload kind, and runs of pieces.

use crate::damage;
use crate::library::{u32_at, WHOLE};
use crate::payloads::put;
use crate::random::Random;
use crate::services::service;
use crate::sides::Sides;
use second::flat::{question as q, ASSEMBLY_SIZE};
use second::message::{COMMAND, COMMAND_DONE, INDICATE_STATUS};

const FRAGMENTED: [u32; 3] = [COMMAND, COMMAND_DONE, INDICATE_STATUS];
const TYPES: [u32; 11] =
    [1, 2, 4, 0x8000_0001, 0x8000_0002, 0x8000_0004, 3, 0x8000_0003, 0x8000_0007, 0, 5];
const CIDS: [u32; 7] = [4, 9, 10, 11, 15, 16, 12];

pub fn whole(sides: &mut Sides, random: &mut Random) {
    let message_type = random.mostly(&TYPES);
    let (transaction, word) = (random.hostile(), random.hostile());
    let head = [message_type, transaction.into(), word.into()];
    let written = sides.ask(q::WHOLE_WRITE, &[&[random.room(16)], &head[..]].concat(), &[]);
    sides.ask(q::WHOLE_MESSAGE, &[], &written.output);
    let message = whole_message(random, &TYPES);
    sides.ask(q::WHOLE_MESSAGE, &[], &message);
    let message = damage::damaged(random, &message);
    sides.ask(q::WHOLE_MESSAGE, &[], &message);
}

/// A message of one of these types, most often of a good length.
fn whole_message(random: &mut Random, types: &[u32]) -> Vec<u8> {
    let mut message = vec![0; random.pick(&[12, 16, 16, 16, 20])];
    let length = message.len() as u32;
    put(&mut message, 0, random.mostly(types) as u32);
    put(&mut message, 4, length);
    put(&mut message, 8, random.hostile());
    put(&mut message, 12, random.hostile());
    message
}

pub fn kind(sides: &mut Sides, random: &mut Random) {
    let message_type = match random.below(6) {
        0 => random.mostly(&TYPES),
        _ => random.pick(&FRAGMENTED).into(),
    };
    let arguments = [message_type, random.mostly(&CIDS), random.mostly(&[0, 0, 1, 2, 9])];
    sides.ask(q::PAYLOAD_KIND, &arguments, &service(random));
    sides.ask(q::NEXT_TRANSACTION, &[random.hostile().into()], &[]);
}

/// A message that the cutter takes: type, transaction, CID, word.
fn good_head(random: &mut Random) -> [u64; 4] {
    let message_type = random.pick(&FRAGMENTED);
    let transaction = match message_type {
        INDICATE_STATUS => 0,
        _ => random.pick(&[1, 7, 7, 8, u32::MAX]).into(),
    };
    let word = if message_type == COMMAND { random.below(2) } else { random.below(12) };
    [message_type.into(), transaction, random.pick(&CIDS).into(), word as u64]
}

fn information(random: &mut Random) -> Vec<u8> {
    let length = match random.below(24) {
        0 => 4094 + random.below(5),
        1 => random.below(4097),
        2..=8 => random.below(20),
        _ => random.below(300),
    };
    random.bytes(length)
}

fn transfer_size(random: &mut Random) -> u64 {
    match random.below(16) {
        0 => random.near(64).into(),
        1 => random.near(4096).into(),
        2 => random.pick(&[0, 20, 48, 0x1_0000_0040, u64::MAX]),
        3 => 64 + random.below(4033) as u64,
        _ => 64 + random.below(64) as u64,
    }
}

pub fn cut(sides: &mut Sides, random: &mut Random) {
    let head = match random.below(3) {
        0 => [
            random.mostly(&TYPES),
            random.mostly(&[0, 1, 7]),
            random.mostly(&CIDS),
            random.mostly(&[0, 1, 2]),
        ],
        _ => good_head(random),
    };
    let information = information(random);
    let size = transfer_size(random);
    let input = [&service(random)[..], &information].concat();
    let enough = sides.ask(q::CUT, &[&[7000, size], &head[..]].concat(), &input).output.len();
    let room = random.room(enough);
    sides.ask(q::CUT, &[&[room, size], &head[..]].concat(), &input);
}

/// Cuts a message and gives its fragments.
pub fn fragments(
    sides: &mut Sides,
    size: u64,
    head: [u64; 4],
    service: [u8; 16],
    information: &[u8],
) -> Vec<Vec<u8>> {
    let input = [&service[..], information].concat();
    let output = sides.ask(q::CUT, &[&[7000, size], &head[..]].concat(), &input).output;
    let mut rest = &output[..];
    let mut fragments = Vec::new();
    while rest.len() >= 20 {
        let (fragment, after) = rest.split_at(rest.len().min(u32_at(rest, 4) as usize));
        fragments.push(fragment.to_vec());
        rest = after;
    }
    fragments
}

/// A message parted by hand: fragments that are not full, and empty ones.
fn parted(random: &mut Random) -> Vec<Vec<u8>> {
    let [message_type, transaction, cid, word] = good_head(random).map(|number| number as u32);
    let information = information(random);
    let information = &information[..information.len().min(4096)];
    let total = 1 + random.below(5);
    let mut first = vec![0; if message_type == INDICATE_STATUS { 44 } else { 48 }];
    let place = first.len() - 4;
    first[20..36].copy_from_slice(&service(random));
    put(&mut first, 36, cid);
    put(&mut first, 40, word);
    put(&mut first, place, information.len() as u32);
    let mut fragments = vec![first];
    fragments.extend((1..total).map(|_| vec![0; 20]));
    let mut rest = information;
    for (number, fragment) in fragments.iter_mut().enumerate() {
        let most = rest.len().min(4096 - fragment.len());
        let taken = if number + 1 == total { most } else { random.below(most + 1) };
        let (now, later) = rest.split_at(taken);
        fragment.extend(now);
        rest = later;
        let header =
            [message_type, fragment.len() as u32, transaction, total as u32, number as u32];
        header.iter().enumerate().for_each(|(at, word)| put(fragment, 4 * at, *word));
    }
    fragments
}

/// The fragments of a message.
fn message(sides: &mut Sides, random: &mut Random) -> Vec<Vec<u8>> {
    if random.once_in(3) {
        return parted(random);
    }
    let size = 64 + random.below(64) as u64;
    let (head, service) = (good_head(random), service(random));
    let information = information(random);
    fragments(sides, size, head, service, &information)
}

/// Drops, repeats, exchanges and damages fragments, and puts strays among them.
fn disturbed(random: &mut Random, pieces: &mut Vec<Vec<u8>>, strays: &[Vec<u8>]) {
    let place = random.below(pieces.len());
    match random.below(11) {
        0 if !pieces.is_empty() => drop(pieces.remove(place)),
        1 if !pieces.is_empty() => pieces.insert(place, pieces[place].clone()),
        2 if place + 1 < pieces.len() => pieces.swap(place, place + 1),
        3 if !pieces.is_empty() => pieces[place] = damage::damaged(random, &pieces[place]),
        4 if !strays.is_empty() => pieces.insert(place, random.pick_from(strays)),
        5 => pieces.insert(place, stray(random)),
        8 => pieces.insert(place, whole_message(random, &WHOLE)),
        9 => {
            let message = whole_message(random, &WHOLE);
            pieces.insert(place, damage::damaged(random, &message));
        }
        6 | 7 if !pieces.is_empty() => change_field(random, &mut pieces[place]),
        _ => {}
    }
}

/// Another number in a field of the header, or another length that its field agrees with.
fn change_field(random: &mut Random, piece: &mut Vec<u8>) {
    let field = random.pick(&[0, 4, 8, 12, 16, 36, 40, 44]);
    if field == 4 {
        let length = random.pick(&[19, 20, 21, 43, 44, 47, 48, 49, 4096, 4097]);
        piece.resize(length, 0);
        put(piece, 4, length as u32);
    } else if piece.len() >= field + 4 {
        let old = u32_at(piece, field);
        let limit = random.pick(&[old, old, 2, 128, 4096]);
        let number = if random.once_in(8) { random.hostile() } else { random.near(limit) };
        put(piece, field, number);
    }
}

/// A piece that belongs to nothing.
fn stray(random: &mut Random) -> Vec<u8> {
    let length = random.pick(&[0, 1, 3, 4, 5, 12, 19, 20, 21, 43, 44, 47, 48, 64, 4096, 4097]);
    let mut piece = random.bytes(length);
    let total = random.mostly(&[1, 2, 3, 128, 129]) as u32;
    let fields = [random.mostly(&TYPES) as u32, length as u32, 7, total, random.below(4) as u32];
    fields.iter().enumerate().for_each(|(at, word)| put(&mut piece, 4 * at, *word));
    piece
}

impl Random {
    fn pick_from(&mut self, among: &[Vec<u8>]) -> Vec<u8> {
        among[self.below(among.len())].clone()
    }
}

/// The pieces of a message, good or disturbed.
pub fn pieces(sides: &mut Sides, random: &mut Random) -> Vec<Vec<u8>> {
    let mut pieces = message(sides, random);
    let strays = if random.once_in(3) { message(sides, random) } else { Vec::new() };
    for _ in 0..random.below(4) {
        disturbed(random, &mut pieces, &strays);
    }
    pieces
}

pub fn feeds(sides: &mut Sides, random: &mut Random) {
    let pieces = pieces(sides, random);
    if random.once_in(8) {
        sides.step(q::EMPTY_ASSEMBLY, &[], &[]);
    }
    for piece in &pieces {
        let room = if random.once_in(6) { random.below(300) as u64 } else { 4096 };
        let size = if random.once_in(30) { random.room(144) + 3999 } else { ASSEMBLY_SIZE };
        sides.step(q::RECEIVE, &[room, size], piece);
    }
}

/// Cuts, receives and gives the information that came together.
pub fn carry(sides: &mut Sides, head: [u64; 4], service: [u8; 16], information: &[u8]) -> Vec<u8> {
    let mut output = Vec::new();
    for piece in fragments(sides, 64, head, service, information) {
        output = sides.step(q::RECEIVE, &[4096, ASSEMBLY_SIZE], &piece).output;
    }
    sides.ask(q::PAYLOAD_KIND, &[head[0], head[2], head[3]], &service);
    output
}
