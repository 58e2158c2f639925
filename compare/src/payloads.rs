//! VERSION, packet service, registration, signal state and readings: records written and read back,
//! whole and damaged, and at the other version too.

use crate::damage;
use crate::random::Random;
use crate::sides::Sides;
use culvertroost::DATA_CLASS_HSPA;
use second::data_class::HSPA;
use second::flat::question as q;

/// Classes of a packet service: single bits, none, and HSPA, the same to both sides.
const CLASSES: [u32; 9] = [0x20, 0x40, 0x80, 0x20, 0x40, 0x8000_0000, 0, 1, HSPA];
const _: () = assert!(DATA_CLASS_HSPA == HSPA);
const MASKS: [u32; 7] = [0, 0x20, 0x60, 0xE0, 0x3F, 0x807F_003F, 0x807F_00FF];
const ANY: [u32; 6] = [0, 1, 5, 0x0102_0304, 0x8000_0000, u32::MAX];

const TOO_SMALL: u64 = 11;

/// Writes a record into some room, and once more with what it needs if that is too small.
pub fn written(
    sides: &mut Sides,
    question: u32,
    room: u64,
    record: &[u64],
    input: &[u8],
) -> Vec<u8> {
    let answer = sides.ask(question, &[&[room], record].concat(), input);
    if answer.numbers[0] != TOO_SMALL {
        return answer.output;
    }
    sides.ask(question, &[&[answer.numbers[1]], record].concat(), input).output
}

/// Reads a payload a few times: as it is or damaged, mostly at its own version, by a choice too.
fn read(sides: &mut Sides, random: &mut Random, question: u32, version: u64, payload: &[u8]) {
    for _ in 0..3 {
        let version = if random.once_in(6) { random.version() } else { version };
        let payload = damage::maybe(random, payload);
        sides.ask_by(&[random.choice()], question, &[version], &payload);
    }
}

pub fn version(sides: &mut Sides, random: &mut Random) {
    let mbim = if random.once_in(6) { random.version() } else { 0x0100 };
    let extension = random.version();
    let room = random.room(4);
    let payload = written(sides, q::VERSION_WRITE, room, &[mbim, extension], &[]);
    for _ in 0..2 {
        let payload = damage::maybe(random, &payload);
        sides.ask(q::VERSION_READ, &[], &payload);
    }
}

/// One of the good numbers where a rule allows any, else mostly 0.
fn allowed(random: &mut Random, holds: bool, good: &[u32]) -> u64 {
    if holds || random.once_in(12) {
        return random.mostly(good);
    }
    0
}

pub fn packet(sides: &mut Sides, random: &mut Random) {
    let version = random.version();
    let state = random.mostly(&[0, 1, 2, 2, 2, 3, 4]);
    let highest = random.mostly(&CLASSES);
    let current = allowed(random, state == 2, &CLASSES);
    let range = allowed(random, matches!(current, 0x40 | 0x80), &[0, 1, 2, 3]);
    let (error, up, down) = (random.mostly(&ANY), random.next(), random.next());
    let record = [version, error, state, highest, current, range, up, down];
    let payload = written(sides, q::PACKET_WRITE, random.room(32), &record, &[]);
    read(sides, random, q::PACKET_READ, version, &payload);
}

/// A length of text at and around its limit.
pub fn text_length(random: &mut Random, limit: usize) -> usize {
    match random.below(12) {
        0..=2 => 0,
        3 => limit,
        4 => limit - 1 + random.below(4),
        _ => 2 * random.below(limit / 2 + 1),
    }
}

pub fn registration(sides: &mut Sides, random: &mut Random) {
    let state = random.mostly(&[0, 1, 2, 3, 4, 5, 6, 3, 4, 5]);
    let available = allowed(random, (3..=5).contains(&state), &MASKS);
    let sizes = [12, 40, 126].map(|limit| text_length(random, limit));
    let version = random.version();
    let mut record =
        vec![version, random.mostly(&ANY), state, random.mostly(&[0, 1, 2]), available];
    record.extend([random.mostly(&[0, 1, 2, 3]), random.mostly(&[0, 1, 2, 3])]);
    record.push(random.mostly(&MASKS));
    record.extend(sizes.map(|size| size as u64));
    let texts = random.bytes(sizes.iter().sum());
    let room = random.room(52 + texts.len() + 4);
    let payload = written(sides, q::REGISTRATION_WRITE, room, &record, &texts);
    read(sides, random, q::REGISTRATION_READ, version, &payload);
    let payload = moved_pairs(random, &payload);
    read(sides, random, q::REGISTRATION_READ, version, &payload);
}

/// The three pairs put anywhere, so that texts overlap, leave gaps or reach beyond the end.
fn moved_pairs(random: &mut Random, payload: &[u8]) -> Vec<u8> {
    let mut payload = payload.to_vec();
    for (place, limit) in [(20, 12), (28, 40), (36, 126)] {
        if random.once_in(2) {
            continue;
        }
        let size = text_length(random, limit) as u32;
        let offset = moved(random, 52, payload.len() as u32, size);
        put(&mut payload, place, offset);
        put(&mut payload, place + 4, size);
    }
    payload
}

/// An offset for so many bytes past the fixed part: fitting, just not fitting, or any.
pub fn moved(random: &mut Random, fixed: u32, length: u32, size: u32) -> u32 {
    let last = length.wrapping_sub(size);
    match random.below(12) {
        0 => random.hostile(),
        1 => random.near(last),
        2 => random.near(fixed),
        3 => last & !3,
        _ if size == 0 && random.once_in(2) => 0,
        _ => {
            let words = last.wrapping_sub(fixed) as usize / 4;
            fixed.wrapping_add(4 * random.below(words + 1) as u32)
        }
    }
}

/// Puts a word where there is room for it.
pub fn put(bytes: &mut [u8], place: usize, word: u32) {
    if let Some(field) = bytes.get_mut(place..place + 4) {
        field.copy_from_slice(&word.to_le_bytes());
    }
}

/// An entry; in a quiet list nothing is known.
fn entry(random: &mut Random, quiet: bool) -> [u64; 5] {
    let rsrp = if quiet { 127 } else { random.mostly(&[0, 1, 60, 126, 127]) };
    let snr = if quiet { 128 } else { random.mostly(&[0, 1, 87, 127, 128]) };
    let system_type = random.mostly(&[1, 0x20, 0x20, 0x40, 0x40, 0x80, 0x8000_0000]);
    [rsrp, snr, random.mostly(&ANY), random.mostly(&ANY), system_type]
}

pub fn signal(sides: &mut Sides, random: &mut Random) {
    let count = random.mostly(&[0, 1, 1, 2, 2, 3, 5, 15, 16, 16, 17]);
    let quiet = random.once_in(3);
    let rssi = random.mostly(if quiet { &[0, 2, 17, 31, 99] } else { &[99, 99, 99, 99, 12] });
    let version = random.version();
    let mut record = vec![version, rssi, random.mostly(&[0, 1, 7, 99])];
    record.extend([0; 3].map(|_| random.mostly(&ANY)));
    record.push(count);
    for _ in 0..count.min(16) {
        record.extend(entry(random, quiet));
    }
    let room = random.room(32 + 20 * count.min(16) as usize);
    let payload = written(sides, q::SIGNAL_WRITE, room, &record, &[]);
    read(sides, random, q::SIGNAL_READ, version, &payload);
    let payload = moved_list(random, payload);
    read(sides, random, q::SIGNAL_READ, version, &payload);
}

/// The pair of a signal list put elsewhere, with the list there or what happens to be there.
fn moved_list(random: &mut Random, mut payload: Vec<u8>) -> Vec<u8> {
    let gap = 4 * random.below(4);
    let at = payload.len().min(28);
    payload.splice(at..at, vec![7; gap]);
    let offset = if random.once_in(4) { random.hostile() } else { 28 + gap as u32 };
    put(&mut payload, 20, offset);
    match random.below(8) {
        0 | 1 => put(&mut payload, 24, 0),
        2 | 3 => put(&mut payload, 24, 4 + 20 * random.below(18) as u32),
        _ => {}
    }
    payload
}

pub fn readings(sides: &mut Sides, random: &mut Random) {
    for question in [q::RSRP, q::SNR, q::BARS] {
        let code = if random.once_in(4) { random.hostile() } else { random.below(132) as u32 };
        sides.ask(question, &[code.into()], &[]);
    }
}
