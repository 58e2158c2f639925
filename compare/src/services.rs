//! The device services list: written, read, asked for its elements, whole and damaged.

use crate::asks;
use crate::damage;
use crate::payloads::{moved, put, written};
use crate::random::Random;
use crate::sides::Sides;
use culvertroost::c;
use second::device_services;
use second::flat::question as q;
use second::payload::{BASIC_CONNECT, EXTENSIONS};
use second::ZeroSize;

/// Services that a list may hold; the third differs from the second in one byte.
pub fn service(random: &mut Random) -> [u8; 16] {
    let mut service = random.pick(&[BASIC_CONNECT, EXTENSIONS, EXTENSIONS, [0; 16]]);
    if random.once_in(4) {
        service[random.below(16)] ^= 1 << random.below(8);
    }
    service
}

fn cid(random: &mut Random) -> u32 {
    random.pick(&[9, 10, 11, 15, 15, 16, 0, 0x0F00, u32::MAX])
}

fn cid_count(random: &mut Random) -> u64 {
    match random.below(12) {
        0 => random.mostly(&[127, 128, 129, 130]),
        1 => random.below(129) as u64,
        _ => random.below(6) as u64,
    }
}

const MOST_INFORMATION: u64 = 4096;

/// What stands in a list before a call.
const UNTOUCHED: u32 = 0xA5A5_A5A5;

/// The bytes of an element and its pair.
fn size(cid_count: u64) -> u64 {
    36 + 4 * cid_count.min(128)
}

/// The CID counts of a list: few, up to the most elements, or as many as a payload can hold.
fn cid_counts(random: &mut Random) -> Vec<u64> {
    let count = match random.below(16) {
        0 => return full(random),
        1 => random.pick(&[31, 32, 32]),
        2 => random.below(33),
        _ => random.below(5),
    };
    (0..count).map(|_| cid_count(random)).collect()
}

/// CID counts whose list is a little shorter or longer than a payload may be, or just as long.
fn full(random: &mut Random) -> Vec<u64> {
    let mut counts = Vec::new();
    let mut left = MOST_INFORMATION - 8;
    while left > size(128) {
        let count = 64 + random.below(65) as u64;
        counts.push(count);
        left -= size(count);
    }
    counts.push((left.saturating_sub(size(0)) / 4 + random.below(3) as u64).saturating_sub(1));
    counts
}

/// Arguments and services of a list to be written, and the bytes that it takes.
fn list(random: &mut Random) -> (Vec<u64>, Vec<u8>, u64) {
    let counts = cid_counts(random);
    let count = if random.once_in(40) { random.hostile().max(33) } else { counts.len() as u32 };
    let mut arguments = vec![count.into(), random.hostile().into()];
    let mut services = Vec::new();
    for cid_count in &counts {
        arguments.extend([random.hostile().into(), random.hostile().into(), *cid_count]);
        arguments.extend((0..*cid_count.min(&128)).map(|_| u64::from(cid(random))));
        services.extend(service(random));
    }
    (arguments, services, 8 + counts.iter().map(|count| size(*count)).sum::<u64>())
}

pub fn services(sides: &mut Sides, random: &mut Random) {
    let (arguments, services, length) = list(random);
    let room = random.room(length.min(5000) as usize);
    let payload = written(sides, q::SERVICES_WRITE, room, &arguments, &services);
    write_lists(sides, random);
    let payload = if random.once_in(2) { scattered(random) } else { payload };
    for _ in 0..3 {
        let payload = damage::maybe(random, &payload);
        choose(sides, random, &payload);
    }
}

/// A list whose pairs stand anywhere: elements overlap, leave gaps or reach beyond the end.
fn scattered(random: &mut Random) -> Vec<u8> {
    let count = random.below(4);
    let mut payload = vec![0; 8 + 8 * count + 4 * random.below(60)];
    put(&mut payload, 0, count as u32);
    for number in 0..count {
        let cid_count = random.below(4) as u32;
        let size = match random.below(8) {
            0 => random.hostile(),
            1 => 0,
            _ => 28 + 4 * cid_count,
        };
        let offset = moved(random, 8 + 8 * count as u32, payload.len() as u32, size);
        put(&mut payload, 8 + 8 * number, offset);
        put(&mut payload, 12 + 8 * number, size);
        put_element(random, &mut payload, offset as usize, cid_count);
    }
    payload
}

fn put_element(random: &mut Random, payload: &mut [u8], offset: usize, cid_count: u32) {
    let inside = payload.get_mut(offset..).unwrap_or_default();
    if let Some(id) = inside.get_mut(..16) {
        id.copy_from_slice(&service(random));
    }
    put(inside, 24, cid_count);
    for number in 0..cid_count as usize {
        put(inside, 28 + 4 * number, cid(random));
    }
}

/// Every question about a payload, each by a choice too.
fn choose(sides: &mut Sides, random: &mut Random, payload: &[u8]) {
    let choice = random.choice();
    let read = sides.ask_by(&[choice], q::SERVICES_READ, &[], payload).numbers;
    let count = if read[0] == 0 { read[1] as usize } else { 2 };
    let number = if random.once_in(8) { random.hostile() } else { random.below(count + 1) as u32 };
    let room = if random.once_in(4) { random.below(4) } else { 128 + random.below(3) } as u64;
    sides.ask_by(&[choice], q::ELEMENT, &[room, number.into()], payload);
    let input = [&service(random)[..], payload].concat();
    sides.ask_by(&[choice], q::SERVICE_CIDS, &[room], &input);
    asks::ask(sides, &[choice], cid(random).into(), &input);
    let rooms = (random.pick(&[0, 6, 7, 14, 224, 224, 230]), random.pick(&[0, 3, 40, 4096, 4096]));
    same_all(sides, &[choice], payload, rooms);
}

/// Both sides show all elements in lists of these lengths, without a choice and by each of these.
pub fn same_all(sides: &mut Sides, choices: &[u64], payload: &[u8], rooms: (usize, usize)) {
    same_shown(sides, None, payload, rooms);
    for choice in choices {
        same_shown(sides, Some(*choice as u32), payload, rooms);
    }
}

fn same_shown(sides: &mut Sides, choice: Option<u32>, payload: &[u8], rooms: (usize, usize)) {
    let lists = || (vec![UNTOUCHED; rooms.0], vec![UNTOUCHED; rooms.1]);
    let (mut fields, mut cids) = lists();
    let answer = match choice {
        Some(number) => c::device_services_all_with(number, payload, &mut fields, &mut cids),
        None => c::device_services_all(payload, &mut fields, &mut cids),
    };
    let refusal = answer.refusal;
    let given = (
        [refusal.number as u64, refusal.place as u64, answer.elements as u64, answer.cids as u64],
        fields,
        cids,
    );
    let (mut fields, mut cids) = lists();
    let shown = match choice.map(ZeroSize::from_number) {
        Some(chosen) => chosen
            .and_then(|chosen| device_services::all_with(chosen, payload, &mut fields, &mut cids)),
        None => device_services::all(payload, &mut fields, &mut cids),
    };
    let numbers = match shown {
        Ok((elements, cids)) => [0, 0, elements as u64, cids as u64],
        Err(refusal) => [refusal.number as u64, refusal.place as u64, 0, 0],
    };
    let call = format!("all elements, by {choice:?}");
    sides.same(&call, payload, &(numbers, fields, cids), &given);
}

/// A list written from the numbers of its elements and all CIDs: as many as they count, or nearly.
fn write_lists(sides: &mut Sides, random: &mut Random) {
    let counts = cid_counts(random);
    let mut fields = Vec::new();
    for cid_count in &counts {
        fields.extend((0..6).map(|_| random.hostile()));
        fields.push(*cid_count as u32);
    }
    if random.once_in(16) {
        fields.resize(random.below(7 * 34), random.hostile());
    }
    let counted = counts.iter().map(|cid_count| *cid_count as usize).sum::<usize>().min(5000);
    let given = if random.once_in(8) { counted + random.below(5) } else { counted + 2 };
    let cids: Vec<u32> = (2..given).map(|_| cid(random)).collect();
    let length = 8 + counts.iter().map(|cid_count| size(*cid_count)).sum::<u64>();
    let room = random.room(length.min(5000) as usize) as usize;
    same_written(sides, random.hostile(), &fields, &cids, room);
}

/// Both sides write the lists into this room.
pub fn same_written(sides: &mut Sides, sessions: u32, fields: &[u32], cids: &[u32], room: usize) {
    let mut out = vec![UNTOUCHED as u8; room];
    let answer = c::device_services_write_all(sessions, fields, cids, &mut out);
    let refusal = answer.refusal;
    let given = ([refusal.number as u64, refusal.place as u64, answer.length as u64], out);
    let mut out = vec![UNTOUCHED as u8; room];
    let numbers = match device_services::write_all(sessions, fields, cids, &mut out) {
        Ok(length) => [0, 0, length as u64],
        Err(refusal) => [refusal.number as u64, refusal.place as u64, 0],
    };
    let input: Vec<u8> = fields.iter().chain(cids).flat_map(|word| word.to_le_bytes()).collect();
    sides.same("services written from lists", &input, &(numbers, out), &given);
}
