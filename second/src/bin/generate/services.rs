//! Samples of the DEVICE_SERVICES payload.

use crate::damage::{
    around, by_choices, change_bytes, each_way, lengths, resized, set_word, two_faults, with_words,
    words, CHOICES, NO_CHOICES, STRAYS,
};
use crate::random::Random;
use crate::samples::Samples;
use second::flat::question::{
    ELEMENT, ELEMENT_WITH, LISTED, LISTED_WITH, SERVICES_READ, SERVICES_READ_WITH, SERVICES_WRITE,
    SERVICE_CIDS, SERVICE_CIDS_WITH,
};
use second::payload::{BASIC_CONNECT, EXTENSIONS};

/// An element to write: service, two numbers, CIDs.
type Part = ([u8; 16], u32, u32, Vec<u32>);

/// The questions with pairs, plain and with a choice; the other arguments of each; and whether
/// a service stands before the payload.
const READS: [([u32; 2], &[u64], bool); 4] = [
    ([SERVICES_READ, SERVICES_READ_WITH], &[], false),
    ([ELEMENT, ELEMENT_WITH], &[4, 0], false),
    ([SERVICE_CIDS, SERVICE_CIDS_WITH], &[4], true),
    ([LISTED, LISTED_WITH], &[14], true),
];

pub fn all(samples: &mut Samples) {
    let mut random = Random::new(5);
    let good = written(samples, &parts());
    change_bytes(samples, SERVICES_READ, &[], &good, &mut random);
    let ends = (0..good.len() + 8).step_by(9).chain([7, 8, 9, 31, 32, 33, 127, 129]);
    lengths(samples, SERVICES_READ, &[], &good, ends);
    counts(samples);
    pairs(samples, &good);
    offsets(samples, &good);
    elements(samples, &good);
    chosen(samples, &good);
    long_lists(samples);
    writes(samples);
    random_lists(samples, &mut random);
    strays(samples);
    stray_faults(samples, &good);
    choices(samples, &good);
}

/// Three elements, the first service twice.
fn parts() -> Vec<Part> {
    vec![
        (EXTENSIONS, 1, 2, vec![14, 16]),
        (BASIC_CONNECT, 3, 4, vec![]),
        (EXTENSIONS, 5, 6, vec![15]),
    ]
}

/// Writes a list with room enough and gives its payload.
fn written(samples: &mut Samples, parts: &[Part]) -> Vec<u8> {
    write(samples, 4400, parts.len() as u64, parts).1
}

/// Asks for a list to be written; gives the refusal's number or 0, and the payload.
fn write(samples: &mut Samples, room: u64, count: u64, parts: &[Part]) -> (u64, Vec<u8>) {
    let mut arguments = vec![room, count, 7];
    let mut input = Vec::new();
    for (service, dss_payload, max_dss_instances, cids) in parts.iter().take(32) {
        let head = [*dss_payload, *max_dss_instances, cids.len() as u32];
        arguments.extend(head.iter().chain(cids.iter().take(128)).map(|word| u64::from(*word)));
        input.extend(service);
    }
    let answer = samples.ask(SERVICES_WRITE, &arguments, &input);
    (answer.numbers[0], answer.output)
}

/// The count and the pairs that it wants.
fn counts(samples: &mut Samples) {
    for count in [0, 1, 16, 31, 32, 33, 0x100, 0x2000_0000, u32::MAX] {
        let needed = 8 + 8 * count.min(33) as usize;
        for length in [8, needed - 1, needed, needed + 1, 4096, 4097] {
            let payload = resized(&words(&[count, 9]), length);
            samples.ask(SERVICES_READ, &[], &payload);
        }
    }
}

/// The second pair at and around every limit.
fn pairs(samples: &mut Samples, good: &[u8]) {
    let length = 700u32;
    let long = resized(good, length as usize);
    for size in [0, 1, 24, 27, 28, 29, 31, 32, 33, 36, 539, 540, 541, 544, u32::MAX] {
        let last = length.wrapping_sub(size);
        let ends = [last & !3, (last & !3).wrapping_add(4)];
        let low = [0, 8, 28, 32, 33, 34, 36, 68];
        for offset in low.into_iter().chain(ends).chain([0xFFFF_FFFC, 0xFFFF_FFE4, u32::MAX]) {
            if !matches!(size, 0 | 28 | 32 | 540) && offset != 68 && offset != 33 {
                continue;
            }
            let payload = with_words(&long, &[(16, offset), (20, size)]);
            samples.ask(SERVICES_READ, &[], &payload);
        }
    }
    let faults =
        [(0, 33), (8, 30), (12, 541), (12, 27), (20, 0), (24, 0xFFFF_FFFC), (56, 129), (92, 1)];
    two_faults(samples, SERVICES_READ, &[], good, &faults);
    // Too small for an element, beside a CID count over its limit.
    for size in [1, 4, 24, 27, 28] {
        let payload = with_words(&long, &[(16, 68), (20, size), (68 + 24, 129)]);
        samples.ask(SERVICES_READ, &[], &payload);
    }
    let offsets = [((8, 33), (24, 33)), ((8, 28), (28, 0))];
    let sizes = [((12, 541), (28, 541)), ((12, 0), (28, 3))];
    for (first, third) in offsets.into_iter().chain(sizes) {
        samples.ask(SERVICES_READ, &[], &with_words(good, &[first, third]));
        samples.ask(SERVICES_READ, &[], &with_words(good, &[third]));
    }
}

/// Faults of the second pair's offset, alone and several at once: whatever is asked, the
/// whole list is judged first.
fn offsets(samples: &mut Samples, good: &[u8]) {
    let in_fixed_part = [(28, 28), (31, 28), (3, 27)];
    let misaligned = [(69, 28), (129, 28), (u32::MAX, 28), (u32::MAX, 541)];
    let with_zero_size = [(52, 0), (3, 0), (28, 0), (69, 0)];
    let pairs = in_fixed_part.into_iter().chain(misaligned).chain(with_zero_size);
    for (offset, size) in pairs {
        let payload = with_words(good, &[(16, offset), (20, size)]);
        samples.ask(SERVICES_READ, &[], &payload);
        samples.ask(ELEMENT, &[0, 0], &payload);
        let input = [&EXTENSIONS[..], &payload].concat();
        samples.ask(SERVICE_CIDS, &[0], &input);
        samples.ask(LISTED, &[14], &input);
    }
}

/// CID counts against sizes, in the first and the last element.
fn elements(samples: &mut Samples, good: &[u8]) {
    for place in [32 + 24, 68 + 24, 96 + 24] {
        set_word(samples, SERVICES_READ, &[], good, place, &around(1));
        set_word(samples, SERVICES_READ, &[], good, place, &[0, 3, 128, 129]);
    }
    for count in [0, 1, 127, 128, 129, 0x4000_0001, u32::MAX] {
        for size in [28, 32, 536, 540] {
            let payload = with_words(&[0; 556], &[(0, 1), (8, 16), (12, size), (40, count)]);
            samples.ask(SERVICES_READ, &[], &payload);
        }
    }
    // The same element twice, overlapping elements, and an element before another.
    for (first, second) in [((24, 32), (24, 32)), ((24, 32), (28, 28)), ((56, 28), (24, 32))] {
        let fields = [(0, 2), (8, first.0), (12, first.1), (16, second.0), (20, second.1)];
        let payload = with_words(&[0; 84], &fields);
        let payload = with_words(&payload, &[(48, 1), (52, 77)]);
        samples.ask(SERVICES_READ, &[], &payload);
        for number in 0..3 {
            samples.ask(ELEMENT, &[4, number], &payload);
        }
        samples.ask(SERVICE_CIDS, &[4], &[&[0; 16], &payload[..]].concat());
    }
}

/// Elements by number and by service, and what is listed.
fn chosen(samples: &mut Samples, good: &[u8]) {
    let refused = with_words(good, &[(96 + 24, 129)]);
    for payload in [good, &refused, &good[..40], &[]] {
        for number in [0, 1, 2, 3, 0xFFFF_FFFF] {
            for room in [0, 1, 2, 1024] {
                if payload != good && room != 1 {
                    continue;
                }
                samples.ask(ELEMENT, &[room, number], payload);
            }
        }
        let mut printed = EXTENSIONS;
        printed[8] = 0x9d;
        for service in [EXTENSIONS, BASIC_CONNECT, printed, [0; 16]] {
            let input = [&service[..], payload].concat();
            for room in [0, 1, 2, 128] {
                samples.ask(SERVICE_CIDS, &[room], &input);
            }
            for cid in [0, 14, 15, 16, 0xFFFF_FFFF] {
                samples.ask(LISTED, &[cid], &input);
            }
            if payload != good {
                break;
            }
        }
    }
}

/// As many elements and CIDs as there may be.
fn long_lists(samples: &mut Samples) {
    for cid_count in [127, 128] {
        let cids: Vec<u32> = (0..cid_count).map(|cid| 0x0707_0707 * (cid / 64)).collect();
        let payload = written(samples, &[(EXTENSIONS, 0, 0, cids)]);
        for room in [cid_count - 1, cid_count, cid_count + 1] {
            samples.ask(ELEMENT, &[room.into(), 0], &payload);
        }
        samples.ask(LISTED, &[0x0707_0707], &[&EXTENSIONS[..], &payload].concat());
    }
    let mut parts = vec![([0; 16], 0, 0, vec![]); 32];
    let payload = written(samples, &parts[..31]);
    samples.ask(SERVICES_READ, &[], &payload);
    parts[31] = (EXTENSIONS, 8, 9, vec![15, 16]);
    let payload = written(samples, &parts);
    samples.ask(SERVICES_READ, &[], &payload);
    for number in [0, 31, 32] {
        samples.ask(ELEMENT, &[2, number], &payload);
    }
    let input = [&EXTENSIONS[..], &payload].concat();
    samples.ask(SERVICE_CIDS, &[2], &input);
    samples.ask(LISTED, &[16], &input);
}

/// The writer: counts, sizes, the whole length, and room.
fn writes(samples: &mut Samples) {
    let part = |cids: usize| ([9; 16], 0, 0, vec![0; cids]);
    for count in [33, 34, 0xFFFF_FFFF] {
        write(samples, 100, count, &vec![part(0); 32]);
    }
    for cids in [0, 1, 2, 127, 128, 129, 130] {
        let length = 16 + 28 + 4 * cids as u64;
        for room in [0, length - 1, length, length + 9] {
            write(samples, room, 1, &[part(cids)]);
        }
        write(samples, 0, 2, &[part(1), part(cids)]);
        write(samples, 0, 2, &[part(cids), part(129)]);
    }
    // Counts whose size looks small where it is worked out in 32 bits.
    for cid_count in [0x4000_0000, 0x4000_0001, 0xFFFF_FFFF] {
        let arguments = [&[100, 1, 7, 0, 0, cid_count], &[5; 128][..]].concat();
        samples.ask(SERVICES_WRITE, &arguments, &[9; 16]);
    }
    for room in [0, 7, 8, 9] {
        write(samples, room, 0, &[]);
    }
    // Seven full elements are 3,844 bytes; the eighth decides about 4,096.
    for last in [0, 53, 54, 55, 56, 128, 129] {
        let mut parts = vec![part(128); 7];
        parts.push(part(last));
        write(samples, 4400, 8, &parts);
        if matches!(last, 54 | 55) {
            write(samples, 4095, 8, &parts);
        }
    }
}

/// Lists that are good, written, read and looked into.
fn random_lists(samples: &mut Samples, random: &mut Random) {
    for _ in 0..12 {
        let count = random.below(4);
        let mut parts = Vec::new();
        for _ in 0..count {
            let any = [random.below(2) as u8; 16];
            let service = random.pick(&[EXTENSIONS, BASIC_CONNECT, any]);
            let cids = (0..random.below(5)).map(|_| random.below(18) as u32).collect();
            parts.push((service, random.word(), random.word(), cids));
        }
        let payload = written(samples, &parts);
        samples.ask(SERVICES_READ, &[], &payload);
        samples.ask(ELEMENT, &[random.below(6) as u64, random.below(4) as u64], &payload);
        let service = random.pick(&[EXTENSIONS, BASIC_CONNECT, [0; 16]]);
        let input = [&service[..], &payload].concat();
        samples.ask(SERVICE_CIDS, &[random.below(6) as u64], &input);
        samples.ask(LISTED, &[random.below(18) as u64], &input);
    }
}

/// The input of a question: the payload, or a service and the payload.
fn input(payload: &[u8], after_service: bool) -> Vec<u8> {
    let service: &[u8] = if after_service { &EXTENSIONS } else { &[] };
    [service, payload].concat()
}

/// Lists of one to three elements, of which one has size 0 beside an offset.
fn strays(samples: &mut Samples) {
    let mut offsets = STRAYS.into_iter().cycle();
    for (count, pair) in [(1, 0), (2, 0), (3, 1), (3, 2)] {
        let good = written(samples, &parts()[..count]);
        for (questions, arguments, after_service) in READS {
            let offset = offsets.next().unwrap_or_default();
            let payload = with_words(&good, &[(8 + 8 * pair, offset), (12 + 8 * pair, 0)]);
            each_way(samples, questions, arguments, &input(&payload, after_service));
        }
    }
}

/// A stray offset in the second pair beside another fault: the order of the rules decides.
fn stray_faults(samples: &mut Samples, good: &[u8]) {
    let stray = with_words(good, &[(16, 52), (20, 0)]);
    let faults = [(0, 33), (12, 541), (8, 33), (32 + 24, 129), (28, 0), (24, 33), (16, 0)];
    for fault in faults {
        let payload = with_words(&stray, &[fault]);
        by_choices(samples, SERVICES_READ_WITH, &[], &CHOICES, &payload);
    }
}

/// A good list by each choice, and numbers that are none, for every question.
fn choices(samples: &mut Samples, good: &[u8]) {
    for (number, ([_, with], arguments, after_service)) in READS.into_iter().enumerate() {
        let payload = input(good, after_service);
        by_choices(samples, with, arguments, &CHOICES, &payload);
        by_choices(samples, with, arguments, &NO_CHOICES[number % 3..][..1], &payload);
        let bad = input(&good[..31], after_service);
        by_choices(samples, with, arguments, &NO_CHOICES[(number + 1) % 3..][..1], &bad);
    }
    by_choices(samples, ELEMENT_WITH, &[1, 0], &CHOICES[1..], good);
    by_choices(samples, ELEMENT_WITH, &[1, 3], &CHOICES[1..], good);
}
