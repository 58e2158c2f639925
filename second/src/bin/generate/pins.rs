//! Samples of the PIN payloads, SET_PIN and PIN_INFO.

use crate::damage::{
    around, by_choices, change_bytes, each_way, lengths, one_way, resized, set_word, two_faults,
    with_words, words, CHOICES, NO_CHOICES, STRAYS,
};
use crate::random::Random;
use crate::samples::Samples;
use second::flat::question::{
    PIN_INFO_READ, PIN_INFO_WRITE, SET_PIN_READ, SET_PIN_READ_WITH, SET_PIN_WRITE,
};

/// The plain question and the one with a choice.
const READS: [u32; 2] = [SET_PIN_READ, SET_PIN_READ_WITH];
/// Where the two pairs stand.
const PAIRS: [usize; 2] = [8, 16];
const FIXED: u32 = 24;
const LIMIT: u32 = 32;
/// Lengths at and around those of both payloads, and the most there may be.
const LENGTHS: [usize; 15] = [0, 1, 4, 8, 11, 12, 13, 16, 23, 24, 25, 31, 33, 4096, 4097];
/// Sizes of the two texts to write, at and around their limit.
const SIZES: [[usize; 2]; 24] = [
    [0, 0],
    [1, 0],
    [0, 1],
    [2, 0],
    [0, 2],
    [2, 2],
    [4, 8],
    [6, 10],
    [30, 30],
    [31, 32],
    [32, 31],
    [32, 32],
    [33, 32],
    [32, 33],
    [34, 32],
    [32, 34],
    [33, 35],
    [34, 1],
    [0, 32],
    [32, 0],
    [0, 34],
    [34, 0],
    [4096, 0],
    [2, 5000],
];
const TEXTS: &[u8] = b"1\x002\x003\x004\x005\x006\x007\x008\x009\x000\0";

pub fn all(samples: &mut Samples) {
    let mut random = Random::new(10);
    let good = two_texts();
    each_way(samples, READS, &[], &good);
    change_bytes(samples, SET_PIN_READ, &[], &good, &mut random);
    set_lengths(samples, &good);
    set_tables(samples, &good);
    for (number, field) in PAIRS.into_iter().enumerate() {
        pair(samples, number, field);
        strays(samples, number, field);
    }
    ranges(samples);
    stray_faults(samples);
    choices(samples, &good);
    set_writes(samples);
    set_write_tables(samples);
    infos(samples, &mut random);
    info_writes(samples);
    random_records(samples, &mut random);
}

/// A payload with two texts of 8 and 12 bytes.
fn two_texts() -> Vec<u8> {
    [words(&[2, 0, FIXED, 8, FIXED + 8, 12]), TEXTS.to_vec()].concat()
}

/// Lengths of good bytes, of zeros and of bytes that would be refused.
fn set_lengths(samples: &mut Samples, good: &[u8]) {
    let ends = LENGTHS.into_iter().chain([32, 43, 45]);
    lengths(samples, SET_PIN_READ, &[], good, ends);
    lengths(samples, SET_PIN_READ, &[], &[], LENGTHS);
    let far = words(&[18, 4, 3, 33, 3, 33]);
    for choice in CHOICES {
        lengths(samples, SET_PIN_READ_WITH, &[choice], good, [23, 24, 4096, 4097]);
        lengths(samples, SET_PIN_READ_WITH, &[choice], &far, [0, 23, 24, 4096, 4097]);
    }
}

/// Every type and operation, those after them, and two faults at once.
fn set_tables(samples: &mut Samples, good: &[u8]) {
    for (place, limit) in [(0, 17), (4, 3)] {
        let all: Vec<u32> = (0..limit + 3).chain(around(limit)).collect();
        set_word(samples, SET_PIN_READ, &[], good, place, &all);
        for choice in CHOICES {
            set_word(samples, SET_PIN_READ_WITH, &[choice], good, place, &[limit, limit + 1]);
        }
    }
    let first = [(8, 20), (8, 25), (8, 44), (12, 33), (12, 7), (12, 0)];
    let second = [(16, 20), (16, 25), (16, 44), (20, 34), (20, 0)];
    let faults = [&[(0, 18), (4, 4)], &first[..], &second].concat();
    two_faults(samples, SET_PIN_READ, &[], good, &faults);
    two_faults(samples, SET_PIN_READ_WITH, &[1], good, &faults);
}

/// One pair: sizes and offsets at and around every limit; several faults at once.
fn pair(samples: &mut Samples, number: usize, field: usize) {
    let length = FIXED + 40;
    let zeros = with_words(&resized(&[], length as usize), &[(0, 17), (4, 3)]);
    let mut asked = number;
    let mut ask = |offset, size| {
        let payload = with_words(&zeros, &[(field, offset), (field + 4, size)]);
        one_way(samples, asked, READS, &[], &payload);
        asked += 1;
    };
    for size in [0, 1, 2, 4, 30, 31, LIMIT, 33, 34, 0x102, 0x8000_0002, u32::MAX] {
        let last = length.wrapping_sub(size) & !3;
        let low = [0, 4, 8, FIXED - 4, FIXED - 1, FIXED, FIXED + 1, FIXED + 2, FIXED + 3];
        let high = [last, last.wrapping_add(4), length, 0xFFFF_FFFC, 0xFFFF_FFE0, u32::MAX];
        for offset in low.into_iter().chain(high) {
            let is_fit = size <= LIMIT && size % 2 == 0;
            if is_fit || matches!(offset, 0 | FIXED | 25) {
                ask(offset, size);
            }
        }
    }
    for (offset, size) in [(0xFFFF_FFFC, 8), (length + 1, 2), (length + 4, 2), (length - 2, 2)] {
        ask(offset, size);
    }
}

/// Size 0 beside an offset, alone and beside another text.
fn strays(samples: &mut Samples, number: usize, field: usize) {
    let other = PAIRS[1 - number];
    let alone = words(&[11, 1, 0, 0, 0, 0]);
    let beside = [with_words(&alone, &[(other, FIXED), (other + 4, 6)]), TEXTS[..8].to_vec()];
    let beside = beside.concat();
    let offsets = STRAYS.into_iter().chain([8, 16, 23, 24, 25, 32]);
    for (place, offset) in offsets.enumerate() {
        let good = if place % 2 == 0 { &alone } else { &beside };
        let payload = with_words(good, &[(field, offset)]);
        by_choices(samples, SET_PIN_READ_WITH, &[], &CHOICES[1..], &payload);
        one_way(samples, place % 2, READS, &[], &payload);
    }
}

/// Ranges that overlap, leave gaps, stand in another order or end before the payload.
fn ranges(samples: &mut Samples) {
    let payload = [words(&[9, 2, 0, 0, 0, 0]), TEXTS.to_vec(), TEXTS.to_vec()].concat();
    let layouts = [
        [(24, 20), (24, 20)],
        [(44, 20), (24, 20)],
        [(28, 4), (28, 2)],
        [(32, 32), (24, 32)],
        [(36, 28), (36, 30)],
        [(36, 30), (36, 28)],
        [(0, 0), (60, 4)],
        [(60, 4), (0, 0)],
        [(60, 6), (0, 0)],
        [(64, 0), (64, 2)],
    ];
    for [pin, new_pin] in layouts {
        let pairs = [(8, pin.0), (12, pin.1), (16, new_pin.0), (20, new_pin.1)];
        each_way(samples, READS, &[], &with_words(&payload, &pairs));
    }
}

/// A stray offset beside another fault, before it or after it: the order of the rules decides.
fn stray_faults(samples: &mut Samples) {
    let good = two_texts();
    let [first, second] = PAIRS.map(|field| [(field, 25), (field + 4, 0)]);
    let cases = [
        (first, (0, 18)),
        (first, (4, 4)),
        (first, (16, 20)),
        (first, (16, 26)),
        (first, (16, 40)),
        (first, (20, 33)),
        (first, (20, 0)),
        (second, (4, 4)),
        (second, (8, 20)),
        (second, (8, 26)),
        (second, (8, 44)),
        (second, (12, 34)),
    ];
    for (stray, fault) in cases {
        let payload = with_words(&with_words(&good, &stray), &[fault]);
        by_choices(samples, SET_PIN_READ_WITH, &[], &CHOICES, &payload);
    }
}

/// Numbers that are no choice come before everything.
fn choices(samples: &mut Samples, good: &[u8]) {
    let stray = with_words(good, &[(20, 0)]);
    let far = with_words(good, &[(0, 18)]);
    for payload in [good, &stray, &far, &good[..23], &[]] {
        by_choices(samples, SET_PIN_READ_WITH, &[], &NO_CHOICES, payload);
    }
    by_choices(samples, SET_PIN_READ_WITH, &[], &[3, 0x101, 0x8000_0000], &stray);
}

/// The writer with texts of all sizes, with each room; what it wrote is read.
fn set_writes(samples: &mut Samples) {
    for sizes in SIZES {
        let [pin, new_pin] = sizes;
        let text = |byte, size: usize| resized(&vec![byte; size.min(34)], size);
        let input = [text(0x31, pin), text(0x32, new_pin)].concat();
        let length = 24 + sizes.map(|size| size.div_ceil(4) * 4).iter().sum::<usize>();
        for room in [0, length - 1, length, length + 1] {
            let fields = [room, 2, 0, pin, new_pin].map(|number| number as u64);
            let written = samples.ask(SET_PIN_WRITE, &fields, &input);
            if written.numbers[0] == 0 {
                samples.ask(SET_PIN_READ, &[], &written.output);
            }
        }
    }
    for room in [23, 24, 4096] {
        samples.ask(SET_PIN_WRITE, &[room, 17, 3, 0, 0], &[]);
    }
}

/// The writer's numbers at their limits, with and without a later fault.
fn set_write_tables(samples: &mut Samples) {
    let types = [0, 1, 16, 17, 18, 19, 0x102, 0x8000_0002, 0xFFFF_FFFF];
    let operations = [0, 1, 2, 3, 4, 5, 0x100, 0x8000_0000, 0xFFFF_FFFF];
    let cases = types.map(|pin_type| (pin_type, 3)).into_iter();
    for (pin_type, pin_operation) in cases.chain(operations.map(|operation| (17, operation))) {
        for (room, pin, new_pin) in [(100, 4, 2), (0, 4, 2), (0, 33, 34), (100, 2, 3)] {
            let input = vec![7; pin + new_pin];
            let fields = [room, pin_type, pin_operation, pin as u64, new_pin as u64];
            samples.ask(SET_PIN_WRITE, &fields, &input);
        }
    }
    for room in [0, 100] {
        samples.ask(SET_PIN_WRITE, &[room, 18, 4, 33, 33], &[7; 66]);
        samples.ask(SET_PIN_WRITE, &[room, 18, 4, 0, 0], &[]);
    }
}

/// PIN_INFO read: lengths, tables, any number of attempts; no numbers contradict each other.
fn infos(samples: &mut Samples, random: &mut Random) {
    let good = words(&[2, 1, 3]);
    lengths(samples, PIN_INFO_READ, &[], &good, LENGTHS);
    lengths(samples, PIN_INFO_READ, &[], &words(&[18, 2, 0, 0, 0, 0]), [0, 11, 12, 13, 24, 4097]);
    change_bytes(samples, PIN_INFO_READ, &[], &good, random);
    for (place, limit) in [(0, 17), (4, 1)] {
        let all: Vec<u32> = (0..limit + 3).chain(around(limit)).collect();
        set_word(samples, PIN_INFO_READ, &[], &good, place, &all);
    }
    set_word(samples, PIN_INFO_READ, &[], &good, 8, &[0, 1, 10, 255, 256, 1 << 31, u32::MAX]);
    two_faults(samples, PIN_INFO_READ, &[], &good, &[(0, 18), (4, 2), (8, u32::MAX), (0, 17)]);
    for pin_type in [0, 1, 17] {
        for state in [0, 1] {
            for attempts in [0, u32::MAX] {
                samples.ask(PIN_INFO_READ, &[], &words(&[pin_type, state, attempts]));
            }
        }
    }
}

/// PIN_INFO written, with each room; what was written is read.
fn info_writes(samples: &mut Samples) {
    let max = u64::from(u32::MAX);
    for fields in [[0, 0, 0], [2, 1, 3], [17, 1, max], [18, 0, 0], [17, 2, 0], [18, 2, max]] {
        for room in [0, 1, 8, 11, 12, 13, 4096] {
            samples.ask(PIN_INFO_WRITE, &[&[room], &fields[..]].concat(), &[]);
        }
    }
    for pin_type in (0..20).chain([0x102, 0x8000_0002, max]) {
        let written = samples.ask(PIN_INFO_WRITE, &[12, pin_type, pin_type % 2, pin_type], &[]);
        if written.numbers[0] == 0 {
            samples.ask(PIN_INFO_READ, &[], &written.output);
        }
    }
    for state in [0, 1, 2, 3, 0x100, 0x101, 0x8000_0000, max] {
        samples.ask(PIN_INFO_WRITE, &[12, 11, state, 10], &[]);
    }
}

/// Records that are mostly good, written and read back.
fn random_records(samples: &mut Samples, random: &mut Random) {
    for round in 0..30 {
        let sizes = [random.below(17) * 2, random.below(17) * 2 + random.below(12) / 11];
        let numbers = [random.below(19), random.below(4), sizes[0], sizes[1]];
        let input = random.bytes(sizes[0] + sizes[1]);
        let fields = [&[88], &numbers.map(|number| number as u64)[..]].concat();
        let written = samples.ask(SET_PIN_WRITE, &fields, &input);
        if written.numbers[0] == 0 {
            one_way(samples, round, READS, &[], &written.output);
        }
    }
}
