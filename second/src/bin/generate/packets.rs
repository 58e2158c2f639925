//! Samples of the PACKET_SERVICE payload.

use crate::damage::{around, change_bytes, lengths, set_word, two_faults, with_words, words};
use crate::random::Random;
use crate::samples::Samples;
use second::data_class::{HSPA, MASK_V1, MASK_V2};
use second::flat::question::{PACKET_READ, PACKET_WRITE};

const V1: u64 = 0x0100;
const V2: u64 = 0x0200;
const CLASSES: [u32; 9] = [0, 0x20, 0x40, 0x80, 0xC0, 0x60, 0x100, 0x8000_0000, MASK_V2];
/// Pairs with a bit above 7: in the table, outside it, and HSPA's two bits moved.
const HIGH_PAIRS: [u32; 14] = [
    0x108,
    0x110,
    0x1008,
    0x1_0010,
    0x40_0008,
    0x8000_0008,
    0x8000_0010,
    0x8000_0040,
    0x3_0000,
    0x8040_0000,
    0x300,
    0x1800,
    0x18_0000,
    0x1800_0000,
];
/// HSPA with one more bit, or many.
const MORE_THAN_HSPA: [u32; 10] =
    [0x19, 0x1C, 0x38, 0x58, 0x98, 0x118, 0x1018, 0x1_0018, 0x8000_0018, MASK_V1];

pub fn all(samples: &mut Samples) {
    let mut random = Random::new(2);
    let worked = words(&[0, 2, 0x40, 50_000_000, 0, 150_000_000, 0, 1]);
    let first = words(&[7, 2, 0x20, 1, 2, 3, 4]);
    for version in [0, 0x00FF, V1, 0x0101, V2, 0x0300, 0xFFFF] {
        samples.ask(PACKET_READ, &[version], &worked);
        samples.ask(PACKET_READ, &[version], &first);
        samples.ask(PACKET_READ, &[version], &[]);
    }
    change_bytes(samples, PACKET_READ, &[V2], &worked, &mut random);
    change_bytes(samples, PACKET_READ, &[V1], &first, &mut random);
    for version in [V1, V2] {
        let ends = [0, 1, 3, 4, 8, 27, 28, 29, 30, 31, 32, 33, 36, 4096, 4097];
        lengths(samples, PACKET_READ, &[version], &worked, ends);
    }
    tables(samples, &worked);
    for class in 0..32 {
        samples.ask(PACKET_READ, &[V2], &with_words(&worked, &[(8, 1 << class), (28, 0)]));
        samples.ask(PACKET_READ, &[V1], &with_words(&first, &[(8, 1 << class)]));
    }
    contradictions(samples);
    writes(samples);
    random_records(samples, &mut random);
    hspa_states(samples);
    pairs_of_bits(samples);
    hspa_writes(samples);
}

fn tables(samples: &mut Samples, worked: &[u8]) {
    for (place, limit) in [(0, 9), (4, 4), (28, 3)] {
        set_word(samples, PACKET_READ, &[V2], worked, place, &around(limit));
        set_word(samples, PACKET_READ, &[V1], &worked[..28], place.min(24), &around(limit));
    }
    let faults = [(4, 5), (4, 1), (8, 0x100), (8, 0x20), (8, 0), (28, 4)];
    two_faults(samples, PACKET_READ, &[V2], worked, &faults);
    set_word(samples, PACKET_READ, &[V2], worked, 8, &CLASSES);
    set_word(samples, PACKET_READ, &[V1], &worked[..28], 8, &CLASSES);
}

/// Every state beside classes and frequency ranges.
fn contradictions(samples: &mut Samples) {
    for state in [0, 2, 4, 5] {
        for class in [0, 0x20, 0x40, 0x80, 0xC0] {
            for frequency_range in [0, 1, 3, 4] {
                let payload = words(&[0, state, class, 0, 0, 0, 0, frequency_range]);
                samples.ask(PACKET_READ, &[V2], &payload);
            }
            samples.ask(PACKET_READ, &[V1], &words(&[0, state, class, 0, 0, 0, 0]));
        }
    }
}

fn writes(samples: &mut Samples) {
    let max = u64::MAX;
    for version in [0, 0x0300, 0xFFFF] {
        samples.ask(PACKET_WRITE, &[0, version, 0, 5, 0, 0, 4, 0, 0], &[]);
    }
    for version in [V1, V2] {
        for room in [0, 27, 28, 31, 32, 33] {
            samples.ask(PACKET_WRITE, &[room, version, 1, 2, 0x20, 0x40, 3, max, 1 << 40], &[]);
        }
        for (state, highest, current, range) in [
            (5, 0x40, 0xC0, 4),
            (4, 0x40, 0xC0, 4),
            (4, 0x20, 0x40, 4),
            (4, 0x20, 0x20, 1),
            (2, 0x30, 0x20, 1),
            (2, 0x8000_0000, 0, 1),
            (2, 0, 0x80, 2),
            (4, 0, 0, 0),
            (0xFFFF_FFFF, 0, 0, 0),
        ] {
            let arguments = [40, version, 0xFFFF_FFFF, state, highest, current, range, 5, max];
            samples.ask(PACKET_WRITE, &arguments, &[]);
            samples.ask(PACKET_WRITE, &[&[0], &arguments[1..]].concat(), &[]);
        }
    }
}

/// Records that are mostly good, written, and read back at both versions.
fn random_records(samples: &mut Samples, random: &mut Random) {
    for round in 0..50 {
        let version = if round % 2 == 0 { V1 } else { V2 };
        let state = random.pick(&[2, 2, 2, 2, 0, 1, 3, 4, 5]);
        let any = 1 << random.below(32);
        let class = random.pick(&[0, 0x40, 0x80, any]) & MASK_V2;
        let highest = class & random.pick(&[MASK_V1, MASK_V1, MASK_V1, u32::MAX]);
        let range = random.pick(&[0, 0, 1, 2, 3, 4]);
        let nw_error = random.word().into();
        let (up, down) = (random.next() << 20, random.next());
        let (highest, class) = (highest.into(), class.into());
        let arguments = [64, version, nw_error, state, highest, class, range, up, down];
        let written = samples.ask(PACKET_WRITE, &arguments, &[]);
        if written.numbers[0] == 0 {
            samples.ask(PACKET_READ, &[version], &written.output);
        }
    }
}

/// HSPA in every state, read and written, with frequency ranges.
fn hspa_states(samples: &mut Samples) {
    for state in 0..=5 {
        samples.ask(PACKET_READ, &[V1], &words(&[0, state, HSPA, 0, 0, 0, 0]));
        for range in [0, 1, 3, 4] {
            samples.ask(PACKET_READ, &[V2], &words(&[0, state, HSPA, 0, 0, 0, 0, range]));
            for version in [V1, V2] {
                let fields = [1, state, HSPA, HSPA, range, 2, 3].map(u64::from);
                write_and_read(samples, &[&[40, version], &fields[..]].concat());
            }
        }
    }
}

/// Asks the writer, and both readers about what it wrote.
fn write_and_read(samples: &mut Samples, arguments: &[u64]) {
    let written = samples.ask(PACKET_WRITE, arguments, &[]);
    if written.numbers[0] == 0 {
        samples.ask(PACKET_READ, &[V1], &written.output);
        samples.ask(PACKET_READ, &[V2], &written.output);
    }
}

/// All pairs of the low bits, some with higher ones, and more bits than two.
fn pairs_of_bits(samples: &mut Samples) {
    let low = (0..8).flat_map(|high| (0..high).map(move |low| 1 << high | 1 << low));
    for class in low.chain(HIGH_PAIRS).chain(MORE_THAN_HSPA) {
        let payload = words(&[3, 2, class, 5, 0, 6, 0, 0]);
        samples.ask(PACKET_READ, &[V2], &payload);
        samples.ask(PACKET_READ, &[V1], &payload[..28]);
    }
    let faults = [(4, 5), (4, 1), (8, HSPA), (8, 0x28), (28, 1), (28, 4)];
    let attached = words(&[3, 2, HSPA, 5, 0, 6, 0, 0]);
    two_faults(samples, PACKET_READ, &[V2], &attached, &faults);
}

/// HSPA and its neighbours beside each other: a form has one of the two classes.
fn hspa_writes(samples: &mut Samples) {
    let hspa = u64::from(HSPA);
    for version in [V1, V2] {
        for room in [0, 27, 28, 31, 32, 33] {
            samples.ask(PACKET_WRITE, &[room, version, 1, 2, hspa, hspa, 0, 4, 5], &[]);
        }
        for class in [0x28, 0x30, 0x38] {
            for (highest, current) in [(hspa, class), (class, hspa)] {
                for room in [0, 40] {
                    let arguments = [room, version, 1, 2, highest, current, 0, 4, 5];
                    samples.ask(PACKET_WRITE, &arguments, &[]);
                }
            }
        }
    }
}
