//! Samples of the SIGNAL_STATE payload.

use crate::damage::{
    around, by_choices, change_bytes, each_way, lengths, one_way, resized, set_word, two_faults,
    with_words, words, CHOICES, NO_CHOICES, STRAYS,
};
use crate::random::Random;
use crate::samples::Samples;
use second::data_class::{HSDPA, HSPA, HSUPA};
use second::flat::question::{SIGNAL_READ, SIGNAL_READ_WITH, SIGNAL_WRITE};

const V1: u64 = 0x0100;
const V2: u64 = 0x0200;
const RSSI: [u32; 8] = [0, 1, 30, 31, 32, 98, 99, 100];
const ERROR_RATE: [u32; 8] = [0, 6, 7, 8, 98, 99, 100, u32::MAX];
/// The plain question and the one with a choice.
const READS: [u32; 2] = [SIGNAL_READ, SIGNAL_READ_WITH];

pub fn all(samples: &mut Samples) {
    let mut random = Random::new(4);
    first_form(samples, &mut random);
    let two = [99, 99, 5, 6, 7, 28, 44, 2, 126, 127, 1, 2, 0x20, 127, 128, 3, 4, 0x40];
    let good = words(&two);
    for version in [V1, V2, 0, 0x0300] {
        samples.ask(SIGNAL_READ, &[version], &good);
    }
    change_bytes(samples, SIGNAL_READ, &[V2], &good, &mut random);
    let ends = (0..good.len()).step_by(5).chain([27, 28, 29, 31, 32, 71, 73, 76, 4096, 4097]);
    lengths(samples, SIGNAL_READ, &[V2], &good, ends);
    set_word(samples, SIGNAL_READ, &[V2], &good, 0, &RSSI);
    set_word(samples, SIGNAL_READ, &[V2], &good, 4, &ERROR_RATE);
    pairs(samples);
    entries(samples, &good);
    contradictions(samples);
    writes(samples);
    random_records(samples, &mut random);
    system_types(samples, &good);
    strays(samples, &good);
    choices(samples, &good);
}

fn first_form(samples: &mut Samples, random: &mut Random) {
    let good = words(&[31, 7, 5, 6, 0xFFFF_FFFF]);
    change_bytes(samples, SIGNAL_READ, &[V1], &good, random);
    lengths(
        samples,
        SIGNAL_READ,
        &[V1],
        &good,
        [0, 1, 4, 16, 18, 19, 20, 21, 22, 24, 28, 4096, 4097],
    );
    set_word(samples, SIGNAL_READ, &[V1], &good, 0, &RSSI);
    set_word(samples, SIGNAL_READ, &[V1], &good, 4, &ERROR_RATE);
    samples.ask(SIGNAL_READ, &[V1], &with_words(&good, &[(0, 32), (4, 8)]));
}

/// The list's pair and count at and around every limit.
fn pairs(samples: &mut Samples) {
    let length = 28 + 348;
    let zeros = resized(&words(&[99]), length);
    for count in [0, 1, 15, 16, 17, 0x4000_0001, u32::MAX] {
        let listed = with_words(&zeros, &[(28, count)]);
        let fit = 4u32.wrapping_add(count.wrapping_mul(20));
        for size in [0, 1, 3, 4, 5, 24, 304, 323, 324, 325, 344, fit, fit + 1, fit.wrapping_sub(4)]
        {
            let payload = with_words(&listed, &[(20, 28), (24, size)]);
            samples.ask(SIGNAL_READ, &[V2], &payload);
        }
    }
    let one = with_words(&zeros, &[(28, 1), (48, 1)]);
    for size in [0, 4, 24] {
        let last = (length - size) as u32;
        let ends = [last, last + 4, last - 4, 0x8000_0000, 0xFFFF_FFFC, 0xFFFF_FFE8, u32::MAX];
        for offset in [0, 4, 24, 28, 29, 30, 32].into_iter().chain(ends) {
            let payload = with_words(&one, &[(20, offset), (24, size as u32)]);
            samples.ask(SIGNAL_READ, &[V2], &payload);
        }
    }
    // Several faults at once; a size of 3 is unfit for any list.
    let past = length as u32 + 1;
    let faults = [(3, 0), (27, 0), (3, 24), (27, 24), (24, 3), (29, 3), (past, 24), (29, 325)];
    for (offset, size) in faults {
        let payload = with_words(&one, &[(20, offset), (24, size)]);
        samples.ask(SIGNAL_READ, &[V2], &payload);
    }
    moved(samples);
}

/// Lists after a gap, at the payload's end, and ended before it.
fn moved(samples: &mut Samples) {
    let entry = [1, 0, 0, 0, 0, 0x80];
    for gap in [0, 9] {
        for after in [0, 1] {
            let mut payload = words(&[99, 0, 0, 0, 0, 28 + 4 * gap as u32, 24]);
            payload.resize(28 + 4 * gap, 0xEE);
            payload.extend(words(&entry));
            payload.resize(payload.len() + after, 0xEE);
            samples.ask(SIGNAL_READ, &[V2], &payload);
            let place = 28 + 4 * gap;
            for (field, value) in [(4, 128), (8, 129), (20, 0x100), (0, 0), (0, 17), (0, 2)] {
                let bad = with_words(&payload, &[(place + field, value)]);
                samples.ask(SIGNAL_READ, &[V2], &bad);
            }
        }
    }
}

/// Each field of both entries at its limits.
fn entries(samples: &mut Samples, good: &[u8]) {
    for entry in [32, 52] {
        set_word(samples, SIGNAL_READ, &[V2], good, entry, &[0, 1, 126, 127, 128, 255, u32::MAX]);
        set_word(samples, SIGNAL_READ, &[V2], good, entry + 4, &[0, 127, 128, 129, u32::MAX]);
        set_word(samples, SIGNAL_READ, &[V2], good, entry + 8, &around(0x7F));
        set_word(samples, SIGNAL_READ, &[V2], good, entry + 12, &around(0x7F));
        set_word(samples, SIGNAL_READ, &[V2], good, entry + 16, &[0, 3, 0xC0, 0x807F_00FF]);
    }
    for bit in 0..32 {
        set_word(samples, SIGNAL_READ, &[V2], good, 48, &[1 << bit]);
    }
    let pair = [(20, 24), (20, 29), (24, 0), (24, 325), (24, 3)];
    let others = [(0, 31), (0, 32), (4, 8), (28, 17), (36, 129), (48, 0)];
    let faults = [&pair[..], &others].concat();
    two_faults(samples, SIGNAL_READ, &[V2], good, &faults);
    for (first, second) in [((32, 128), (52, 128)), ((36, 129), (32, 128)), ((48, 0), (52, 128))] {
        samples.ask(SIGNAL_READ, &[V2], &with_words(good, &[first, second]));
        samples.ask(SIGNAL_READ, &[V2], &with_words(good, &[first, second, (0, 3)]));
    }
}

/// Rssi beside known and unknown codes.
fn contradictions(samples: &mut Samples) {
    for rssi in [0, 31, 99] {
        for (rsrp, snr) in [(127, 128), (0, 128), (127, 0), (126, 128), (127, 127), (5, 6)] {
            let head = [rssi, 99, 0, 0, 0, 28];
            let one = [&head[..], &[24, 1, rsrp, snr, 0, 0, 0x20]].concat();
            samples.ask(SIGNAL_READ, &[V2], &words(&one));
            let unknown = [127, 128, 0, 0, 0x20];
            let two = [&head[..], &[44, 2], &unknown, &[rsrp, snr, 0, 0, 0x80]].concat();
            samples.ask(SIGNAL_READ, &[V2], &words(&two));
        }
        samples.ask(SIGNAL_READ, &[V2], &words(&[rssi, 99, 0, 0, 0, 0, 0]));
    }
}

fn writes(samples: &mut Samples) {
    let entry = [1, 2, 3, 4, 0x20];
    // The last but one looks like 1 where its size is worked out in 32 bits.
    for count in [0, 1, 2, 15, 16, 17, 18, 0x4000_0001, 0xFFFF_FFFF] {
        let given = entry.repeat(count.min(16) as usize);
        let length = if count == 0 { 28 } else { 32 + 20 * count };
        for room in [length - 1, length, length + 3].map(|room| room.min(400)) {
            let head = [room, V2, 99, 7, 1, 2, 3, count];
            let written = samples.ask(SIGNAL_WRITE, &[&head[..], &given].concat(), &[]);
            if written.numbers[0] == 0 {
                samples.ask(SIGNAL_READ, &[V2], &written.output);
            }
        }
    }
    for (count, room) in [(0, 0), (0, 19), (0, 20), (1, 20), (16, 21), (17, 20), (0xFFFF_FFFF, 20)]
    {
        let given = entry.repeat(count.min(16) as usize);
        for version in [V1, 0x0300] {
            let head = [room, version, 98, 7, 1, 2, 3, count];
            samples.ask(SIGNAL_WRITE, &[&head[..], &given].concat(), &[]);
            let head = [room, version, 31, 7, 1, 2, 3, count];
            samples.ask(SIGNAL_WRITE, &[&head[..], &given].concat(), &[]);
        }
    }
    write_tables(samples, V1);
    write_tables(samples, V2);
}

/// The writer's numbers at their limits.
fn write_tables(samples: &mut Samples, version: u64) {
    let mut ask = |rssi: u32, error_rate: u32, entries: &[[u64; 5]]| {
        let head = [400, version, rssi.into(), error_rate.into(), 0, 0, 0, entries.len() as u64];
        samples.ask(SIGNAL_WRITE, &[&head[..], &entries.concat()].concat(), &[]);
    };
    for rssi in RSSI {
        ask(rssi, 0, &[]);
        ask(rssi, 8, &[[127, 128, 0, 0, 1]]);
        ask(rssi, 7, &[[127, 128, 0, 0, 1], [127, 127, 0, 0, 1]]);
    }
    for error_rate in ERROR_RATE {
        ask(99, error_rate, &[[0, 0, 0, 0, 1]]);
    }
    for bad in [[128, 129, 0, 0, 0], [127, 129, 0, 0, 0], [127, 128, 0, 0, 0], [0, 0, 0, 0, 0xC0]] {
        ask(31, 7, &[bad]);
        ask(99, 7, &[[0, 0, 0, 0, 1], bad]);
    }
}

/// Records that are mostly good, written and read back.
fn random_records(samples: &mut Samples, random: &mut Random) {
    for _ in 0..14 {
        let mut fields = vec![400, V2, 99, random.pick(&[0, 7, 99])];
        fields.extend((0..3).map(|_| u64::from(random.word())));
        let count = random.below(5) as u64;
        fields.push(count);
        for _ in 0..count {
            let codes = [random.below(128) as u64, random.below(129) as u64];
            fields.extend(codes);
            fields.extend([random.word(), random.word()].map(u64::from));
            let any = random.below(32);
            fields.push(1 << random.pick(&[0, 5, 6, 7, 16, 22, 31, any]));
        }
        let written = samples.ask(SIGNAL_WRITE, &fields, &[]);
        if written.numbers[0] == 0 {
            samples.ask(SIGNAL_READ, &[V2], &written.output);
            samples.ask(SIGNAL_READ, &[V1], &written.output[..20]);
        }
    }
}

/// HSPA is no system type; each of its bits is one.
fn system_types(samples: &mut Samples, good: &[u8]) {
    for class in [HSDPA, HSUPA, HSPA, 0x28] {
        for entry in [32, 52] {
            set_word(samples, SIGNAL_READ, &[V2], good, entry + 16, &[class]);
        }
        for types in [[class, 1], [1, class]] {
            let entries = types.map(|system_type| [0, 0, 0, 0, system_type.into()]);
            let head = [400, V2, 99, 7, 0, 0, 0, 2];
            samples.ask(SIGNAL_WRITE, &[&head[..], &entries.concat()].concat(), &[]);
        }
    }
}

/// Size 0 beside an offset, with Rssi known and unknown, the payload ended or going on with
/// what would be a list.
fn strays(samples: &mut Samples, good: &[u8]) {
    for (number, offset) in STRAYS.into_iter().enumerate() {
        for (place, rssi) in [31, 99].into_iter().enumerate() {
            let length = if number % 2 == 0 { 28 } else { 28 + number };
            let payload = with_words(good, &[(0, rssi), (20, offset), (24, 0)]);
            one_way(samples, number + place, READS, &[V2], &payload[..length]);
        }
    }
    for (rssi, count) in [(31, 2), (99, 17)] {
        let payload = with_words(good, &[(0, rssi), (24, 0), (28, count)]);
        each_way(samples, READS, &[V2], &payload);
    }
    for fault in [(0, 32), (4, 8)] {
        let payload = with_words(&good[..28], &[(24, 0), fault]);
        by_choices(samples, SIGNAL_READ_WITH, &[V2], &CHOICES, &payload);
    }
}

/// Payloads without a stray offset by each choice, and numbers that are none.
fn choices(samples: &mut Samples, good: &[u8]) {
    let mut ask = |version, choices: &[u64], payload: &[u8]| {
        by_choices(samples, SIGNAL_READ_WITH, &[version], choices, payload);
    };
    let stray = with_words(&good[..28], &[(24, 0)]);
    let absent = with_words(&stray, &[(0, 31), (20, 0)]);
    let (first, short) = (&absent[..20], &stray[..27]);
    ask(V2, &CHOICES, good);
    ask(V1, &CHOICES, first);
    for (version, payload) in [(V2, &absent[..]), (V2, short), (V1, &stray)] {
        ask(version, &CHOICES[1..], payload);
    }
    ask(V2, &NO_CHOICES[..2], &stray);
    ask(V2, &NO_CHOICES[2..], short);
    ask(V1, &NO_CHOICES[..1], first);
    ask(0x0300, &NO_CHOICES[..1], &stray);
}
