//! Samples of the REGISTER_STATE payload.

use crate::damage::{
    around, by_choices, change_bytes, each_way, lengths, one_way, resized, set_word, two_faults,
    with_words, CHOICES, NO_CHOICES, STRAYS,
};
use crate::random::Random;
use crate::samples::Samples;
use second::data_class::HSPA;
use second::flat::question::{REGISTRATION_READ, REGISTRATION_READ_WITH, REGISTRATION_WRITE};

const FORMS: [(u64, usize); 2] = [(0x0100, 48), (0x0200, 52)];
const PAIRS: [(usize, usize); 3] = [(20, 12), (28, 40), (36, 126)];
/// Sizes of the three texts, at and around their limits.
const SIZES: [[usize; 3]; 21] = [
    [0, 0, 0],
    [1, 0, 0],
    [2, 0, 0],
    [12, 40, 126],
    [13, 42, 128],
    [14, 42, 128],
    [12, 41, 128],
    [12, 42, 127],
    [12, 40, 127],
    [12, 40, 128],
    [10, 38, 124],
    [2, 2, 2],
    [0, 2, 0],
    [0, 0, 6],
    [6, 0, 2],
    [11, 0, 0],
    [0, 39, 0],
    [0, 0, 125],
    [4096, 0, 0],
    [0, 5000, 0],
    [0, 0, 4100],
];
/// The plain question and the one with a choice.
const READS: [u32; 2] = [REGISTRATION_READ, REGISTRATION_READ_WITH];
const ID: &[u8] = b"0\x000\x001\x000\x001\0";

pub fn all(samples: &mut Samples) {
    let mut random = Random::new(3);
    worked(samples, &mut random);
    for (version, fixed) in FORMS {
        tables(samples, version, fixed);
        // The middle pair has nothing that the other two don't show at both versions.
        for (field, limit) in PAIRS.into_iter().filter(|pair| pair.0 != 28 || fixed == 52) {
            pair(samples, version, fixed, field, limit);
        }
        let zeros = [0; 60];
        let ends = [0, 1, 47, 48, 49, 51, 52, 53, 4095, 4096, 4097];
        lengths(samples, REGISTRATION_READ, &[version], &zeros, ends);
        ranges(samples, version, fixed as u32);
    }
    writes(samples);
    random_records(samples, &mut random);
    several_bits(samples);
    for (place, form) in FORMS.into_iter().enumerate() {
        strays(samples, place, form);
        choices(samples, form);
    }
    stray_faults(samples);
}

/// The worked cases, and each byte of them changed.
fn worked(samples: &mut Samples, random: &mut Random) {
    for (version, _) in FORMS {
        for class in [0x20, 0x60] {
            let arguments = [300, version, 0, 3, 1, class, 1, 2, 0x20, 10, 0, 0];
            samples.ask(REGISTRATION_WRITE, &arguments, ID);
        }
        let arguments = [300, version, 0, 3, 1, 0x20, 1, 2, 0x20, 10, 0, 0];
        let good = samples.ask(REGISTRATION_WRITE, &arguments, ID).output;
        for read_at in [0x0100, 0x0200, 0, 0x0201] {
            samples.ask(REGISTRATION_READ, &[read_at], &good);
            let five_g = with_words(&good, &[(12, 0x60)]);
            samples.ask(REGISTRATION_READ, &[read_at], &five_g);
        }
        change_bytes(samples, REGISTRATION_READ, &[version], &good, random);
        let ends = (0..good.len() + 4).step_by(9);
        lengths(samples, REGISTRATION_READ, &[version], &good, ends);
    }
}

/// Every number at and around its limits; every class bit; every state beside a class.
fn tables(samples: &mut Samples, version: u64, fixed: usize) {
    let good = resized(&[], fixed + 4);
    let registered = with_words(&good, &[(4, 3)]);
    for (place, limit) in [(0, 5), (4, 6), (8, 2), (16, 3), (44, 3), (48, 0x3F)] {
        set_word(samples, REGISTRATION_READ, &[version], &good, place, &around(limit));
    }
    for bit in 0..32 {
        let preferred = if fixed == 52 { 48 } else { 12 };
        for place in [12, preferred] {
            set_word(samples, REGISTRATION_READ, &[version], &registered, place, &[1 << bit]);
        }
    }
    let faults =
        [(4, 7), (8, 3), (12, 0x100), (12, 1), (16, 4), (24, 1), (28, 4), (44, 4), (48, 0x100)];
    two_faults(samples, REGISTRATION_READ, &[version], &good, &faults);
    for mask in [0x807F_003F, 0x807F_00FF, 0x807F_00BF, u32::MAX] {
        for place in [12, 16, 44, 48] {
            set_word(samples, REGISTRATION_READ, &[version], &registered, place, &[mask]);
        }
    }
    for state in 0..8 {
        for class in [0, 1] {
            let payload = with_words(&good, &[(4, state), (12, class)]);
            samples.ask(REGISTRATION_READ, &[version], &payload);
        }
    }
}

/// One pair: sizes and offsets at and around every limit; several faults at once.
fn pair(samples: &mut Samples, version: u64, fixed: usize, field: usize, limit: usize) {
    let length = fixed + 132;
    let zeros = resized(&[], length);
    let (fixed, limit, length) = (fixed as u32, limit as u32, length as u32);
    for size in [0, 1, 2, limit - 1, limit, limit + 1, limit + 2, u32::MAX] {
        let last = length.wrapping_sub(size);
        let ends = [last & !3, (last & !3).wrapping_add(4)];
        let low = [0, 4, fixed - 4, fixed, fixed + 2];
        for offset in low.into_iter().chain(ends).chain([0xFFFF_FFFC, u32::MAX]) {
            if (size > limit || size % 2 == 1) && offset != 4 {
                continue;
            }
            let payload = with_words(&zeros, &[(field, offset), (field + 4, size)]);
            samples.ask(REGISTRATION_READ, &[version], &payload);
        }
    }
    let faults = [
        (0xFFFF_FFFC, 8),
        (fixed + 1, 2),
        (fixed + 3, 2),
        (3, 0),
        (fixed + 1, 0),
        (3, 2),
        (fixed - 1, limit),
        (length + 1, 2),
        (fixed + 1, limit + 1),
    ];
    for (offset, size) in faults {
        let payload = with_words(&zeros, &[(field, offset), (field + 4, size)]);
        samples.ask(REGISTRATION_READ, &[version], &payload);
    }
}

/// Ranges that overlap, leave gaps, stand in another order; two faults at once.
fn ranges(samples: &mut Samples, version: u64, fixed: u32) {
    let payload: Vec<u8> = (0..fixed as usize + 24).map(|place| (place % 7) as u8).collect();
    let payload =
        with_words(&payload, &[(0, 1), (4, 5), (8, 1), (12, 1), (16, 1), (44, 1), (48, 1)]);
    let layouts = [
        [(fixed, 12), (fixed, 12), (fixed, 12)],
        [(fixed + 20, 4), (fixed + 8, 8), (fixed, 6)],
        [(0, 0), (fixed + 4, 2), (0, 0)],
        [(0, 0), (0, 0), (0, 0)],
        [(fixed + 20, 6), (fixed, 42), (fixed, 128)],
        [(fixed + 20, 4), (fixed, 42), (fixed, 128)],
        [(fixed + 20, 4), (fixed, 24), (fixed, 128)],
        [(fixed - 4, 4), (3, 3), (3, 3)],
        [(fixed, 4), (fixed - 4, 4), (3, 3)],
        [(fixed, 4), (fixed, 26), (fixed, 1)],
        [(fixed + 1, 4), (fixed, 0), (3, 2)],
        [(fixed, 4), (fixed, 0), (fixed + 1, 2)],
        [(fixed, 4), (3, 2), (fixed, 0)],
    ];
    for [id, name, roaming] in layouts {
        let pairs =
            [(20, id.0), (24, id.1), (28, name.0), (32, name.1), (36, roaming.0), (40, roaming.1)];
        let laid = with_words(&payload, &pairs);
        samples.ask(REGISTRATION_READ, &[version], &laid);
        samples.ask(REGISTRATION_READ, &[version], &with_words(&laid, &[(4, 2)]));
    }
}

fn writes(samples: &mut Samples) {
    for version in [0, 0x0300] {
        let fields = [0, version, 9, 7, 3, 1, 4, 4, 0x40, 1, 0, 0];
        samples.ask(REGISTRATION_WRITE, &fields, &[1]);
    }
    for (version, fixed) in FORMS {
        for sizes in SIZES {
            let [id, name, roaming] = sizes;
            let input = [vec![1; id], vec![2; name], vec![3; roaming]].concat();
            let fields = [version, 9, 4, 2, 1, 3, 3, 0x40];
            let length = fixed + sizes.map(|size| size.div_ceil(4) * 4).iter().sum::<usize>();
            let fields = [&fields[..], &sizes.map(|size| size as u64)].concat();
            for room in [length - 1, length] {
                let arguments = [&[room as u64], &fields[..]].concat();
                samples.ask(REGISTRATION_WRITE, &arguments, &input);
            }
        }
        write_tables(samples, version);
    }
}

/// The writer's fields at their limits, with and without a later fault.
fn write_tables(samples: &mut Samples, version: u64) {
    let good = [64, version, 0, 3, 0, 1, 0, 0, 1, 2, 0, 0];
    let faults = [
        (3, 7),
        (4, 3),
        (5, 0x40),
        (5, 0x100),
        (6, 4),
        (7, 4),
        (8, 0x80),
        (8, 0x100),
        (3, 2),
        (3, 6),
    ];
    for (place, value) in faults {
        let mut fields = good;
        fields[place] = value;
        samples.ask(REGISTRATION_WRITE, &fields, &[1, 2]);
        fields[0] = 0;
        samples.ask(REGISTRATION_WRITE, &fields, &[1, 2]);
        fields[9] = 1;
        samples.ask(REGISTRATION_WRITE, &fields, &[1]);
    }
}

/// Records that are mostly good, written, and read at both versions.
fn random_records(samples: &mut Samples, random: &mut Random) {
    for round in 0..12 {
        let (version, _) = FORMS[round % 2];
        let state = random.pick(&[3, 4, 5, 3, 4, 5, 0, 6]);
        let class = u64::from(random.word() & random.pick(&[0x807F_003F, 0x807F_00FF, 0]));
        let preferred = u64::from(random.word() & 0x807F_00FF);
        let sizes = [random.below(7) * 2, random.below(12) * 2, random.below(20) * 2];
        let input = random.bytes(sizes.iter().sum());
        let small = [random.word().into(), state, random.below(3) as u64, class];
        let rest = [random.below(4) as u64, random.below(4) as u64, preferred];
        let sizes = sizes.map(|size| size as u64);
        let arguments = [&[300, version], &small[..], &rest, &sizes].concat();
        let written = samples.ask(REGISTRATION_WRITE, &arguments, &input);
        if written.numbers[0] == 0 {
            samples.ask(REGISTRATION_READ, &[0x0100], &written.output);
            samples.ask(REGISTRATION_READ, &[0x0200], &written.output);
        }
    }
}

/// Both classes with several bits, read and written, in a registered state and another.
fn several_bits(samples: &mut Samples) {
    for (version, fixed) in FORMS {
        for class in [HSPA, 0x28] {
            for (state, available, preferred) in [(3, class, 0), (3, 0, class), (2, class, class)] {
                let changes = [(4, state), (12, available), (48, preferred)];
                let payload = with_words(&resized(&[], fixed + 4), &changes);
                samples.ask(REGISTRATION_READ, &[version], &payload);
                let fields = [0, state, 0, available, 0, 0, preferred, 0, 0, 0].map(u64::from);
                let arguments = [&[64, version], &fields[..]].concat();
                samples.ask(REGISTRATION_WRITE, &arguments, &[]);
            }
        }
    }
}

/// A payload in a registered state with three short texts.
fn three_texts(fixed: usize) -> Vec<u8> {
    let [id, name, roaming] = [0, 4, 8].map(|after| fixed as u32 + after);
    let pairs = [(20, id), (24, 4), (28, name), (32, 2), (36, roaming), (40, 4)];
    let front = with_words(&resized(&[], fixed), &[(4, 3), (12, 1)]);
    [with_words(&front, &pairs), ID[..6].to_vec(), vec![0; 2], ID[6..].to_vec()].concat()
}

/// Size 0 beside an offset in each pair, alone and beside two texts; then in all three.
fn strays(samples: &mut Samples, place: usize, (version, fixed): (u64, usize)) {
    let alone = resized(&[], fixed);
    let beside = three_texts(fixed);
    for (number, offset) in STRAYS.into_iter().enumerate() {
        let good = if number % 2 == 0 { &alone } else { &beside };
        for (pair, (field, _)) in PAIRS.into_iter().enumerate() {
            let payload = with_words(good, &[(field, offset), (field + 4, 0)]);
            one_way(samples, number + pair + place, READS, &[version], &payload);
        }
    }
    let sizes = [(24, 0), (32, 0), (40, 0)];
    let offsets = [(20, fixed as u32), (28, 3), (36, 0xFFFF_FFFC)];
    let payload = with_words(&beside, &[offsets, sizes].concat());
    each_way(samples, READS, &[version], &payload);
}

/// Payloads without a stray offset by each choice, and numbers that are none.
fn choices(samples: &mut Samples, (version, fixed): (u64, usize)) {
    let mut ask = |version, choices: &[u64], payload: &[u8]| {
        by_choices(samples, REGISTRATION_READ_WITH, &[version], choices, payload);
    };
    let good = three_texts(fixed);
    let stray = with_words(&good, &[(40, 0)]);
    let short = &good[..fixed - 1];
    ask(version, &CHOICES, &good);
    ask(0x0300 - version, &CHOICES[1..], &good);
    ask(version, &CHOICES[1..], short);
    ask(version, &NO_CHOICES[..2], &stray);
    ask(version, &NO_CHOICES[2..], short);
    ask(version + 1, &NO_CHOICES[..1], &stray);
}

/// A stray offset beside another fault, before it or after it: the order of the rules decides.
fn stray_faults(samples: &mut Samples) {
    let [first, middle, last] = PAIRS.map(|(field, _)| [(field, 53), (field + 4, 0)]);
    let cases = [
        (first, (4, 7)),
        (first, (28, 57)),
        (first, (28, 44)),
        (first, (28, 64)),
        (first, (32, 42)),
        (first, (40, 3)),
        (first, (44, 4)),
        (first, (48, 0x100)),
        (first, (4, 2)),
        (middle, (20, 57)),
        (middle, (36, 57)),
        (last, (28, 64)),
    ];
    for (number, (stray, fault)) in cases.into_iter().enumerate() {
        let (version, fixed) = FORMS[number % 2];
        let payload = with_words(&with_words(&three_texts(fixed), &stray), &[fault]);
        by_choices(samples, REGISTRATION_READ_WITH, &[version], &CHOICES, &payload);
    }
}
