//! Samples of a table of PINs: made, shown, and with entries.

use crate::damage::{resized, with_word, with_words, words};
use crate::random::Random;
use crate::samples::Samples;
use second::flat::question::{MAKE_PINS, PIN_ENTRY, SHOW_PINS};
use second::flat::PINS_SIZE;

/// A row that is there: type, enabled, starting tries and secret.
pub type Row<'a> = (usize, u64, u64, &'a [u8]);

pub const RIGHT: &[u8] = b"1\x002\x003\x004\0";
pub const WRONG: &[u8] = b"1\x002\x003\x005\0";
pub const PUK: &[u8] = b"8\x007\x006\x005\0";
pub const NEW: &[u8] = b"4\x003\0";
const LONG: &[u8] =
    b"0\x001\x002\x003\x004\x005\x006\x007\x008\x009\x00A\x00B\x00C\x00D\x00E\x00F\0";
const FAR: u64 = 0xFFFF_FFFF;

/// Custom, which can have no PUK.
const CUSTOM: Row = (1, 1, 3, RIGHT);
/// PIN1 and its PUK.
const PAIR: [Row; 2] = [(2, 1, 3, RIGHT), (11, 1, 2, PUK)];
/// PINs and PUKs of every sort: 3 is disabled, 5 has no PUK, 14 no PIN, 7 and 16 have no tries,
/// 9 and 17 have empty secrets; 4, 6 and 13 are not there.
pub const TABLE: [Row; 14] = [
    (1, 1, 2, NEW),
    (2, 1, 3, RIGHT),
    (3, 0, 3, RIGHT),
    (5, 1, 1, RIGHT),
    (7, 1, 0, RIGHT),
    (8, 1, 1, RIGHT),
    (9, 1, 2, &[]),
    (10, 1, 1, LONG),
    (11, 0, 2, PUK),
    (12, 1, 2, PUK),
    (14, 1, 2, PUK),
    (15, 1, 1, PUK),
    (16, 1, 0, PUK),
    (17, 0, 1, &[]),
];

pub fn all(samples: &mut Samples) {
    made(samples);
    make_faults(samples);
    make_sizes(samples);
    unsupported(samples);
    not_expected(samples);
    tries(samples);
    unblocked(samples);
    used_up(samples);
    new_texts(samples);
    starting_numbers(samples);
    texts(samples);
    places(samples);
    refused(samples);
    every_sort(samples);
    every_type(samples);
    walk(samples);
    small_tables(samples);
}

/// What a table with these rows and no others is made of: the numbers and the secrets.
fn made_of(rows: &[Row]) -> (Vec<u64>, Vec<u8>) {
    let (mut numbers, mut secrets) = (vec![0; 68], vec![0; 544]);
    for (pin_type, enabled, starting_tries, secret) in rows.iter().copied() {
        let row = pin_type - 1;
        let length = secret.len() as u64;
        numbers[4 * row..4 * row + 4].copy_from_slice(&[1, enabled, starting_tries, length]);
        secrets[32 * row..32 * row + secret.len()].copy_from_slice(secret);
    }
    (numbers, secrets)
}

pub fn make(samples: &mut Samples, rows: &[Row]) {
    let (numbers, secrets) = made_of(rows);
    samples.ask(MAKE_PINS, &[&[PINS_SIZE], &numbers[..]].concat(), &secrets);
}

pub fn show(samples: &mut Samples) {
    samples.ask(SHOW_PINS, &[], &[]);
}

/// SET_PIN with its texts straight after the fixed part.
pub fn set_pin(pin_type: u32, operation: u32, pin: &[u8], new_pin: &[u8]) -> Vec<u8> {
    let mut payload = words(&[pin_type, operation, 0, 0, 0, 0]);
    for (field, text) in [(8, pin), (16, new_pin)] {
        if !text.is_empty() {
            let pair = [(field, payload.len() as u32), (field + 4, text.len() as u32)];
            payload = [&with_words(&payload, &pair), text].concat();
            payload = resized(&payload, payload.len().div_ceil(4) * 4);
        }
    }
    payload
}

fn ask(samples: &mut Samples, payload: &[u8]) {
    samples.ask(PIN_ENTRY, &[], payload);
}

fn enter(samples: &mut Samples, pin_type: u32, pin: &[u8]) {
    ask(samples, &set_pin(pin_type, 0, pin, &[]));
}

fn enter_new(samples: &mut Samples, pin_type: u32, pin: &[u8], new_pin: &[u8]) {
    ask(samples, &set_pin(pin_type, 0, pin, new_pin));
}

/// Entries without a text of a type that has a secret.
fn miss(samples: &mut Samples, pin_type: u32, count: usize) {
    for _ in 0..count {
        enter(samples, pin_type, &[]);
    }
}

/// Tables with all rows, with none, with single ones, and what they are made of beside it.
fn made(samples: &mut Samples) {
    let all: Vec<Row> = (1..=17)
        .map(|pin_type| {
            let tries = [0, 1, 3, 256, FAR][pin_type % 5];
            (pin_type, pin_type as u64 / 2 % 2, tries, &LONG[..pin_type * 2 % 34])
        })
        .collect();
    make(samples, &all);
    show(samples);
    make(samples, &[]);
    show(samples);
    for row in [(1, 0, FAR, LONG), (1, 1, 0, &[]), (2, 0, 1, &LONG[..30])] {
        make(samples, &[row]);
        show(samples);
    }
    make(samples, &[(17, 1, 2, NEW)]);
    show(samples);
    // Bytes past a secret's length, and all of an absent row, are not kept.
    let (mut numbers, _) = made_of(&[(1, 1, 3, RIGHT), (2, 1, 3, &[]), (3, 1, 3, RIGHT)]);
    numbers[4] = 0;
    samples.ask(MAKE_PINS, &[&[PINS_SIZE], &numbers[..]].concat(), &resized(&[7; 96], 544));
    show(samples);
}

/// Asks for a table with these numbers changed: row, place in it and value.
fn make_with(samples: &mut Samples, size: u64, changes: &[(usize, usize, u64)]) {
    let (mut numbers, secrets) = made_of(&[CUSTOM]);
    for (row, place, value) in changes {
        numbers[4 * row + place] = *value;
    }
    samples.ask(MAKE_PINS, &[&[size], &numbers[..]].concat(), &secrets);
}

/// Each number of a row outside its table, in rows that are there and in absent ones; two at once.
fn make_faults(samples: &mut Samples) {
    make(samples, &[(1, 1, 5, NEW)]);
    for value in [2, 3, 256, 257, 0x1_0001, FAR] {
        make_with(samples, PINS_SIZE, &[(0, 0, value)]);
        make_with(samples, PINS_SIZE, &[(0, 1, value)]);
    }
    for value in [1, 7, 31, 33, 34, 64, 256, 258, 0x1_0000, FAR] {
        make_with(samples, PINS_SIZE, &[(0, 3, value)]);
    }
    for (row, present) in [(1, 0), (1, 1), (10, 1), (16, 0)] {
        let faults = [(0, 2), (1, 2), (3, 33), (3, 34), (3, 1)];
        let some = if row < 10 { &faults[..] } else { &faults[..3] };
        for (place, value) in some.iter().copied() {
            make_with(samples, PINS_SIZE, &[(row, 0, present), (row, place, value)]);
        }
    }
    let faults = [(0, 0, 2), (0, 1, 2), (0, 3, 33), (1, 0, 2), (1, 1, 2), (1, 3, 34)];
    for (number, first) in faults.iter().enumerate() {
        for second in &faults[number + 1..] {
            make_with(samples, PINS_SIZE, &[*first, *second]);
        }
    }
    show(samples);
}

/// Too little memory comes last, and leaves the table that was there.
fn make_sizes(samples: &mut Samples) {
    for size in [0, 1, 44, 704, PINS_SIZE - 1] {
        make_with(samples, size, &[]);
        make_with(samples, size, &[(0, 3, 33)]);
    }
    make_with(samples, 0, &[(16, 0, 2)]);
    show(samples);
    make_with(samples, PINS_SIZE, &[]);
    show(samples);
}

/// Types that are not there, and operations other than Enter; both at once.
fn unsupported(samples: &mut Samples) {
    make(samples, &TABLE);
    for pin_type in [0, 4, 6, 13] {
        for text in [RIGHT, PUK, &[]] {
            enter(samples, pin_type, text);
        }
    }
    for operation in 1..=3 {
        for (pin_type, text) in
            [(2, RIGHT), (2, WRONG), (3, RIGHT), (15, PUK), (4, RIGHT), (0, NEW)]
        {
            ask(samples, &set_pin(pin_type, operation, text, NEW));
        }
    }
    show(samples);
}

/// Disabled PINs, PUKs whose PIN has tries or isn't there, and PINs that were entered.
fn not_expected(samples: &mut Samples) {
    make(samples, &TABLE);
    for (pin_type, right) in [(3, RIGHT), (11, PUK), (12, PUK), (14, PUK), (16, PUK), (17, &[])] {
        for text in [right, WRONG] {
            enter_new(samples, pin_type, text, NEW);
        }
    }
    show(samples);
    for (pin_type, right) in [(1, NEW), (2, RIGHT), (9, &[])] {
        for text in [right, right, WRONG, &[]] {
            enter(samples, pin_type, text);
        }
    }
    for (pin_type, puk) in [(11, PUK), (17, &[])] {
        enter(samples, pin_type, puk);
    }
    show(samples);
}

/// A PIN without a PUK, shown after each entry: wrong, right after some, right after none, gone.
fn tries(samples: &mut Samples) {
    for wrong in [0, 2, 3] {
        make(samples, &[CUSTOM]);
        for text in [WRONG, &[], NEW].into_iter().take(wrong).chain([RIGHT, RIGHT, WRONG]) {
            enter_new(samples, 1, text, NEW);
            show(samples);
        }
    }
    for pin_type in [4, 10, 2, 9] {
        make(samples, &[(pin_type as usize, 1, 1, RIGHT)]);
        for text in [WRONG, RIGHT, WRONG] {
            enter(samples, pin_type, text);
        }
        show(samples);
    }
}

/// PIN1 blocked and unblocked, shown after each entry.
fn unblocked(samples: &mut Samples) {
    make(samples, &PAIR);
    let entries = [
        (11, PUK),
        (2, WRONG),
        (2, PUK),
        (2, WRONG),
        (2, RIGHT),
        (2, WRONG),
        (11, WRONG),
        (2, RIGHT),
        (11, PUK),
    ];
    for (pin_type, text) in entries {
        enter_new(samples, pin_type, text, NEW);
        show(samples);
    }
    for (pin_type, text) in [(2, NEW), (2, RIGHT), (2, WRONG), (11, PUK), (11, WRONG)] {
        enter_new(samples, pin_type, text, RIGHT);
    }
    show(samples);
}

/// PIN1 blocked and its PUK used up: nothing helps any more.
fn used_up(samples: &mut Samples) {
    make(samples, &PAIR);
    miss(samples, 2, 3);
    for (pin_type, text) in [(11, RIGHT), (11, &[]), (11, PUK), (2, RIGHT), (2, WRONG), (11, WRONG)]
    {
        enter_new(samples, pin_type, text, NEW);
    }
    show(samples);
    make(samples, &PAIR[..1]);
    for (pin_type, text) in [(2, WRONG), (2, WRONG), (2, WRONG), (2, RIGHT), (11, PUK)] {
        enter(samples, pin_type, text);
    }
    show(samples);
    make(samples, &PAIR[1..]);
    for (pin_type, text) in [(11, PUK), (11, WRONG), (2, RIGHT)] {
        enter_new(samples, pin_type, text, NEW);
    }
    show(samples);
}

/// What a right PUK makes the secret: none, short, as long as before, the same, and the longest.
/// A PIN that begins without tries is unblocked as often as one likes.
fn new_texts(samples: &mut Samples) {
    make(samples, &[(2, 1, 0, RIGHT), (11, 1, 4, PUK)]);
    for (number, new_pin) in [LONG, &[], WRONG, &[0; 2]].into_iter().enumerate() {
        miss(samples, 11, number % 3);
        enter_new(samples, 11, PUK, new_pin);
        show(samples);
        enter(samples, 2, new_pin);
    }
    make(samples, &PAIR);
    miss(samples, 2, 3);
    enter(samples, 11, PUK);
    show(samples);
    for (pin_type, text) in [(2, &[][..]), (2, RIGHT), (11, PUK)] {
        enter(samples, pin_type, text);
    }
}

/// No tries from the start, of a PIN, of a disabled one, of a PUK and of both; and very many.
fn starting_numbers(samples: &mut Samples) {
    make(samples, &[(2, 1, 0, RIGHT), (11, 1, 2, PUK)]);
    for (pin_type, text) in [(2, RIGHT), (2, WRONG), (11, WRONG), (11, PUK)] {
        enter_new(samples, pin_type, text, NEW);
    }
    show(samples);
    for (pin_type, text) in [(2, NEW), (11, PUK), (11, RIGHT), (11, WRONG), (11, PUK), (2, WRONG)] {
        enter_new(samples, pin_type, text, WRONG);
    }
    show(samples);
    for (enabled, tries, puk_tries) in [(1, 1, 0), (1, 0, 0), (0, 0, 1)] {
        make(samples, &[(2, enabled, tries, RIGHT), (11, 0, puk_tries, PUK)]);
        let pins = [(2, WRONG), (2, RIGHT)];
        for (pin_type, text) in
            pins.into_iter().chain([(11, PUK), (2, NEW), (11, WRONG), (11, PUK)])
        {
            enter_new(samples, pin_type, text, NEW);
        }
    }
    show(samples);
    for tries in [256, 0x1_0000, FAR] {
        make(samples, &[(1, 1, tries, RIGHT)]);
        for text in [WRONG, WRONG, RIGHT] {
            enter(samples, 1, text);
            show(samples);
        }
    }
    make(samples, &[(2, 1, 1, RIGHT), (11, 1, FAR, PUK)]);
    miss(samples, 2, 2);
    miss(samples, 11, 2);
    enter(samples, 11, PUK);
}

/// Texts that are nearly the secret: longer, shorter, one byte or bit another; then it itself.
fn texts(samples: &mut Samples) {
    let zeros: &[u8] = &[0; 32];
    for secret in [RIGHT, &[], &zeros[..4], LONG] {
        make(samples, &[(1, 1, 40, secret)]);
        let length = secret.len();
        let mut near = vec![vec![], zeros[..2].to_vec(), zeros[..length].to_vec(), LONG.to_vec()];
        near.push(resized(secret, (length + 2).min(32)));
        near.push(secret[..length.saturating_sub(2)].to_vec());
        for place in [0, 1, length / 2, length.wrapping_sub(2), length.wrapping_sub(1)] {
            let mut changed = secret.to_vec();
            if let Some(byte) = changed.get_mut(place) {
                *byte ^= if place % 2 == 0 { 1 } else { 0x80 };
                near.push(changed);
            }
        }
        for text in near.iter().filter(|text| text[..] != *secret) {
            enter_new(samples, 1, text, secret);
        }
        enter(samples, 1, secret);
        show(samples);
    }
}

/// Texts that stand elsewhere in the payload: after a gap, after the new one, over it, at its end.
fn places(samples: &mut Samples) {
    let texts = [NEW, RIGHT, PUK].concat();
    let payload = |pin_type, pairs: [u32; 4]| {
        let [offset, size, new_offset, new_size] = pairs;
        [words(&[pin_type, 0, offset, size, new_offset, new_size]), texts.clone()].concat()
    };
    let layouts = [[28, 8, 0, 0], [28, 8, 24, 4], [28, 8, 28, 8], [28, 8, 28, 16], [28, 8, 24, 20]];
    for pairs in layouts.into_iter().chain([[24, 4, 28, 8], [36, 8, 28, 8], [0, 0, 28, 8]]) {
        make(samples, &[CUSTOM]);
        ask(samples, &payload(1, pairs));
        show(samples);
    }
    make(samples, &[(2, 1, 0, RIGHT), (11, 1, 2, PUK)]);
    for pairs in [[36, 8, 24, 20], [36, 8, 40, 4], [28, 8, 36, 8]] {
        ask(samples, &payload(11, pairs));
        show(samples);
    }
}

/// Payloads at and around each of their rules. A refused one is refused whatever its operation and
/// type, and leaves the table.
fn refused(samples: &mut Samples) {
    make(samples, &[(1, 1, 99, RIGHT)]);
    let good = set_pin(1, 0, WRONG, NEW);
    for length in [0, 1, 11, 12, 13, 23, 24, 25, 31, 32, 35, 36, 37, 4096, 4097] {
        ask(samples, &resized(&good, length));
        ask(samples, &resized(&words(&[1]), length));
    }
    for (place, values) in
        [(0, [17, 18]), (0, [0x101, u32::MAX]), (4, [3, 4]), (4, [256, u32::MAX])]
    {
        for value in values {
            ask(samples, &with_word(&good, place, value));
        }
    }
    let long = resized(&good, 64);
    let sizes = [(24, 32), (24, 33), (24, 34), (24, 31), (24, 1), (36, 28), (36, 30)];
    let offsets = [(0, 2), (4, 2), (20, 2), (23, 2), (25, 2), (26, 2), (64, 2), (0xFFFF_FFFC, 8)];
    let strays = [(1, 0), (8, 0), (23, 0), (24, 0), (25, 0), (64, 0), (u32::MAX, 0)];
    for (offset, size) in sizes.into_iter().chain(offsets).chain(strays) {
        for field in [8, 16] {
            ask(samples, &with_words(&long, &[(field, offset), (field + 4, size)]));
        }
    }
    for changes in [[(0, 2), (12, 0)], [(4, 1), (12, 0)], [(0, 0), (20, 0)], [(4, 3), (20, 33)]] {
        ask(samples, &with_words(&good, &changes));
    }
    show(samples);
    // By default an absent text, which would be the right one here.
    make(samples, &[(1, 1, 3, &[])]);
    for offset in [24, 0] {
        ask(samples, &words(&[1, 0, offset, 0, 0, 0]));
        show(samples);
    }
}

/// Every reply at one table that has PINs and PUKs of every sort.
fn every_sort(samples: &mut Samples) {
    make(samples, &TABLE);
    let entries = [
        (5, WRONG),
        (5, RIGHT),
        (13, PUK),
        (7, RIGHT),
        (15, PUK),
        (7, NEW),
        (15, WRONG),
        (15, PUK),
        (8, WRONG),
        (16, PUK),
        (16, WRONG),
        (9, WRONG),
        (9, NEW),
        (17, NEW),
        (17, &[]),
        (10, &LONG[..30]),
        (10, LONG),
        (1, RIGHT),
        (1, NEW),
        (2, NEW),
        (2, RIGHT),
    ];
    for (number, (pin_type, text)) in entries.into_iter().enumerate() {
        enter_new(samples, pin_type, text, NEW);
        if number % 10 == 7 {
            show(samples);
        }
    }
    show(samples);
}

/// Every type with a secret of its own: PINs right at once, and blocked; PUKs before and after.
fn every_type(samples: &mut Samples) {
    let secrets: Vec<Vec<u8>> = (0..18).map(|number| vec![0x41 + number, 0]).collect();
    let rows: Vec<Row> = (1..=17).map(|row| (row, 1, 2, &secrets[row][..])).collect();
    make(samples, &rows);
    for pin_type in (1..=17).rev() {
        enter(samples, pin_type, &secrets[pin_type as usize]);
    }
    show(samples);
    make(samples, &rows);
    for pin_type in 1..=10 {
        miss(samples, pin_type, 2);
        enter(samples, pin_type, &secrets[pin_type as usize]);
    }
    for puk in 11..=17 {
        // With another one's secret, then with its own.
        enter(samples, puk, &secrets[puk as usize - 1]);
        enter_new(samples, puk, &secrets[puk as usize], &[puk as u8, 9]);
        enter(samples, puk, &secrets[puk as usize]);
    }
    show(samples);
}

/// Random entries at one table with many tries, shown now and then.
fn walk(samples: &mut Samples) {
    let mut random = Random::new(11);
    let secrets: [&[u8]; 5] = [&[], &[1, 0], &[2, 0], &[2, 1], &[2, 0, 3, 0]];
    let [none, short, other, near, long] = secrets;
    let pins = [(1, 1, 30, short), (2, 1, 9, long), (3, 1, 0, none), (5, 1, 9, other)];
    make(samples, &[&pins[..], &[(6, 0, 4, near), (11, 1, 12, other), (12, 0, 6, long)]].concat());
    for round in 0..180 {
        let any = random.below(18) as u32;
        let pin_type = random.pick(&[1, 2, 2, 3, 5, 11, 11, 11, 12, 12, 12, 12, any]);
        let operation = if random.below(20) == 0 { random.below(4) as u32 } else { 0 };
        let is_right = random.below(24) == 0;
        let pin = match pin_type {
            1 | 2 | 5 | 11 if !is_right => random.pick(&[near, none, near]),
            11 => other,
            12 => random.pick(&[long, long, other]),
            _ => random.pick(&secrets),
        };
        let mut payload = set_pin(pin_type, operation, pin, random.pick(&secrets));
        if random.below(16) == 0 {
            let place = random.below(24);
            payload[place] ^= 1 << random.below(8);
        }
        ask(samples, &payload);
        if round % 30 == 29 {
            show(samples);
        }
    }
}

/// Random entries at random tables of few types and short secrets, so that many are right.
fn small_tables(samples: &mut Samples) {
    let mut random = Random::new(12);
    let secrets: [&[u8]; 3] = [&[], &[1, 0], &[1, 0, 2, 0]];
    for _ in 0..4 {
        let mut rows = Vec::new();
        for pin_type in [1, 2, 3, 11, 12] {
            if random.below(8) > 0 {
                let enabled = random.below(6).min(1) as u64;
                rows.push((pin_type, enabled, random.below(4) as u64, random.pick(&secrets)));
            }
        }
        make(samples, &rows);
        for round in 0..28 {
            let pin_type = random.pick(&[1, 2, 2, 3, 3, 11, 11, 12, 12]);
            enter_new(samples, pin_type, random.pick(&secrets), random.pick(&secrets));
            if round % 14 == 13 {
                show(samples);
            }
        }
    }
}
