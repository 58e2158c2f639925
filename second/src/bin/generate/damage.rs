//! Ways to build payloads and to damage them.

use crate::random::Random;
use crate::samples::Samples;

/// Offsets that may stand beside a size of 0: in fixed parts, after them, past every payload,
/// and misaligned.
pub const STRAYS: [u32; 14] =
    [1, 3, 4, 19, 20, 28, 47, 48, 51, 52, 53, 4096, 0xFFFF_FFFC, 0xFFFF_FFFF];
/// What a size of 0 is: absent or strict.
pub const CHOICES: [u64; 2] = [0, 1];
/// Numbers that say no such thing.
pub const NO_CHOICES: [u64; 3] = [2, 0xFFFF_FFFF, 256];

/// Words as little-endian bytes.
pub fn words(words: &[u32]) -> Vec<u8> {
    words.iter().flat_map(|word| word.to_le_bytes()).collect()
}

/// The same bytes with one word changed.
pub fn with_word(bytes: &[u8], place: usize, word: u32) -> Vec<u8> {
    let mut bytes = bytes.to_vec();
    bytes[place..place + 4].copy_from_slice(&word.to_le_bytes());
    bytes
}

/// The same bytes with some words changed.
pub fn with_words(bytes: &[u8], changes: &[(usize, u32)]) -> Vec<u8> {
    let change = |bytes: Vec<u8>, (place, word): &(usize, u32)| with_word(&bytes, *place, *word);
    changes.iter().fold(bytes.to_vec(), change)
}

/// The same bytes, cut short or made longer with zeros.
pub fn resized(bytes: &[u8], length: usize) -> Vec<u8> {
    let mut bytes = bytes.to_vec();
    bytes.resize(length, 0);
    bytes
}

/// So many bytes, of which the first thousand are not 0.
pub fn information(length: usize) -> Vec<u8> {
    let front = (0..length.min(1000)).map(|place| (place % 251) as u8 + 1);
    resized(&front.collect::<Vec<u8>>(), length)
}

/// Numbers at and around a limit, and far above it.
pub fn around(limit: u32) -> [u32; 5] {
    let far = limit | 0x8000_0000;
    [limit, limit.saturating_add(1), limit | 0x100, far, u32::MAX]
}

/// Asks with each word at this place set to each value.
pub fn set_word(
    samples: &mut Samples,
    question: u32,
    arguments: &[u64],
    good: &[u8],
    place: usize,
    values: &[u32],
) {
    for value in values {
        samples.ask(question, arguments, &with_word(good, place, *value));
    }
}

/// Asks with every two of these faults together: the order of the rules decides.
pub fn two_faults(
    samples: &mut Samples,
    question: u32,
    arguments: &[u64],
    good: &[u8],
    faults: &[(usize, u32)],
) {
    for (number, first) in faults.iter().enumerate() {
        for second in &faults[number + 1..] {
            samples.ask(question, arguments, &with_words(good, &[*first, *second]));
        }
    }
}

/// Asks with the payload cut short at these lengths, or made longer.
pub fn lengths(
    samples: &mut Samples,
    question: u32,
    arguments: &[u64],
    good: &[u8],
    lengths: impl IntoIterator<Item = usize>,
) {
    for length in lengths {
        samples.ask(question, arguments, &resized(good, length));
    }
}

/// Asks with single bytes changed, about half of them in one bit; of a long payload every third byte.
pub fn change_bytes(
    samples: &mut Samples,
    question: u32,
    arguments: &[u64],
    good: &[u8],
    random: &mut Random,
) {
    let step = if good.len() > 100 { 3 } else { 1 };
    for place in (0..good.len()).step_by(step) {
        let mut bad = good.to_vec();
        bad[place] ^= match place % 2 {
            0 => random.below(255) as u8 + 1,
            _ => 1 << random.below(8),
        };
        samples.ask(question, arguments, &bad);
    }
}

/// Asks by each of these choices, the last argument.
pub fn by_choices(
    samples: &mut Samples,
    question: u32,
    arguments: &[u64],
    choices: &[u64],
    input: &[u8],
) {
    for choice in choices {
        samples.ask(question, &[arguments, &[*choice]].concat(), input);
    }
}

/// Asks one of three ways, by the number's remainder: the plain question, or the one with a
/// choice, absent or strict.
pub fn one_way(
    samples: &mut Samples,
    number: usize,
    [plain, with]: [u32; 2],
    arguments: &[u64],
    input: &[u8],
) {
    match number % 3 {
        0 => drop(samples.ask(plain, arguments, input)),
        other => by_choices(samples, with, arguments, &CHOICES[other - 1..other], input),
    }
}

/// Asks all three ways.
pub fn each_way(samples: &mut Samples, questions: [u32; 2], arguments: &[u64], input: &[u8]) {
    for number in 0..3 {
        one_way(samples, number, questions, arguments, input);
    }
}
