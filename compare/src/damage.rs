//! Ways to damage bytes.

use crate::random::Random;

/// The bytes as they are, or damaged in one way or in two.
pub fn maybe(random: &mut Random, bytes: &[u8]) -> Vec<u8> {
    match random.below(5) {
        0 | 1 => bytes.to_vec(),
        2 => {
            let once = damaged(random, bytes);
            damaged(random, &once)
        }
        _ => damaged(random, bytes),
    }
}

pub fn damaged(random: &mut Random, bytes: &[u8]) -> Vec<u8> {
    let mut bytes = bytes.to_vec();
    match random.below(10) {
        0 => bytes.truncate(random.below(bytes.len() + 1)),
        1 => bytes.truncate(bytes.len().saturating_sub(1 + random.below(8))),
        2 => {
            let more = 1 + random.below(9);
            bytes.extend(random.bytes(more));
        }
        3 => flip(random, &mut bytes),
        4 => set_byte(random, &mut bytes),
        5 => nudge(random, &mut bytes),
        6 | 7 => set_word(random, &mut bytes),
        8 => clear_word(random, &mut bytes),
        _ => rarely(random, &mut bytes),
    }
    bytes
}

fn flip(random: &mut Random, bytes: &mut [u8]) {
    let place = random.below(bytes.len());
    if let Some(byte) = bytes.get_mut(place) {
        *byte ^= 1 << random.below(8);
    }
}

fn set_byte(random: &mut Random, bytes: &mut [u8]) {
    let place = random.below(bytes.len());
    if let Some(byte) = bytes.get_mut(place) {
        *byte = random.pick(&[0, 1, 2, 3, 4, 7, 0x1c, 0x63, 0x7f, 0x80, 0xff]);
    }
}

/// A word of the front, where the fixed parts are, more often than any other.
fn word_place(random: &mut Random, length: usize) -> usize {
    let words = length / 4;
    4 * if random.once_in(3) { random.below(words) } else { random.below(words.min(16)) }
}

fn set_word(random: &mut Random, bytes: &mut [u8]) {
    let place = word_place(random, bytes.len());
    let length = bytes.len() as u32;
    if let Some(word) = bytes.get_mut(place..place + 4) {
        let number = if random.once_in(4) { random.near(length) } else { random.hostile() };
        word.copy_from_slice(&number.to_le_bytes());
    }
}

/// A word set to 0: a size, perhaps, whose offset stays.
fn clear_word(random: &mut Random, bytes: &mut [u8]) {
    let place = word_place(random, bytes.len());
    if let Some(word) = bytes.get_mut(place..place + 4) {
        word.fill(0);
    }
}

/// A word changed by a little.
fn nudge(random: &mut Random, bytes: &mut [u8]) {
    let place = word_place(random, bytes.len());
    if let Some(word) = bytes.get_mut(place..place + 4) {
        let old = u32::from_le_bytes([word[0], word[1], word[2], word[3]]);
        let step = random.pick(&[1, 2, 4, 8, 20]);
        let new = if random.once_in(2) { old.wrapping_add(step) } else { old.wrapping_sub(step) };
        word.copy_from_slice(&new.to_le_bytes());
    }
}

/// Longer than any payload, two words exchanged, or no trace of what was there.
fn rarely(random: &mut Random, bytes: &mut Vec<u8>) {
    match random.below(6) {
        0 => bytes.resize(4094 + random.below(6), 0),
        1 => {
            let length = random.below(200);
            *bytes = random.bytes(length);
        }
        _ => {
            let (a, b) = (word_place(random, bytes.len()), word_place(random, bytes.len()));
            if a.max(b) + 4 <= bytes.len() {
                (0..4).for_each(|byte| bytes.swap(a + byte, b + byte));
            }
        }
    }
}
