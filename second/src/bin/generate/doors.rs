//! Samples of whole messages among fragments, of pieces too short for a type, and
//! of memory too small for an assembly.

use crate::damage::{resized, with_word, words};
use crate::feeds::{begin, feed, message, show};
use crate::samples::Samples;
use second::flat::question::{EMPTY_ASSEMBLY, RECEIVE};
use second::flat::ASSEMBLY_SIZE;
use second::message::{
    CLOSE, CLOSE_DONE, COMMAND, COMMAND_DONE, FUNCTION_ERROR, HOST_ERROR, INDICATE_STATUS, OPEN,
    OPEN_DONE,
};

const WHOLE: [u32; 6] = [OPEN, CLOSE, HOST_ERROR, OPEN_DONE, CLOSE_DONE, FUNCTION_ERROR];

pub fn all(samples: &mut Samples) {
    let pending = message(samples, COMMAND, 100);
    for message_type in WHOLE {
        among_fragments(samples, &pending, message_type);
        damaged(samples, &pending, message_type);
    }
    short(samples, &pending);
    other_types(samples, &pending);
    memory(samples, &pending);
}

/// A good message of a whole type.
fn whole(message_type: u32) -> Vec<u8> {
    match message_type {
        CLOSE => words(&[message_type, 12, 7]),
        _ => words(&[message_type, 16, 7, 0x0102_0304]),
    }
}

/// Good whole messages before, between and after the fragments of another message.
fn among_fragments(samples: &mut Samples, pending: &[Vec<u8>], message_type: u32) {
    let good = whole(message_type);
    samples.ask(EMPTY_ASSEMBLY, &[], &[]);
    feed(samples, &good);
    show(samples);
    for piece in pending {
        feed(samples, piece);
        samples.ask(RECEIVE, &[0, ASSEMBLY_SIZE], &good);
        show(samples);
    }
}

/// Damaged whole messages leave what is pending, so its last fragments still complete it.
fn damaged(samples: &mut Samples, pending: &[Vec<u8>], message_type: u32) {
    let good = whole(message_type);
    begin(samples, pending);
    for length in [4, 5, 8, 11, 12, 13, 15, 16, 17, 20, 64, 4096, 4097] {
        let cut = resized(&good, length);
        feed(samples, &cut);
        if length >= 8 {
            feed(samples, &with_word(&cut, 4, length as u32));
        }
    }
    for field in [0, 11, 12, 13, 15, 16, 17, 0x100C, 0x1_0010, u32::MAX] {
        feed(samples, &with_word(&good, 4, field));
    }
    for transaction in [0, 1, u32::MAX] {
        feed(samples, &with_word(&good, 8, transaction));
    }
    if message_type != CLOSE {
        for word in [0, 63, 64, 4096, u32::MAX] {
            feed(samples, &with_word(&good, 12, word));
        }
    }
    show(samples);
    for piece in &pending[1..] {
        feed(samples, piece);
    }
}

/// A piece too short for a type is a fragment's, whatever stands in it; one of 4 bytes has a type.
fn short(samples: &mut Samples, pending: &[Vec<u8>]) {
    for message_type in [OPEN, CLOSE, FUNCTION_ERROR, COMMAND, 0] {
        for length in 0..=4 {
            begin(samples, pending);
            feed(samples, &words(&[message_type])[..length]);
            show(samples);
            feed(samples, &pending[1]);
        }
    }
}

/// Types close to a whole one are no whole ones: such a piece empties the assembly.
fn other_types(samples: &mut Samples, pending: &[Vec<u8>]) {
    let close = [0, 5, 0x101, 0x0100_0002, 0x8000_0000, 0x8000_0005, 0x8000_0006, 0xFFFF_FFFF];
    for message_type in close.into_iter().chain([COMMAND, COMMAND_DONE, INDICATE_STATUS]) {
        begin(samples, pending);
        feed(samples, &words(&[message_type, 16, 7, 4096]));
        show(samples);
    }
}

/// Memory too small is refused before anything is looked at, and left alone.
fn memory(samples: &mut Samples, pending: &[Vec<u8>]) {
    begin(samples, pending);
    let long = resized(&words(&[OPEN, 4097]), 4097);
    for size in [0, 1, 48, 4096, ASSEMBLY_SIZE - 1] {
        for piece in [&whole(OPEN), &whole(CLOSE), &pending[0], &pending[1], &vec![], &long] {
            samples.ask(RECEIVE, &[4096, size], piece);
        }
        samples.ask(RECEIVE, &[0, size], &pending[2]);
    }
    show(samples);
    for piece in &pending[1..] {
        feed(samples, piece);
    }
}
