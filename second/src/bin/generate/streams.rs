//! Samples of byte streams: chunks of every length, pieces at their limits, length fields that end the
//! stream, outputs and memories too small, and the assembly fed by the door between.

use crate::damage::{resized, words};
use crate::feeds;
use crate::random::Random;
use crate::samples::Samples;
use second::flat::question::{EMPTY_ASSEMBLY, RECEIVE, SHOW_ASSEMBLY, SHOW_STREAM};
use second::flat::question::{STREAM_FEED, STREAM_RESET};
use second::flat::{ASSEMBLY_SIZE, STREAM_SIZE};
use second::message::{
    CLOSE, CLOSE_DONE, COMMAND, COMMAND_DONE, FUNCTION_ERROR, HOST_ERROR, INDICATE_STATUS, OPEN,
    OPEN_DONE,
};
use second::payload::EXTENSIONS;

const ROOM: u64 = 4096;
const UNKNOWN: u32 = 9;
/// Bytes behind a piece or a field, which belong to what comes next.
const BEHIND: [u8; 3] = [7, 8, 9];

pub fn all(samples: &mut Samples) {
    show(samples);
    reset(samples);
    lengths(samples);
    other_types(samples);
    limits(samples);
    one_byte_at_a_time(samples);
    chunk_sizes(samples);
    long_message(samples);
    between_fragments(samples);
    held_faults(samples);
    ended(samples);
    rooms(samples);
    sizes(samples);
    beside_the_door(samples);
    random_streams(samples);
}

// ---- pieces

/// The two fragments of a message of four bytes.
fn fragments() -> [Vec<u8>; 2] {
    let mut first = words(&[COMMAND, 50, 7, 2, 0]);
    first.extend(EXTENSIONS);
    first.extend(words(&[15, 1, 4]));
    first.extend([0xA1, 0xA2]);
    [first, [&words(&[COMMAND, 22, 7, 2, 1])[..], &[0xA3, 0xA4]].concat()]
}

fn whole(message_type: u32) -> Vec<u8> {
    match message_type {
        CLOSE => words(&[CLOSE, 12, 7]),
        _ => words(&[message_type, 16, 7, 0x0102_0304]),
    }
}

/// A piece of this length that is refused by 3 at 0.
fn unknown(length: u32) -> Vec<u8> {
    resized(&words(&[UNKNOWN, length, 7]), length as usize)
}

// ---- questions

/// Feeds a chunk; gives how many bytes were taken, and whether the stream has ended.
fn feed_by(samples: &mut Samples, arguments: [u64; 3], chunk: &[u8]) -> (usize, bool) {
    let numbers = samples.ask(STREAM_FEED, &arguments, chunk).numbers;
    match numbers[..] {
        [.., taken, ended] => (taken as usize, ended == 1),
        _ => (0, true),
    }
}

fn feed(samples: &mut Samples, chunk: &[u8]) -> (usize, bool) {
    feed_by(samples, [ROOM, STREAM_SIZE, ASSEMBLY_SIZE], chunk)
}

/// Feeds a chunk until all of it is taken or the stream has ended.
fn feed_all(samples: &mut Samples, mut chunk: &[u8]) {
    while !chunk.is_empty() {
        let (taken, ended) = feed(samples, chunk);
        chunk = if ended { &[] } else { &chunk[taken..] };
    }
}

fn receive(samples: &mut Samples, piece: &[u8]) {
    samples.ask(RECEIVE, &[ROOM, ASSEMBLY_SIZE], piece);
}

fn reset(samples: &mut Samples) {
    samples.ask(STREAM_RESET, &[STREAM_SIZE, ASSEMBLY_SIZE], &[]);
}

fn show(samples: &mut Samples) {
    samples.ask(SHOW_STREAM, &[], &[]);
    samples.ask(SHOW_ASSEMBLY, &[], &[]);
}

/// From empty: a message that is pending, and so many bytes of its last fragment held.
fn begin(samples: &mut Samples, held: usize) {
    let [first, last] = fragments();
    reset(samples);
    feed(samples, &first);
    if held > 0 {
        feed(samples, &last[..held]);
    }
}

// ---- lengths and types

/// Each length field with one byte behind it: held, or the end of the stream.
fn lengths(samples: &mut Samples) {
    let lengths = [0, 11, 12, 13, 15, 16, 17, 19, 20, 21, 4095, 4096, 4097, 0x1_0010, u32::MAX];
    for message_type in [COMMAND, UNKNOWN, OPEN, CLOSE] {
        let is_whole = matches!(message_type, OPEN | CLOSE);
        for length in lengths {
            if is_whole && matches!(length, 0 | 19 | 21 | 4095 | 4097) {
                continue;
            }
            feed(samples, &[&words(&[message_type, length])[..], &[7]].concat());
            samples.ask(SHOW_STREAM, &[], &[]);
            reset(samples);
        }
    }
}

/// The other whole types, and types close to a whole one.
fn other_types(samples: &mut Samples) {
    for message_type in [HOST_ERROR, OPEN_DONE, CLOSE_DONE, FUNCTION_ERROR] {
        for length in [12, 20] {
            feed(samples, &words(&[message_type, length]));
            reset(samples);
        }
        feed(samples, &whole(message_type));
    }
    for message_type in [0, 5, 0x0100_0002, 0x8000_0005, INDICATE_STATUS, COMMAND_DONE] {
        for length in [16, 20] {
            feed(samples, &resized(&words(&[message_type, length]), length as usize));
            reset(samples);
        }
    }
}

/// Pieces as short and as long as they may be: whole in a chunk, and held but for the last byte.
fn limits(samples: &mut Samples) {
    let mut longest = resized(&words(&[COMMAND, 4096, 7, 1, 0]), 4096);
    longest[44..51].copy_from_slice(&[0xD0, 0x0F, 0, 0, 0xA1, 0xA2, 0xA3]);
    let mut begun = longest.clone();
    begun[12] = 2;
    let pieces = [unknown(20), unknown(21), unknown(4095), unknown(4096), longest, begun];
    for piece in pieces {
        feed(samples, &piece);
        let (last, before) = piece.split_last().expect("a byte");
        feed(samples, before);
        samples.ask(SHOW_STREAM, &[], &[]);
        feed(samples, &[*last, 7]);
        show(samples);
    }
    reset(samples);
}

// ---- cuts

/// A fragment and a whole message, each byte a chunk, with empty chunks between.
fn one_byte_at_a_time(samples: &mut Samples) {
    begin(samples, 0);
    let bytes = [&fragments()[1][..], &whole(CLOSE)].concat();
    for (place, byte) in bytes.iter().enumerate() {
        if matches!(place, 0 | 7 | 8 | 22) {
            feed(samples, &[]);
        }
        feed(samples, &[*byte]);
    }
    show(samples);
}

/// Whole messages and fragments in chunks of one length, the last of which is all of them.
fn chunk_sizes(samples: &mut Samples) {
    let [first, last] = fragments();
    let bytes = [&whole(OPEN)[..], &first, &whole(CLOSE), &last].concat();
    for size in [7, 8, 9, 100] {
        for chunk in bytes.chunks(size) {
            feed_all(samples, chunk);
        }
        show(samples);
    }
}

/// Three full fragments: in chunks that end inside them, and in one.
fn long_message(samples: &mut Samples) {
    let bytes = feeds::message(samples, COMMAND_DONE, 100).concat();
    for size in [70, 188] {
        for chunk in bytes.chunks(size) {
            feed_all(samples, chunk);
            show(samples);
        }
    }
}

/// What may stand between two fragments: it leaves what is pending, drops it or empties the assembly.
fn between_fragments(samples: &mut Samples) {
    let [first, last] = fragments();
    let later = words(&[COMMAND, 20, 7, 3, 1]);
    for between in [whole(OPEN), whole(CLOSE), unknown(20), later, first.clone()] {
        reset(samples);
        feed_all(samples, &[&first[..], &between].concat());
        show(samples);
        feed(samples, &last);
    }
}

// ---- ends

/// A length field that ends the stream, so many of its bytes held before, with bytes behind it.
fn held_faults(samples: &mut Samples) {
    for held in 0..8 {
        held_fault(samples, [COMMAND, 19], held);
    }
    for held in [0, 3, 4, 7] {
        held_fault(samples, [CLOSE, 16], held);
    }
}

fn held_fault(samples: &mut Samples, head: [u32; 2], held: usize) {
    let bytes = [&words(&head)[..], &BEHIND].concat();
    begin(samples, 0);
    if held > 0 {
        feed(samples, &bytes[..held]);
    }
    feed(samples, &bytes[held..]);
    show(samples);
}

/// Feeds after the end, of which a small output comes first, and resets, of which only a good one counts.
fn ended(samples: &mut Samples) {
    begin(samples, 0);
    feed(samples, &words(&[OPEN, 20]));
    for chunk in [&[][..], &BEHIND, &whole(CLOSE), &words(&[CLOSE, 13])] {
        for room in [0, 4095, 4096, 5000] {
            feed_by(samples, [room, STREAM_SIZE, ASSEMBLY_SIZE], chunk);
        }
    }
    for sizes in [[STREAM_SIZE - 1, ASSEMBLY_SIZE], [STREAM_SIZE, ASSEMBLY_SIZE - 1]] {
        samples.ask(STREAM_RESET, &sizes, &[]);
        feed_by(samples, [ROOM, sizes[0], sizes[1]], &BEHIND);
        feed(samples, &BEHIND);
    }
    show(samples);
    reset(samples);
    show(samples);
    feed(samples, &whole(CLOSE));
}

// ---- what is lent

/// Outputs too small take nothing, of a complete message, a fault or no bytes; larger ones are as good.
fn rooms(samples: &mut Samples) {
    let last = &fragments()[1];
    begin(samples, 10);
    for room in [0, 1, 4095] {
        for chunk in [&last[10..], &words(&[CLOSE, 13]), &[]] {
            feed_by(samples, [room, STREAM_SIZE, ASSEMBLY_SIZE], chunk);
        }
    }
    show(samples);
    for room in [4096, 4097, 5000] {
        begin(samples, 10);
        feed_by(samples, [room, STREAM_SIZE, ASSEMBLY_SIZE], &last[10..]);
    }
}

/// Memories too small: the output comes first, then the stream's, then the assembly's.
fn sizes(samples: &mut Samples) {
    let last = &fragments()[1];
    begin(samples, 10);
    for size in [0, STREAM_SIZE - 1, STREAM_SIZE] {
        for assembly_size in [0, ASSEMBLY_SIZE - 1, ASSEMBLY_SIZE] {
            if (size, assembly_size) != (STREAM_SIZE, ASSEMBLY_SIZE) {
                samples.ask(STREAM_RESET, &[size, assembly_size], &[]);
                feed_by(samples, [4096, size, assembly_size], &last[10..]);
                feed_by(samples, [4095, size, assembly_size], &[]);
            }
        }
    }
    show(samples);
    feed(samples, &last[10..]);
}

/// The assembly by itself, while a piece is held or none: the stream goes on with what it finds there.
fn beside_the_door(samples: &mut Samples) {
    let [first, last] = fragments();
    for between in [&first[..], &last, &whole(OPEN), &unknown(20)] {
        begin(samples, 10);
        receive(samples, between);
        samples.ask(SHOW_STREAM, &[], &[]);
        feed(samples, &last[10..]);
    }
    for held in [0, 10] {
        begin(samples, held);
        samples.ask(EMPTY_ASSEMBLY, &[], &[]);
        feed(samples, &last[held..]);
    }
    reset(samples);
    receive(samples, &first);
    feed(samples, &words(&[OPEN, 17]));
    receive(samples, &last);
    reset(samples);
    receive(samples, &first);
    feed(samples, &words(&[UNKNOWN, 19]));
    receive(samples, &last);
}

// ---- made up

/// Good and damaged pieces, cut anywhere.
fn random_streams(samples: &mut Samples) {
    let mut random = Random::new(8);
    let [first, last] = fragments();
    let known = [first, last.clone(), last, whole(OPEN), whole(CLOSE), unknown(20)];
    for _ in 0..2 {
        let mut bytes = Vec::new();
        for place in 0..6 {
            let mut piece = known[if place < 2 { place } else { random.below(6) }].clone();
            if random.below(8) == 0 {
                let place = random.below(piece.len().min(20));
                piece[place] ^= 1 << random.below(8);
            }
            bytes.extend(piece);
        }
        reset(samples);
        let mut rest = &bytes[..];
        while !rest.is_empty() {
            let most = random.pick(&[0, 9, 30, 60, 90]);
            let (taken, ended) = feed(samples, &rest[..rest.len().min(random.below(most + 1))]);
            rest = if ended { &[] } else { &rest[taken..] };
        }
        show(samples);
    }
}
