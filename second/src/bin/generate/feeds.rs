//! Samples of fragments received: single ones, and streams of them.

use crate::damage::{information, resized, two_faults, with_word, with_words, words};
use crate::random::Random;
use crate::samples::Samples;
use second::flat::question::{CUT, EMPTY_ASSEMBLY, RECEIVE, SHOW_ASSEMBLY};
use second::flat::ASSEMBLY_SIZE;
use second::message::{COMMAND, COMMAND_DONE, INDICATE_STATUS};
use second::payload::{BASIC_CONNECT, EXTENSIONS};

const ROOM: u64 = 4096;
const KINDS: [u32; 3] = [COMMAND, COMMAND_DONE, INDICATE_STATUS];

pub fn all(samples: &mut Samples) {
    samples.ask(SHOW_ASSEMBLY, &[], &[]);
    single(samples);
    first_fragments(samples);
    later_fragments(samples);
    whole_streams(samples);
    strays(samples);
    gathered(samples);
    rooms(samples);
    many(samples);
    random_streams(samples);
}

/// Cuts a message and gives its fragments.
pub fn pieces(
    samples: &mut Samples,
    size: u64,
    head: [u32; 4],
    information: &[u8],
) -> Vec<Vec<u8>> {
    let [message_type, transaction, cid, word] = head.map(u64::from);
    let service = service(head[2]);
    let arguments = [16_000, size, message_type, transaction, cid, word];
    let input = [&service[..], information].concat();
    let answer = samples.ask(CUT, &arguments, &input);
    let mut rest = &answer.output[..];
    let mut pieces = Vec::new();
    while let Some(length) = rest.get(4..8) {
        let length = u32::from_le_bytes([length[0], length[1], length[2], length[3]]);
        let (piece, after) = rest.split_at(length as usize);
        pieces.push(piece.to_vec());
        rest = after;
    }
    pieces
}

/// The service that a CID is sent to here.
pub fn service(cid: u32) -> [u8; 16] {
    if cid == 15 {
        EXTENSIONS
    } else {
        BASIC_CONNECT
    }
}

pub fn message(samples: &mut Samples, message_type: u32, length: u8) -> Vec<Vec<u8>> {
    let transaction = if message_type == INDICATE_STATUS { 0 } else { 7 };
    let information: Vec<u8> = (1..=length).collect();
    pieces(samples, 64, [message_type, transaction, 11, 1], &information)
}

pub fn feed(samples: &mut Samples, piece: &[u8]) {
    feed_into(samples, ROOM, piece);
}

fn feed_into(samples: &mut Samples, room: u64, piece: &[u8]) {
    samples.ask(RECEIVE, &[room, ASSEMBLY_SIZE], piece);
}

pub fn show(samples: &mut Samples) {
    samples.ask(SHOW_ASSEMBLY, &[], &[]);
}

/// Begins a message that stays pending.
pub fn begin(samples: &mut Samples, pending: &[Vec<u8>]) {
    samples.ask(EMPTY_ASSEMBLY, &[], &[]);
    feed(samples, &pending[0]);
}

/// Rules that every fragment meets: 1, 2, 16, 3, 4, 4.
fn single(samples: &mut Samples) {
    let pending = message(samples, COMMAND, 40);
    for length in [0, 1, 12, 16, 19, 20, 21, 44, 48, 4096, 4097] {
        for message_type in [COMMAND, INDICATE_STATUS, 1] {
            let piece = words(&[message_type, length, 7, 2, 1]);
            feed(samples, &resized(&piece, length as usize));
        }
    }
    for field in [0, 19, 21, 4097, u32::MAX] {
        feed(samples, &words(&[9, field, 7, 0, 9]));
    }
    for field in [20, 4096, 4098] {
        feed(samples, &resized(&words(&[9, field, 7, 0, 9]), 4097));
    }
    let faults = [(4, 63), (0, 9), (12, 0), (12, 129), (16, 5), (40, 2), (44, 4097), (44, 3)];
    two_faults(samples, RECEIVE, &[ROOM, ASSEMBLY_SIZE], &pending[0], &faults);
    for message_type in [0, 1, 2, 4, 6, 0x103, 0x8000_0001, 0x8000_0004, u32::MAX] {
        begin(samples, &pending);
        feed(samples, &words(&[message_type, 20, 7, 0, 9]));
        show(samples);
    }
    for total in [0, 1, 2, 127, 128, 129, 0x100, u32::MAX] {
        for number in [0, 1, total.wrapping_sub(1), total, u32::MAX] {
            feed(samples, &words(&[COMMAND_DONE, 20, 7, total, number]));
        }
    }
}

/// Rules of first fragments: 1, 9, 5, 2.
fn first_fragments(samples: &mut Samples) {
    for message_type in KINDS {
        let head = if message_type == INDICATE_STATUS { 44 } else { 48 };
        let good = resized(&words(&[message_type, 0, 3, 2, 0]), head);
        let field = head - 4;
        for length in [20, 21, 40, head - 1, head] {
            let piece = with_word(&good[..length], 4, length as u32);
            feed(samples, &piece);
        }
        for word in [0, 1, 2, 3, 0x100, u32::MAX] {
            feed(samples, &with_words(&good, &[(4, head as u32), (40, word)]));
        }
        for declared in [0, 7, 8, 9, 4096, 4097, u32::MAX] {
            for total in [1, 128] {
                for carried in [0, 8] {
                    let length = head + carried;
                    let fields = [(4, length as u32), (12, total), (field, declared)];
                    feed(samples, &with_words(&resized(&good, length), &fields));
                }
            }
        }
        show(samples);
        let length = 4096;
        for (declared, total) in [(4096, 2), (4095, 2), (4096 - head as u32, 1)] {
            let fields = [(4, length as u32), (12, total), (field, declared)];
            feed(samples, &with_words(&resized(&good, length), &fields));
        }
    }
}

/// Later fragments: each matching field changed alone, with nothing pending too.
fn later_fragments(samples: &mut Samples) {
    for message_type in KINDS {
        let pending = message(samples, message_type, 100);
        for others in KINDS {
            begin(samples, &pending);
            feed(samples, &with_word(&pending[1], 0, others));
            show(samples);
        }
        for (place, values) in [(8, [0, 8]), (12, [2, 4]), (16, [0, 2])] {
            for value in values {
                begin(samples, &pending);
                feed(samples, &with_word(&pending[1], place, value));
                feed(samples, &pending[1]);
            }
        }
        samples.ask(EMPTY_ASSEMBLY, &[], &[]);
        feed(samples, &pending[1]);
        show(samples);
        feed(samples, &pending[2]);
    }
}

/// Good streams, each shown step by step.
fn whole_streams(samples: &mut Samples) {
    for message_type in KINDS {
        for length in [0, 16, 21, 100] {
            let stream = message(samples, message_type, length);
            for piece in &stream {
                feed(samples, piece);
                show(samples);
            }
        }
    }
}

/// Drops, repeats, exchanges, and pieces of other messages in the middle.
fn strays(samples: &mut Samples) {
    let one = message(samples, COMMAND, 100);
    let two = pieces(samples, 100, [COMMAND, 8, 15, 0], &[9; 150]);
    let three = pieces(samples, 64, [COMMAND_DONE, 7, 11, 0], &[8; 100]);
    let short = pieces(samples, 64, [INDICATE_STATUS, 0, 9, 0], &[6; 5]);
    let open = words(&[1, 16, 1, 4096]);
    let orders: [&[&[u8]]; 12] = [
        &[&one[0], &one[2]],
        &[&one[0], &one[1], &one[1], &one[2]],
        &[&one[0], &one[0], &one[1], &one[2]],
        &[&one[0], &one[1], &one[0], &one[1], &one[2]],
        &[&one[0], &one[2], &one[1]],
        &[&one[0], &two[0], &one[1], &one[2]],
        &[&one[0], &two[0], &two[1], &two[2]],
        &[&one[0], &one[1], &three[2], &one[2]],
        &[&one[0], &one[1], &short[0], &one[2]],
        &[&one[0], &one[1], &open, &one[2]],
        &[&one[0], &one[1], &[], &one[2]],
        &[&one[0], &one[1], &one[2][..40], &one[2]],
    ];
    for order in orders {
        samples.ask(EMPTY_ASSEMBLY, &[], &[]);
        for piece in order {
            feed(samples, piece);
        }
        show(samples);
    }
    begin(samples, &one);
    feed(samples, &with_word(&one[0], 40, 2));
    show(samples);
    begin(samples, &one);
    feed(samples, &with_word(&one[0], 44, 4097));
    show(samples);
}

/// Gathered bytes against the declared: too many, too few, exactly; empty fragments.
fn gathered(samples: &mut Samples) {
    for message_type in KINDS {
        let stream = message(samples, message_type, 100);
        let field = if message_type == INDICATE_STATUS { 40 } else { 44 };
        for declared in [59, 60, 63, 64, 99, 101] {
            samples.ask(EMPTY_ASSEMBLY, &[], &[]);
            feed(samples, &with_word(&stream[0], field, declared));
            for piece in &stream[1..] {
                feed_into(samples, 0, piece);
            }
            show(samples);
        }
        let all = resized(&stream[0], 64);
        let carried = 64 - field as u32 - 4;
        feed(samples, &with_words(&all, &[(12, 3), (field, carried)]));
        for number in [1, 2] {
            feed(samples, &with_words(&stream[1][..20], &[(4, 20), (12, 3), (16, number)]));
            show(samples);
        }
    }
}

/// Output too small at completion.
fn rooms(samples: &mut Samples) {
    for message_type in KINDS {
        for length in [0u8, 16, 100] {
            let stream = message(samples, message_type, length);
            let (last, before) = stream.split_last().expect("a fragment");
            for room in [0, length.saturating_sub(1), length, length + 1] {
                for piece in before {
                    feed_into(samples, 0, piece);
                }
                feed_into(samples, room.into(), last);
            }
            show(samples);
        }
    }
    let pending = message(samples, COMMAND, 100);
    let short = message(samples, COMMAND_DONE, 8);
    for room in [7, 8] {
        begin(samples, &pending);
        feed_into(samples, room, &short[0]);
        show(samples);
    }
}

/// As many fragments and bytes as there may be.
fn many(samples: &mut Samples) {
    for size in [100, 2000, 4096] {
        let stream = pieces(samples, size, [COMMAND_DONE, 1, 16, 0], &information(4096));
        for (number, piece) in stream.iter().enumerate() {
            feed(samples, piece);
            if number % 40 == 30 {
                show(samples);
            }
        }
        show(samples);
    }
    // 128 fragments of one byte each.
    let first = with_words(&[0; 49], &[(0, COMMAND), (4, 49), (8, 5), (12, 128), (44, 128)]);
    feed(samples, &first);
    for number in 1..128 {
        let piece = words(&[COMMAND, 21, 5, 128, number, 2]);
        feed(samples, &piece[..21]);
    }
    show(samples);
}

/// Streams of fragments in a random order, some of them damaged.
fn random_streams(samples: &mut Samples) {
    let mut random = Random::new(7);
    let mut known = Vec::new();
    for (message_type, length) in
        [(COMMAND, 50), (COMMAND, 20), (COMMAND_DONE, 100), (INDICATE_STATUS, 60)]
    {
        known.push(message(samples, message_type, length));
    }
    let (mut stream, mut next) = (0, 0);
    for _ in 0..120 {
        if next >= known[stream].len() || random.below(6) == 0 {
            stream = random.below(known.len());
            next = if random.below(8) == 0 { random.below(known[stream].len()) } else { 0 };
        }
        let mut piece = known[stream][next].clone();
        if random.below(12) == 0 {
            let place = random.below(piece.len().min(48));
            piece[place] ^= 1 << random.below(8);
        }
        feed_into(samples, random.pick(&[ROOM, ROOM, ROOM, 100, 60, 30]), &piece);
        next += 1;
        if random.below(6) == 0 {
            show(samples);
        }
    }
}
