//! Samples of whole messages, the cutter, transactions and payload kinds.

use crate::damage::{information, resized, words};
use crate::random::Random;
use crate::samples::Samples;
use second::flat::question::{CUT, NEXT_TRANSACTION, PAYLOAD_KIND, WHOLE_MESSAGE, WHOLE_WRITE};
use second::message::{COMMAND, COMMAND_DONE, INDICATE_STATUS};
use second::payload::{BASIC_CONNECT, EXTENSIONS};

const TYPES: [u32; 16] = [
    0,
    1,
    2,
    3,
    4,
    5,
    7,
    0x101,
    0x8000_0000,
    0x8000_0001,
    0x8000_0002,
    0x8000_0003,
    0x8000_0004,
    0x8000_0005,
    0x8000_0007,
    u32::MAX,
];

pub fn all(samples: &mut Samples) {
    whole(samples);
    whole_writes(samples);
    cut_rules(samples);
    cut_lengths(samples);
    for transaction in [0, 1, 2, 0x7FFF_FFFF, 0x8000_0000, 0xFFFF_FFFE, 0xFFFF_FFFF] {
        samples.ask(NEXT_TRANSACTION, &[transaction], &[]);
    }
    kinds(samples);
    pin_kinds(samples);
}

fn whole(samples: &mut Samples) {
    for message_type in TYPES {
        for length in [12, 13, 16, 17, 20] {
            for field in [0, length, length + 1] {
                if field != length && message_type != 1 && message_type != 2 {
                    continue;
                }
                let message = words(&[message_type, field, 77, 4096, 0]);
                samples.ask(WHOLE_MESSAGE, &[], &resized(&message, length as usize));
            }
        }
    }
    for message_type in [0, 3, 4, 0x8000_0007] {
        for field in [0, 11, 13, 16] {
            samples.ask(WHOLE_MESSAGE, &[], &words(&[message_type, field, 77]));
        }
    }
    for length in 0..12 {
        let message = words(&[2, length, 77]);
        samples.ask(WHOLE_MESSAGE, &[], &resized(&message, length as usize));
    }
    for size in [0, 63, 64, 4096, 4097, u32::MAX] {
        samples.ask(WHOLE_MESSAGE, &[], &words(&[1, 16, u32::MAX, size]));
    }
    for length in [4096, 4097] {
        let message = words(&[1, length, 0]);
        samples.ask(WHOLE_MESSAGE, &[], &resized(&message, length as usize));
    }
}

/// The writer of whole messages: every type with room around its limits, any
/// transaction, any word; what was written is judged.
fn whole_writes(samples: &mut Samples) {
    for message_type in TYPES.map(u64::from) {
        for room in [0, 1, 11, 12, 13, 15, 16, 17, 4096] {
            samples.ask(WHOLE_WRITE, &[room, message_type, 77, 4096], &[]);
        }
        for (transaction, word) in [(0, 0), (1, 1), (0xFFFF_FFFF, 0), (0, 0xFFFF_FFFF)] {
            let answer = samples.ask(WHOLE_WRITE, &[16, message_type, transaction, word], &[]);
            if answer.numbers[0] == 0 {
                samples.ask(WHOLE_MESSAGE, &[], &answer.output);
            }
        }
    }
}

/// The cutter's rules in their order, two and more broken at once.
fn cut_rules(samples: &mut Samples) {
    let mut ask = |room: u64, size: u64, head: [u32; 3], length: usize| {
        let [message_type, transaction, word] = head.map(u64::from);
        let arguments = [room, size, message_type, transaction, 11, word];
        samples.ask(CUT, &arguments, &resized(&EXTENSIONS, 16 + length));
    };
    for size in [0, 63, 64, 65, 4096, 4097, 0xFFFF_FFFF] {
        for head in [[COMMAND, 1, 0], [1, 0, 2]] {
            ask(100, size, head, 1);
        }
    }
    for message_type in TYPES {
        ask(100, 64, [message_type, 0, 2], 2);
        for (transaction, word) in [(0, 0), (1, 0), (1, 2), (u32::MAX, 1), (1, u32::MAX)] {
            if matches!(message_type, COMMAND | COMMAND_DONE | INDICATE_STATUS) {
                ask(100, 64, [message_type, transaction, word], 2);
            }
        }
    }
    for message_type in [COMMAND, COMMAND_DONE, INDICATE_STATUS] {
        let transaction = u32::from(message_type != INDICATE_STATUS);
        for (wrong, word, length) in [(1, 2, 4097), (0, 2, 4097), (0, 1, 4097), (0, 1, 4096)] {
            ask(0, 64, [message_type, transaction ^ wrong, word], length);
            ask(16_000, 4096, [message_type, transaction ^ wrong, word], length);
        }
    }
}

/// Lengths at and around what fragments hold, with room enough and one byte less.
fn cut_lengths(samples: &mut Samples) {
    let mut random = Random::new(6);
    for message_type in [COMMAND, COMMAND_DONE, INDICATE_STATUS] {
        let head = if message_type == INDICATE_STATUS { 44 } else { 48 };
        let transaction = u64::from(message_type != INDICATE_STATUS) * 0x0102_0304;
        for size in [64, 65, 100] {
            let (first, later) = (size - head, size - 20);
            for length in [0, 1, first - 1, first, first + 1, first + later, first + later + 1] {
                let input = [&EXTENSIONS[..], &random.bytes(length.min(24)), &vec![5; length]];
                let input = &input.concat()[..16 + length];
                let word = random.below(2) as u64;
                let arguments = [size as u64, message_type.into(), transaction, 15, word];
                let count = length.saturating_sub(first).div_ceil(later);
                let needed = (head + length + 20 * count) as u64;
                for room in [needed - 1, needed] {
                    samples.ask(CUT, &[&[room], &arguments[..]].concat(), input);
                }
            }
        }
        // The longest messages of one type are enough.
        let long = [(64, 4096), (512, 4096), (4095, 4096)];
        let some = if message_type == COMMAND_DONE { &long[..] } else { &long[2..] };
        for (size, length) in [(64, 100), (4096, 4048)].iter().chain(some).copied() {
            let input = [&BASIC_CONNECT[..], &information(length)].concat();
            let arguments = [6100, size, message_type.into(), transaction, 9, 1];
            samples.ask(CUT, &arguments, &input);
        }
    }
}

/// Services and CIDs, known and nearly known.
fn kinds(samples: &mut Samples) {
    let mut services = vec![BASIC_CONNECT, EXTENSIONS, [0; 16]];
    for known in [BASIC_CONNECT, EXTENSIONS] {
        for place in [8, 15] {
            let mut changed = known;
            changed[place] ^= 0x90;
            services.push(changed);
        }
    }
    for service in services {
        for message_type in [COMMAND, COMMAND_DONE, INDICATE_STATUS] {
            for cid in [0, 9, 10, 11, 12, 15, 16, 0x109, 0xFFFF_FFFF] {
                let known = service == BASIC_CONNECT || service == EXTENSIONS;
                if !known && cid != 15 {
                    continue;
                }
                samples.ask(PAYLOAD_KIND, &[message_type.into(), cid, cid % 2], &service);
                samples.ask(PAYLOAD_KIND, &[message_type.into(), cid, 0], &service);
            }
        }
        for status in [1, 9] {
            samples.ask(PAYLOAD_KIND, &[COMMAND_DONE.into(), 15, status], &service);
        }
    }
}

/// PIN's CID with every word that counts, and beside it CIDs close to it, the other service, and
/// the words that count there on other CIDs.
fn pin_kinds(samples: &mut Samples) {
    for word in [0, 1, 2, 3, 9, 0x100, 0x101, 0x102, 0x8000_0002, 0xFFFF_FFFF] {
        for message_type in [COMMAND, COMMAND_DONE, INDICATE_STATUS] {
            samples.ask(PAYLOAD_KIND, &[message_type.into(), 4, word], &BASIC_CONNECT);
        }
    }
    for message_type in [COMMAND, COMMAND_DONE, INDICATE_STATUS] {
        for cid in [1, 2, 3, 5, 6, 0x104, 0x8000_0004] {
            samples.ask(PAYLOAD_KIND, &[message_type.into(), cid, 1], &BASIC_CONNECT);
        }
        for service in [EXTENSIONS, [0; 16]] {
            for word in [0, 1, 2] {
                samples.ask(PAYLOAD_KIND, &[message_type.into(), 4, word], &service);
            }
        }
    }
    for (service, cids) in [(BASIC_CONNECT, &[9, 10, 11, 16][..]), (EXTENSIONS, &[15])] {
        for cid in cids {
            samples.ask(PAYLOAD_KIND, &[COMMAND_DONE.into(), *cid, 2], &service);
            samples.ask(PAYLOAD_KIND, &[COMMAND.into(), *cid, 1], &service);
        }
    }
}
