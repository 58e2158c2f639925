//! The second table: how the library's time grows with what a reader, the cutter or the assembler is
//! given. The readers of VERSION and of packet service have one size, and stand in the first table alone.

use crate::inputs;
use crate::measure::{growth, keep, Mode, Size};
use culvertroost::c;
use second::message::COMMAND;
use std::hint::black_box;

/// An input with so many elements or fragments.
struct Sized {
    count: usize,
    bytes: Vec<u8>,
}

fn sized(counts: &[usize], make: impl Fn(usize) -> Vec<u8>) -> Vec<Sized> {
    counts.iter().map(|&count| Sized { count, bytes: make(count) }).collect()
}

/// A row for each input, on which `call` makes a call with what it needs.
fn rows<'a, C: FnMut() + 'a>(
    mode: Mode,
    name: &str,
    of: &str,
    inputs: &'a [Sized],
    call: impl Fn(&'a [u8], usize) -> C,
) {
    let size = |input: &'a Sized| Size {
        count: input.count,
        bytes: input.bytes.len(),
        call: Box::new(call(&input.bytes, input.count)),
    };
    growth(mode, name, of, inputs.iter().map(size).collect());
}

fn records(mode: Mode) {
    let registrations = sized(&[1, 2, 3], inputs::registration);
    rows(mode, "registration read", "texts", &registrations, |payload, _| {
        move || keep(c::registration_read(0x0200, black_box(payload)))
    });
    let signals = sized(&[1, 8, 16], inputs::signal);
    rows(mode, "signal read", "entries", &signals, |payload, _| {
        move || keep(c::signal_state_read(0x0200, black_box(payload)))
    });
}

fn lists(mode: Mode) {
    let lists = sized(&[1, 8, 32], |count| inputs::services(count, &inputs::CIDS));
    rows(mode, "services read", "elements", &lists, |payload, _| {
        move || keep(c::device_services_read(black_box(payload)))
    });
    rows(mode, "is a CID listed, the last", "elements", &lists, |payload, count| {
        let id = c::service_id(&[count as u8; 16]);
        move || keep(c::device_services_listed(black_box(payload), id, 8))
    });
    rows(mode, "an element, the last", "elements", &lists, |payload, count| {
        let mut cids = [0; 8];
        move || keep(c::device_services_element(black_box(payload), count as u32 - 1, &mut cids))
    });
    rows(mode, "all elements", "elements", &lists, |payload, _| {
        let (mut fields, mut cids) = ([0; 7 * 32], [0; 8 * 32]);
        move || keep(c::device_services_all(black_box(payload), &mut fields, &mut cids))
    });
    let numbers: Vec<u32> = (1..=128).collect();
    let elements = sized(&[1, 8, 32, 128], |count| inputs::services(1, &numbers[..count]));
    rows(mode, "an element, the only one", "CIDs", &elements, |payload, _| {
        let mut cids = [0; c::MOST_CIDS];
        move || keep(c::device_services_element(black_box(payload), 0, &mut cids))
    });
}

/// Messages that fill their fragments of 64 bytes: 16 bytes in the first, 44 in each other.
fn messages(mode: Mode) {
    let messages = sized(&[1, 8, 32, 92], |count| vec![5; 16 + 44 * (count - 1)]);
    let message = inputs::message(COMMAND);
    rows(mode, "cut at 64", "fragments", &messages, |information, _| {
        let mut out = [0u8; 8192];
        move || keep(c::message_cut(message, 64, black_box(information), &mut out))
    });
    rows(mode, "receive at 64, all", "fragments", &messages, |information, _| {
        let pieces = inputs::cut(64, information);
        let (mut memory, mut out) = ([0u8; c::ASSEMBLY_SIZE], [0u8; 4096]);
        move || {
            for piece in &pieces {
                keep(c::receive(&mut memory, black_box(piece), &mut out));
            }
        }
    });
}

pub fn run(mode: Mode) {
    records(mode);
    lists(mode);
    messages(mode);
}
