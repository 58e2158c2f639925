//! Byte streams: good and damaged pieces, cut anywhere, held against the same stream in one chunk and against
//! its pieces one by one; lengths, outputs and memories at and around their limits.

use crate::library::{is_whole, u32_at, WHOLE};
use crate::messages::{fragments, pieces};
use crate::payloads::put;
use crate::random::Random;
use crate::sides::Sides;
use crate::sweep::numbers;
use second::flat::{question as q, Answer, ASSEMBLY_SIZE, STREAM_SIZE};
use second::message::{CLOSE, COMMAND, COMMAND_DONE, INDICATE_STATUS, OPEN};
use second::payload::BASIC_CONNECT;

const ROOM: u64 = 4096;
/// Room and memories as they should be.
const ALL: [u64; 3] = [ROOM, STREAM_SIZE, ASSEMBLY_SIZE];
const UNKNOWN: u32 = 9;
/// How many bytes tell a piece's type and length.
const HEAD: usize = 8;

// ---- outcomes

/// What a call came to.
#[derive(Clone, Copy, PartialEq)]
enum Outcome {
    Short,
    Whole,
    Pending,
    Complete,
    Refused,
    EndedByFragment,
    EndedByWhole,
    EndedBefore,
    SmallOutput,
    SmallStream,
    SmallAssembly,
}

const OUTCOMES: [&str; 11] = [
    "short",
    "whole",
    "pending",
    "complete",
    "refused",
    "ended by a fragment",
    "ended by a whole message",
    "ended before",
    "output too small",
    "stream too small",
    "assembly too small",
];
/// What the stream was before the call.
const STATES: [&str; 4] = ["empty stream", "few bytes held", "a head held", "ended stream"];
const ENDED: usize = 3;

/// How often each outcome was met.
#[derive(Default)]
pub struct Met([[usize; OUTCOMES.len()]; STATES.len()]);

impl Met {
    pub fn report(&self) {
        for (name, counts) in STATES.iter().zip(&self.0) {
            let texts = OUTCOMES.iter().zip(counts).filter(|(_, count)| **count > 0);
            let texts: Vec<String> = texts.map(|(text, count)| format!("{count} {text}")).collect();
            println!("{name:16} {}", texts.join(", "));
        }
    }

    /// The outcomes that were not met, of those that there are.
    pub fn missing(&self) -> Vec<String> {
        let mut missing = Vec::new();
        for (state, counts) in self.0.iter().enumerate() {
            for (outcome, count) in counts.iter().enumerate() {
                if *count == 0 && can_be(state, outcome) {
                    missing.push(format!("{}: {}", STATES[state], OUTCOMES[outcome]));
                }
            }
        }
        missing
    }
}

/// Whether a call can come to this: an ended stream takes nothing, and a head that is held was judged.
fn can_be(state: usize, outcome: usize) -> bool {
    let before = Outcome::EndedBefore as usize;
    match state {
        ENDED => outcome >= before,
        2 => outcome < Outcome::EndedByFragment as usize || outcome > before,
        _ => outcome != before,
    }
}

fn state_of(memory: &[u8]) -> usize {
    match (memory[4], u32_at(memory, 0) as usize) {
        (0, 0) => 0,
        (0, held) => 1 + usize::from(held >= HEAD),
        _ => ENDED,
    }
}

// ---- calls

/// What a call came to.
struct Fed {
    /// The answer without its last two numbers.
    answer: Answer,
    taken: usize,
    ended: bool,
    /// The piece that was taken, if one was.
    piece: Option<Vec<u8>>,
}

/// Feeds a chunk into this room and these memories, and shows both.
fn feed(sides: &mut Sides, lent: [u64; 3], chunk: &[u8]) -> Fed {
    let before = sides.ask(q::SHOW_STREAM, &[], &[]).output;
    let mut answer = sides.step(q::STREAM_FEED, &lent, chunk);
    let ended = answer.numbers.pop() == Some(1);
    let taken = answer.numbers.pop().unwrap_or(0) as usize;
    let taken = taken.min(chunk.len());
    let held = (u32_at(&before, 0) as usize).min(before.len() - 8);
    let front = [&before[8..8 + held], &chunk[..taken]].concat();
    let outcome = outcome_of(&answer.numbers, taken, ended, &front);
    sides.streams.0[state_of(&before)][outcome as usize] += 1;
    let is_piece = taken > 0 && !ended && outcome != Outcome::Short;
    Fed { answer, taken, ended, piece: is_piece.then_some(front) }
}

fn outcome_of(numbers: &[u64], taken: usize, ended: bool, front: &[u8]) -> Outcome {
    match numbers {
        [11, ROOM, ..] if taken == 0 => Outcome::SmallOutput,
        [11, STREAM_SIZE, ..] if taken == 0 => Outcome::SmallStream,
        [11, ..] if taken == 0 => Outcome::SmallAssembly,
        _ if ended && taken == 0 => Outcome::EndedBefore,
        _ if ended && is_whole(front) => Outcome::EndedByWhole,
        _ if ended => Outcome::EndedByFragment,
        [0, 0, ..] => Outcome::Short,
        [0, 1, ..] => Outcome::Whole,
        [0, 2, ..] => Outcome::Pending,
        [0, 3, ..] => Outcome::Complete,
        _ => Outcome::Refused,
    }
}

fn reset(sides: &mut Sides) {
    sides.step(q::STREAM_RESET, &ALL[1..], &[]);
}

/// What a run came to: its answers, and the memories that it left.
#[derive(Default, PartialEq)]
struct Run {
    answers: Vec<Answer>,
    pieces: Vec<Vec<u8>>,
    memories: [Vec<u8>; 2],
}

/// Feeds chunks from empty, each until all of it is taken or the stream has ended.
fn run<'a>(sides: &mut Sides, chunks: impl IntoIterator<Item = &'a [u8]>) -> Run {
    let mut run = Run::default();
    reset(sides);
    for mut chunk in chunks {
        loop {
            let Fed { answer, taken, ended, piece } = feed(sides, ALL, chunk);
            if ended || piece.is_some() {
                run.answers.push(answer);
            }
            run.pieces.extend(piece);
            chunk = &chunk[taken..];
            if ended {
                run.memories = memories(sides);
                return run;
            }
            if chunk.is_empty() || taken == 0 {
                break;
            }
        }
    }
    run.memories = memories(sides);
    run
}

fn memories(sides: &mut Sides) -> [Vec<u8>; 2] {
    [q::SHOW_STREAM, q::SHOW_ASSEMBLY].map(|show| sides.ask(show, &[], &[]).output)
}

/// A run of one chunk, whose answers must be those of its pieces one by one.
fn uncut(sides: &mut Sides, bytes: &[u8]) -> Run {
    let run = run(sides, [bytes]);
    sides.ask(q::EMPTY_ASSEMBLY, &[], &[]);
    for (piece, answer) in run.pieces.iter().zip(&run.answers) {
        let mut alone = sides.ask(q::RECEIVE, &[ROOM, ASSEMBLY_SIZE], piece);
        alone.numbers.resize(answer.numbers.len(), 0);
        if alone != *answer {
            sides.differ(q::STREAM_FEED, &ALL, piece, answer, "not as the piece alone");
        }
    }
    run
}

/// A run in these chunks, which must come to the same as the uncut one.
fn cut(sides: &mut Sides, uncut: &Run, chunks: &[&[u8]]) {
    let cut = run(sides, chunks.iter().copied());
    if cut != *uncut {
        let answer = cut.answers.last().cloned().unwrap_or_default();
        sides.differ(q::STREAM_FEED, &ALL, &chunks.concat(), &answer, "not as the stream uncut");
    }
}

// ---- the same at every run

/// A piece with nothing but its type, its length and a transaction in it.
fn piece(message_type: u32, length: usize) -> Vec<u8> {
    let mut piece = vec![0; length];
    put(&mut piece, 0, message_type);
    put(&mut piece, 4, length as u32);
    put(&mut piece, 8, 7);
    piece
}

fn head(message_type: u32, length: u32) -> Vec<u8> {
    [message_type, length].map(u32::to_le_bytes).concat()
}

/// The fragments of a message of 60 bytes.
fn message(sides: &mut Sides) -> Vec<Vec<u8>> {
    fragments(sides, 64, [COMMAND.into(), 7, 11, 0], BASIC_CONNECT, &[9; 60])
}

pub fn sweep(sides: &mut Sides) {
    for message_type in
        WHOLE.into_iter().chain([COMMAND, COMMAND_DONE, INDICATE_STATUS, 0, UNKNOWN])
    {
        for length in numbers() {
            heads(sides, &head(message_type, length));
        }
    }
    cuts(sides);
    longest(sides);
    rooms(sides);
    sizes(sides);
}

/// A type and a length field behind a pending message: held in part, with bytes behind them, and fed again.
fn heads(sides: &mut Sides, head: &[u8]) {
    let first = &message(sides)[0];
    for held in [0, 3, 7] {
        reset(sides);
        feed(sides, ALL, first);
        feed(sides, ALL, &head[..held]);
        feed(sides, ALL, &[&head[held..], &[7, 0, 0]].concat());
        feed(sides, ALL, &[1; 9]);
    }
}

/// Good and refused pieces, an unfinished one or a fault at their end, cut at every place.
fn cuts(sides: &mut Sides) {
    let parts = message(sides);
    let (open, close, unknown) = (piece(OPEN, 16), piece(CLOSE, 12), piece(UNKNOWN, 20));
    let bytes = [&open[..], &parts[0], &close, &unknown, &parts[0], &parts[1]].concat();
    for end in [&parts[0][..50], &head(COMMAND, 19), &head(OPEN, 20), &head(UNKNOWN, 4097)] {
        let bytes = [&bytes[..], end, &[7; 3]].concat();
        let uncut = uncut(sides, &bytes);
        for size in 1..70 {
            let chunks: Vec<&[u8]> = bytes.chunks(size).collect();
            cut(sides, &uncut, &chunks);
        }
        for first in 0..bytes.len() {
            let (start, rest) = bytes.split_at(first);
            for second in (0..rest.len()).step_by(67) {
                let (middle, end) = rest.split_at(second);
                cut(sides, &uncut, &[start, &[], middle, end]);
            }
        }
    }
}

/// Pieces as long as they may be, all their bytes not 0, held up to each byte around their ends.
fn longest(sides: &mut Sides) {
    for length in [4093, 4094, 4095, 4096] {
        let mut first = piece(COMMAND, length);
        first[20..].fill(9);
        for (place, number) in [(12, 1), (16, 0), (40, 0), (44, length as u32 - 48)] {
            put(&mut first, place, number);
        }
        let mut pending = first.clone();
        put(&mut pending, 12, 2);
        let mut unknown = first.clone();
        put(&mut unknown, 0, UNKNOWN);
        for bytes in [first, pending, unknown] {
            let bytes = [&bytes[..], &piece(CLOSE, 12)].concat();
            let uncut = uncut(sides, &bytes);
            for at in [1, 7, 8, 9, 48, length - 2, length - 1, length, length + 1] {
                let (start, rest) = bytes.split_at(at);
                cut(sides, &uncut, &[start, rest]);
                cut(sides, &uncut, &[start, &rest[..1], &rest[1..]]);
            }
        }
    }
}

/// Each state of a stream, by what it is fed first; the rest of a piece goes on with it.
fn states(sides: &mut Sides) -> Vec<(Vec<u8>, Vec<u8>)> {
    let last = &message(sides)[1];
    let split = |at: usize| (last[..at].to_vec(), last[at..].to_vec());
    let ended = (head(CLOSE, 13), piece(CLOSE, 12));
    vec![split(0), split(5), split(8), split(30), ended]
}

/// A stream in one of its states.
fn begin(sides: &mut Sides, front: &[u8]) {
    let first = &message(sides)[0];
    reset(sides);
    feed(sides, ALL, first);
    feed(sides, ALL, front);
}

/// Every room around the least, in every state.
fn rooms(sides: &mut Sides) {
    for (front, rest) in states(sides) {
        for room in [0, 1, 60, 4094, 4095, 4096, 4097, 4098, 5000, 16_384] {
            for chunk in [&rest[..], &[], &head(COMMAND, 19)] {
                begin(sides, &front);
                feed(sides, [room, STREAM_SIZE, ASSEMBLY_SIZE], chunk);
            }
        }
    }
}

/// Memories too small, one or both, also beside an output that is; in every state.
fn sizes(sides: &mut Sides) {
    let around = |most: u64| [0, 1, 8, 48, most - 2, most - 1, most];
    for (front, rest) in states(sides) {
        for size in around(STREAM_SIZE) {
            for assembly_size in around(ASSEMBLY_SIZE) {
                begin(sides, &front);
                for room in [4095, 4096] {
                    feed(sides, [room, size, assembly_size], &rest);
                }
                sides.step(q::STREAM_RESET, &[size, assembly_size], &[]);
            }
        }
    }
}

// ---- made up

/// The bytes of some messages, good and disturbed; now and then some of nothing.
fn stream(sides: &mut Sides, random: &mut Random) -> Vec<u8> {
    let mut bytes = Vec::new();
    for _ in 0..1 + random.below(3) {
        bytes.extend(pieces(sides, random).concat());
        if random.once_in(4) {
            bytes.extend(piece(random.pick(&WHOLE), random.pick(&[12, 16, 16, 16])));
        }
        if random.once_in(12) {
            let length = random.below(30);
            bytes.extend(random.bytes(length));
        }
    }
    bytes
}

/// Chunks of any length up to the most, down to none.
fn chunks<'a>(random: &mut Random, bytes: &'a [u8]) -> Vec<&'a [u8]> {
    let most = random.pick(&[9, 20, 70, 300, 5000]);
    let (mut chunks, mut rest) = (Vec::new(), bytes);
    while !rest.is_empty() {
        let (chunk, after) = rest.split_at(rest.len().min(random.below(most + 1)));
        chunks.push(chunk);
        rest = after;
    }
    chunks
}

/// The same stream uncut, cut, and cut with other calls between.
pub fn streams(sides: &mut Sides, random: &mut Random) {
    let bytes = stream(sides, random);
    let uncut = uncut(sides, &bytes);
    let chunks = chunks(random, &bytes);
    cut(sides, &uncut, &chunks);
    reset(sides);
    for chunk in chunks {
        disturbed(sides, random, chunk);
    }
}

/// Feeds a chunk until all of it is taken or the stream has ended, with other calls between.
fn disturbed(sides: &mut Sides, random: &mut Random, mut chunk: &[u8]) {
    for _ in 0..20 {
        disturb(sides, random);
        let lent = lent(random);
        let Fed { taken, ended, .. } = feed(sides, lent, chunk);
        chunk = &chunk[taken..];
        if ended && random.once_in(3) {
            reset(sides);
        }
        if ended || chunk.is_empty() {
            break;
        }
    }
}

/// Room and memories, now and then around their least.
fn lent(random: &mut Random) -> [u64; 3] {
    let mut lent = ALL.map(|least| match random.below(24) {
        0 => least - 1,
        1 => random.below(least as usize) as u64,
        _ => least,
    });
    if random.once_in(8) {
        lent[0] += random.below(40) as u64;
    }
    lent
}

/// Now and then what else changes a stream or its assembly.
fn disturb(sides: &mut Sides, random: &mut Random) {
    match random.below(60) {
        0 => reset(sides),
        1 => drop(sides.step(q::STREAM_RESET, &lent(random)[1..], &[])),
        2 => drop(sides.step(q::EMPTY_ASSEMBLY, &[], &[])),
        3 | 4 => {
            for piece in pieces(sides, random).iter().take(2) {
                sides.step(q::RECEIVE, &[ROOM, ASSEMBLY_SIZE], piece);
            }
        }
        _ => {}
    }
}
