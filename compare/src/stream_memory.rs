//! Hostile memory, lent for a stream and for its assembly: too small, random, damaged, or with anything past the
//! bytes held. Answer, both memories and output must be the second program's; what the door leaves of an
//! assembly with other bytes past those gathered must be what `cvr_receive` leaves.

use crate::lent::Lent;
use crate::library::{accepted, is_whole, u32_at, Stop};
use crate::memory::{assembly_memory, need, piece, size, Outcome};
use crate::payloads::put;
use crate::random::Random;
use culvertroost::c::{self, *};
use second::door::Received;
use second::message::{CLOSE, COMMAND, COMMAND_DONE, OPEN};
use second::stream::Fed;
use second::stream_memory;
use std::collections::BTreeSet;

const ROOM: usize = 4096;
/// How many wrong cases are printed.
const PRINTED: usize = 20;
/// Where the bytes held stand.
const PIECE: usize = 8;
/// How many bytes tell a piece's type and length.
const HEAD: usize = 8;

/// A case: both memories before the call, the chunk and the room.
struct Case {
    stream: Vec<u8>,
    assembly: Vec<u8>,
    chunk: Vec<u8>,
    room: usize,
}

/// Makes the call and judges all that it did. Gives its answer.
fn judged(case: &Case) -> Result<StreamAnswer, &'static str> {
    let (mut stream, mut assembly) = (Lent::holding(&case.stream), Lent::holding(&case.assembly));
    let mut out = Lent::filled(case.room);
    let chunk: Box<[u8]> = case.chunk[..].into();
    let answer = c::stream_feed(stream.memory(), assembly.memory(), &chunk, out.memory());
    need(stream.guards_hold() && assembly.guards_hold(), "bytes beside a memory touched")?;
    let (mut left, mut left_assembly) = (case.stream.clone(), case.assembly.clone());
    let mut written = Lent::filled(case.room);
    let fed = stream_memory::feed(&mut left, &mut left_assembly, &chunk, written.memory());
    need(answer == answer_of(fed), "another answer than the second program's")?;
    need(out.guards_hold() && out.bytes() == written.bytes(), "another output")?;
    need(stream.bytes() == left, "another stream than the second program's")?;
    if is_zero_past_gathered(&case.assembly) {
        need(assembly.bytes() == left_assembly, "another assembly than the second program's")?;
    }
    judge_assembly(case, answer, assembly.bytes())?;
    if let Err(Stop::Wrong(what)) = accepted(answer.piece) {
        return Err(what);
    }
    Ok(answer)
}

/// The second program's answer in the library's members.
fn answer_of(fed: Fed) -> StreamAnswer {
    let piece = match fed.answer {
        Ok(None) => ReceiveAnswer::default(),
        Ok(Some(received)) => piece_of(received),
        Err(refused) => {
            let refusal = Refusal { number: refused.number, place: refused.place as u64 };
            ReceiveAnswer { refusal, ..ReceiveAnswer::default() }
        }
    };
    StreamAnswer { piece, taken: fed.taken as u64, ended: fed.ended.into() }
}

fn piece_of(received: Received) -> ReceiveAnswer {
    let mut answer = ReceiveAnswer::default();
    match received {
        Received::Whole(whole) => {
            answer.received = 1;
            answer.message.message_type = whole.message_type;
            answer.message.transaction = whole.transaction;
            answer.message.word = whole.word;
        }
        Received::Pending { message_type, transaction, dropped } => {
            (answer.received, answer.dropped) = (2, dropped.into());
            answer.message.message_type = message_type;
            answer.message.transaction = transaction;
        }
        Received::Complete { header, length, dropped } => {
            (answer.received, answer.dropped, answer.length) = (3, dropped.into(), length as u64);
            answer.message = MessageHeader {
                message_type: header.message_type,
                transaction: header.transaction,
                service: c::service_id(&header.service),
                cid: header.cid,
                word: header.word,
            };
        }
    }
    answer
}

/// Whether the second program knows each byte of what the door leaves: nothing stands past those gathered.
fn is_zero_past_gathered(assembly: &[u8]) -> bool {
    if assembly.len() < ASSEMBLY_SIZE {
        return true;
    }
    let past = 48usize.saturating_add(u32_at(assembly, 44) as usize).min(ASSEMBLY_SIZE);
    assembly[past..ASSEMBLY_SIZE].iter().all(|byte| *byte == 0)
}

/// The assembly is what `cvr_receive` leaves of it, empty where a fragment's length ended the stream, and else
/// as it was.
fn judge_assembly(case: &Case, answer: StreamAnswer, after: &[u8]) -> Result<(), &'static str> {
    let mut expected = case.assembly.clone();
    let taken = answer.taken as usize;
    let is_short = answer.piece == ReceiveAnswer::default();
    if taken > 0 && !is_short {
        let held = u32_at(&case.stream, 0) as usize;
        let front = [&case.stream[PIECE..PIECE + held], &case.chunk[..taken]].concat();
        if answer.ended == 0 {
            let alone = c::receive(&mut expected, &front, &mut vec![0; case.room]);
            need(alone == answer.piece, "another answer than to the piece alone")?;
        } else if !is_whole(&front) {
            expected[..ASSEMBLY_SIZE].fill(0);
        }
    }
    need(after == expected, "another assembly than the door leaves")
}

// ---- made up

/// A piece in two parts, of which the first is held with anything past it; numbers that may be wrong.
pub fn fed(random: &mut Random) -> Outcome {
    let case = case(random);
    if random.once_in(12) {
        return reset(&case);
    }
    judged(&case).map(|answer| Some(answer.piece.refusal).filter(|refusal| refusal.number != 0))
}

fn case(random: &mut Random) -> Case {
    let assembly = if random.once_in(3) { assembly_memory(random) } else { waiting(random) };
    let mut bytes = piece(random, &assembly);
    let length = bytes.len();
    if length >= HEAD && random.once_in(4) {
        put(&mut bytes, 4, random.pick(&[19, 20, length as u32 + 1, 4096, 4097]));
    }
    let held = match random.below(8) {
        0 | 1 => 0,
        2 => length,
        _ => random.below(length),
    };
    let behind = random.pick(&[0, 0, 1, 7, 30]);
    bytes.extend(random.bytes(behind));
    let chunk = bytes.split_off(held);
    let room = if random.once_in(20) { random.below(ROOM) } else { ROOM + random.below(2) };
    Case { stream: stream_of(random, &bytes), assembly, chunk, room }
}

/// A message that waits for its second fragment or its last, with anything past the bytes gathered.
fn waiting(random: &mut Random) -> Vec<u8> {
    let mut memory = pending(random.pick(&[0, 0xEE]));
    put(&mut memory, 36, random.pick(&[1, 2]));
    memory
}

/// Memory that holds these bytes, and anything past them; its numbers are now and then others.
fn stream_of(random: &mut Random, held: &[u8]) -> Vec<u8> {
    let size = if random.once_in(6) { size(random, STREAM_SIZE) } else { STREAM_SIZE };
    let mut memory = if random.once_in(3) { vec![0; size] } else { random.bytes(size) };
    if random.once_in(30) {
        return memory;
    }
    let mut front = vec![0; PIECE];
    put(&mut front, 0, random.mostly(&[held.len() as u32]) as u32);
    put(&mut front, 4, random.mostly(&[0, 0, 0, 0, 0, 0, 0, 0, 0, 1]) as u32);
    front.extend(held);
    let count = front.len().min(size);
    memory[..count].copy_from_slice(&front[..count]);
    memory
}

fn reset(case: &Case) -> Outcome {
    let (mut stream, mut assembly) = (Lent::holding(&case.stream), Lent::holding(&case.assembly));
    let refused = c::stream_reset(stream.memory(), assembly.memory());
    need(stream.guards_hold() && assembly.guards_hold(), "bytes beside a memory touched")?;
    let (mut left, mut left_assembly) = (case.stream.clone(), case.assembly.clone());
    let expected = stream_memory::reset(&mut left, &mut left_assembly).err();
    let expected = expected.map(|refused| (refused.number, refused.place as u64));
    need((refused.number, refused.place) == expected.unwrap_or((0, 0)), "another refusal")?;
    need(stream.bytes() == left && assembly.bytes() == left_assembly, "another memory")?;
    Ok(expected.is_some().then_some(refused))
}

// ---- the same at every run

/// What a call came to: the refusal's number and place, what was received, and whether anything was taken.
type Came = (u32, u64, u32, bool);

/// All that the sweep must meet.
const EXPECTED: [Came; 20] = [
    (11, 4096, 0, false),
    (11, 4104, 0, false),
    (11, 4144, 0, false),
    (10, 0, 0, false),
    (10, 4, 0, false),
    (10, 12, 0, false),
    (2, 4, 0, false),
    (2, 4, 0, true),
    (10, 0, 0, true),
    (10, 28, 0, true),
    (10, 32, 0, true),
    (10, 36, 0, true),
    (10, 40, 0, true),
    (10, 44, 0, true),
    (3, 0, 0, true),
    (0, 0, 0, false),
    (0, 0, 0, true),
    (0, 0, 1, true),
    (0, 0, 2, true),
    (0, 0, 3, true),
];

/// What the sweep's cases came to.
#[derive(Default)]
pub struct Sweep {
    pub cases: usize,
    pub wrong: usize,
    met: BTreeSet<Came>,
}

impl Sweep {
    pub fn new() -> Sweep {
        let mut sweep = Sweep::default();
        sweep.numbers();
        sweep.sizes();
        sweep.assemblies();
        sweep
    }

    /// What was not met.
    pub fn missing(&self) -> Vec<String> {
        let missing = EXPECTED.iter().filter(|came| !self.met.contains(came));
        missing.map(|came| format!("stream memory: {came:?}")).collect()
    }

    fn judge(&mut self, case: Case) {
        let came = judged(&case).map(|answer| {
            let Refusal { number, place } = answer.piece.refusal;
            self.met.insert((number, place, answer.piece.received, answer.taken > 0));
        });
        self.count(came);
    }

    fn count(&mut self, came: Result<(), &str>) {
        self.cases += 1;
        if let Err(what) = came {
            self.wrong += 1;
            if self.wrong <= PRINTED {
                println!("stream memory, case {} of the sweep: {what}", self.cases);
            }
        }
    }

    /// Each number held beside each other number, by types and lengths at and around the limits.
    fn numbers(&mut self) {
        let held = [0, 1, 7, 8, 11, 12, 15, 16, 19, 20, 4094, 4095, 4096, u32::MAX];
        let lengths = [0, 8, 12, 13, 16, 17, 19, 20, 21, 4095, 4096, 4097, u32::MAX];
        for (held, ended) in held.iter().flat_map(|held| [0, 1, 2].map(|e| (*held, e))) {
            for message_type in [OPEN, CLOSE, COMMAND, 9] {
                for length in lengths {
                    self.unfinished([held, ended], [message_type, length]);
                }
            }
        }
    }

    /// Memory with these numbers and a piece of this type and length, which the chunk goes on with or ends.
    fn unfinished(&mut self, numbers: [u32; 2], [message_type, length]: [u32; 2]) {
        let bytes = [message_type, length, 7, 1, 0, 0, 0].map(u32::to_le_bytes).concat();
        let held = numbers[0].min(20) as usize;
        let rest = length.saturating_sub(numbers[0]).min(7) as usize;
        for count in [0, 1, rest, rest + 1] {
            let stream = filled(numbers, &bytes[..20], 0xEE);
            let chunk = bytes[held..held + count].to_vec();
            self.judge(Case { stream, assembly: pending(0), chunk, room: ROOM });
        }
    }

    /// Rooms and sizes around the least, for a reset too; the stream's numbers may be wrong too, or it has
    /// ended.
    fn sizes(&mut self) {
        for numbers in [[0, 0], [5, 0], [0, 1], [u32::MAX, 9]] {
            for room in [4095, 4096, 4097] {
                for (size, assembly_size) in [0, 7, 4103, 4104, 4105]
                    .iter()
                    .flat_map(|size| [0, 47, 4143, 4144, 4145].map(|other| (*size, other)))
                {
                    let mut stream = filled(numbers, &later(1, 30)[..5], 0);
                    stream.resize(size, 0xEE);
                    let mut assembly = pending(0);
                    assembly.resize(assembly_size, 0xEE);
                    let case = Case { stream, assembly, chunk: later(1, 30), room };
                    self.count(reset(&case).map(|_| ()));
                    self.judge(case);
                }
            }
        }
    }

    /// Each number of the assembly changed, before a fragment, a whole message or a fault.
    fn assemblies(&mut self) {
        let good = [(32, 3), (36, 2)];
        let wrong = [(0, 9), (28, 2), (32, 0), (32, 129), (36, 0), (36, 3), (40, 4097), (40, 9)];
        for (place, number) in good.into_iter().chain(wrong).chain([(44, 41), (44, 4049)]) {
            for message_type in [COMMAND_DONE, COMMAND] {
                for fill in [0, 0xEE] {
                    let mut assembly = pending(fill);
                    put(&mut assembly, 0, message_type);
                    put(&mut assembly, place, number);
                    self.pieces(&assembly, fill);
                }
            }
        }
    }

    /// Pieces that come to this assembly, held in part.
    fn pieces(&mut self, assembly: &[u8], fill: u8) {
        let words = |words: &[u32]| words.iter().flat_map(|word| word.to_le_bytes()).collect();
        let pieces: [Vec<u8>; 8] = [
            later(1, 8),
            later(1, 30),
            later(2, 30),
            later(2, 31),
            words(&[COMMAND, 48, 7, 2, 0, 1, 1, 1, 1, 1, 0, 9]),
            words(&[CLOSE, 12, 7]),
            words(&[COMMAND, 19, 7]),
            words(&[9, 20, 7, 0, 0]),
        ];
        for (piece, held) in pieces.iter().flat_map(|piece| [0, 1, 7, 11].map(|held| (piece, held)))
        {
            let stream = filled([held as u32, 0], &piece[..held], fill);
            let chunk = piece[held..].to_vec();
            self.judge(Case { stream, assembly: assembly.to_vec(), chunk, room: ROOM });
        }
    }
}

/// Memory with these numbers and these bytes at its front, and `fill` past them.
fn filled(numbers: [u32; 2], front: &[u8], fill: u8) -> Vec<u8> {
    let mut memory = vec![fill; STREAM_SIZE];
    memory[..PIECE].copy_from_slice(&numbers.map(u32::to_le_bytes).concat());
    memory[PIECE..PIECE + front.len()].copy_from_slice(front);
    memory
}

/// A pending message of three fragments and 40 bytes, of which 10 came; `fill` stands past those.
fn pending(fill: u8) -> Vec<u8> {
    let mut memory = vec![fill; ASSEMBLY_SIZE];
    memory[..48].fill(1);
    let fields = [(0, COMMAND_DONE), (4, 7), (28, 0), (32, 3), (36, 1), (40, 40), (44, 10)];
    fields.iter().for_each(|(at, word)| put(&mut memory, *at, *word));
    memory
}

/// Its second fragment or its third.
fn later(number: u32, carried: u32) -> Vec<u8> {
    let mut piece = vec![9; 20 + carried as usize];
    for (place, word) in [COMMAND_DONE, 20 + carried, 7, 3, number].iter().enumerate() {
        put(&mut piece, 4 * place, *word);
    }
    piece
}
