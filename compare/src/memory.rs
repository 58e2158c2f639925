//! Hostile memory, lent for an assembly, a host, a modem or a table of PINs: too small, random, or
//! damaged. It must give the refusal that the second program has for it, or a good answer that leaves
//! good memory, of a table the second program's; everything outside stays as it was. A stream's is in
//! `stream_memory`.

use crate::lent::Lent;
use crate::library::{accepted, is_whole, u32_at, Refusable, Stop, WHOLE};
use crate::payloads::put;
use crate::random::Random;
use crate::stream_memory;
use culvertroost::c::{self, *};
use second::memory::{judge_assembly, judge_host, judge_modem};
use second::message::{COMMAND, COMMAND_DONE, INDICATE_STATUS};
use second::pin_memory;

/// How many wrong cases are printed.
const PRINTED: usize = 20;

/// The refusal that a case came to, if any, or what went wrong.
pub type Outcome = Result<Option<Refusal>, &'static str>;
type Case = fn(&mut Random) -> Outcome;

const CASES: [(&str, Case); 6] = [
    ("assembly memory", assembly),
    ("host memory", host),
    ("modem memory", modem),
    ("PINs' memory", pins),
    ("modem with PINs", modem_with_pins),
    ("stream memory", stream_memory::fed),
];

/// Tries so many cases and gives how many went wrong.
pub fn hostile(random: &mut Random, cases: usize) -> usize {
    let mut wrong = 0;
    for (name, case) in CASES {
        let (mut refused, mut failed) = (0, 0);
        for number in 0..cases {
            match case(random) {
                Ok(refusal) => refused += refusal.is_some() as usize,
                Err(what) => {
                    failed += 1;
                    if wrong + failed <= PRINTED {
                        println!("{name}, case {number}: {what}");
                    }
                }
            }
        }
        println!("{name:16} {cases:8} cases {refused:8} refused");
        wrong += failed;
    }
    wrong
}

fn refusal(number: u32, place: usize) -> Option<Refusal> {
    Some(Refusal { number, place: place as u64 })
}

/// The refusal that the second program has for memory.
fn expected(judged: Result<(), second::refusal::Refusal>) -> Option<Refusal> {
    judged.err().and_then(|judged| refusal(judged.number, judged.place))
}

/// The refusal in an answer, if there is one and nothing beside it.
fn refusal_in<T: Refusable>(answer: T) -> Outcome {
    match accepted(answer) {
        Ok(_) => Ok(None),
        Err(Stop::Refused(refusal)) => Ok(Some(refusal)),
        Err(Stop::Wrong(what)) => Err(what),
    }
}

/// Bad memory gives its refusal; good memory gives none by 10, which nothing else here brings.
fn need_refusal(refused: Option<Refusal>, expected: Option<Refusal>) -> Result<(), &'static str> {
    if expected.is_some() {
        return need(refused == expected, "another refusal");
    }
    need(refused.is_none_or(|refusal| refusal.number != 10), "good memory refused")
}

pub fn need(holds: bool, what: &'static str) -> Result<(), &'static str> {
    holds.then_some(()).ok_or(what)
}

/// A size of memory: as needed, a little less or more, or much less.
pub fn size(random: &mut Random, needed: usize) -> usize {
    match random.below(8) {
        0 => needed - 1,
        1 => random.below(needed),
        2 => needed + random.below(40),
        _ => needed,
    }
}

// ---- the assembly

fn assembly_refusal(memory: &[u8]) -> Option<Refusal> {
    expected(judge_assembly(memory))
}

pub fn assembly_memory(random: &mut Random) -> Vec<u8> {
    let size = size(random, ASSEMBLY_SIZE);
    let mut memory = if random.once_in(3) { vec![0; size] } else { random.bytes(size) };
    match random.below(12) {
        0 => return memory,
        1 => return nearly_empty(random, size),
        _ => {}
    }
    let types = [COMMAND, COMMAND_DONE, INDICATE_STATUS];
    let declared = random.mostly(&[0, 10, 100, 4096, 4096]) as u32;
    let fields = [
        (0, random.mostly(&types) as u32),
        (4, 7),
        (28, random.mostly(&[0, 0, 0, 1]) as u32),
        (32, random.mostly(&[0, 1, 2, 3, 128]) as u32),
        (36, random.mostly(&[1, 1, 1, 2, 127]) as u32),
        (40, declared),
        (44, random.mostly(&[0, declared / 2, declared, 4048, 4049, 4052]) as u32),
    ];
    fields.iter().for_each(|(at, word)| put(&mut memory, *at, *word));
    memory
}

/// All zero, but for one byte of how far a message has come.
fn nearly_empty(random: &mut Random, size: usize) -> Vec<u8> {
    let mut memory = vec![0; size];
    if let Some(byte) = memory.get_mut(random.below(48)) {
        *byte = 1 << random.below(8);
    }
    memory
}

/// A whole message, good or not.
fn whole(random: &mut Random) -> Vec<u8> {
    let length = random.pick(&[4, 11, 12, 12, 16, 16, 16, 17]);
    let mut piece = random.bytes(length);
    put(&mut piece, 0, random.pick(&WHOLE));
    put(&mut piece, 4, random.mostly(&[length as u32]) as u32);
    piece
}

/// A fragment that may go on with what the memory holds, a whole message, or any bytes.
pub fn piece(random: &mut Random, memory: &[u8]) -> Vec<u8> {
    if random.once_in(6) {
        return whole(random);
    }
    if memory.len() < 48 || random.once_in(6) {
        let length = random.below(100);
        return random.bytes(length);
    }
    let [declared, gathered] = [40, 44].map(|at| u32_at(memory, at));
    let missing = declared.wrapping_sub(gathered).min(4076) as usize;
    let carried = if random.once_in(3) { random.below(missing + 2) } else { missing };
    let mut piece = random.bytes(20 + carried);
    let length = piece.len() as u32;
    let fields = [(0, u32_at(memory, 0)), (4, length), (8, u32_at(memory, 4))];
    fields.iter().for_each(|(at, word)| put(&mut piece, *at, *word));
    put(&mut piece, 12, u32_at(memory, 32));
    put(&mut piece, 16, u32_at(memory, 36));
    piece
}

fn assembly(random: &mut Random) -> Outcome {
    let before = assembly_memory(random);
    let mut memory = Lent::holding(&before);
    if random.once_in(10) {
        let refused = refusal_in(c::assembly_empty(memory.memory()))?;
        need(memory.guards_hold(), "bytes beside the memory touched")?;
        need(refused == assembly_refusal(&before).filter(|r| r.number == 11), "another refusal")?;
        left_by_refusal(&before, memory.bytes())?;
        return Ok(refused);
    }
    let piece = piece(random, &before);
    let mut out = Lent::filled(if random.once_in(4) { random.below(100) } else { 4096 });
    let answer = c::receive(memory.memory(), &piece, out.memory());
    need(memory.guards_hold(), "bytes beside the memory touched")?;
    need(out.holds_past(answer.length as usize), "output touched")?;
    let refused = refusal_in(answer)?;
    if is_whole(&piece) {
        return left_by_whole(&piece, answer, &before, memory.bytes());
    }
    need_refusal(refused, assembly_refusal(&before))?;
    if refused.is_some() || answer.received == 3 {
        left_by_refusal(&before, memory.bytes())?;
    } else {
        left_pending(&before, memory.bytes())?;
    }
    Ok(refused)
}

/// A whole message is judged by itself, and its memory, if there is enough, is not looked at.
fn left_by_whole(piece: &[u8], answer: ReceiveAnswer, before: &[u8], after: &[u8]) -> Outcome {
    need(before == after, "memory touched by a whole message")?;
    let refused = refusal_in(answer)?;
    if before.len() < ASSEMBLY_SIZE {
        need(refused == refusal(11, ASSEMBLY_SIZE), "another refusal")?;
        return Ok(refused);
    }
    let judged = c::message_judge(piece);
    need(refused == refusal_in(judged)?, "another refusal than the judge's")?;
    let WholeAnswer { message_type, transaction, word, .. } = judged;
    let message = MessageHeader { message_type, transaction, word, ..MessageHeader::default() };
    let received = ReceiveAnswer { received: 1, message, ..ReceiveAnswer::default() };
    need(refused.is_some() || answer == received, "another answer than the judge's")?;
    Ok(refused)
}

/// Emptied, if there was room for an assembly; else as it was.
fn left_by_refusal(before: &[u8], after: &[u8]) -> Result<(), &'static str> {
    let Some((front, rest)) = after.split_at_checked(ASSEMBLY_SIZE) else {
        return need(before == after, "small memory touched");
    };
    need(front.iter().all(|byte| *byte == 0), "assembly not emptied")?;
    need(rest == &before[ASSEMBLY_SIZE..], "memory past the assembly touched")
}

fn left_pending(before: &[u8], after: &[u8]) -> Result<(), &'static str> {
    let good = assembly_refusal(after).is_none() && u32_at(after, 32) != 0;
    need(good, "a pending message that is none")?;
    need(after[ASSEMBLY_SIZE..] == before[ASSEMBLY_SIZE..], "memory past the assembly touched")
}

// ---- the two ends

/// How much memory an end takes, and what is refused.
type End = (usize, fn(&[u8]) -> Option<Refusal>);

const HOST: End = (HOST_SIZE, host_refusal);
const MODEM: End = (MODEM_SIZE, modem_refusal);

fn host_refusal(memory: &[u8]) -> Option<Refusal> {
    expected(judge_host(memory))
}

fn modem_refusal(memory: &[u8]) -> Option<Refusal> {
    expected(judge_modem(memory))
}

/// Memory of numbers that an end may hold, now and then others.
fn end_memory(random: &mut Random, needed: usize, numbers: &[&[u32]]) -> Vec<u8> {
    let size = size(random, needed);
    let mut memory = random.bytes(size);
    for (place, good) in numbers.iter().enumerate() {
        let number = random.mostly(good) as u16;
        if let Some(field) = memory.get_mut(2 * place..2 * place + 2) {
            field.copy_from_slice(&number.to_le_bytes());
        }
    }
    memory
}

/// A message of this type, of DEVICE_SERVICES or VERSION most often.
fn message(random: &mut Random, message_type: u32) -> MessageHeader {
    let (service, cid) =
        random.pick(&[(culvertroost::BASIC_CONNECT, 16), (culvertroost::EXTENSIONS, 15)]);
    let cid = random.mostly(&[cid, cid, 9]) as u32;
    MessageHeader { message_type, transaction: 1, service, cid, word: random.below(2) as u32 }
}

fn host(random: &mut Random) -> Outcome {
    let numbers: [&[u32]; 3] =
        [&[0x0100, 0x0200], &[0, 1, 1, 2, 2, 3, 3], &[0x0100, 0x0200, 0x0100, 0x0200, 0]];
    let before = end_memory(random, HOST_SIZE, &numbers);
    let mut memory = Lent::holding(&before);
    if random.once_in(8) {
        let refused = refusal_in(c::host_make(memory.memory(), 0x0200))?;
        let small = host_refusal(&before).filter(|refusal| refusal.number == 11);
        return left_by_end(refused, small, &before, &memory, HOST);
    }
    let mut out = Lent::filled(random.below(8));
    let length = random.below(12);
    let payload = if random.once_in(2) { vec![0, 1, 0, 2] } else { random.bytes(length) };
    let message = message(random, COMMAND_DONE);
    let refused = match random.below(5) {
        0 => refusal_in(c::host_open(memory.memory(), 0x0100)),
        1 => refusal_in(c::host_close(memory.memory())),
        2 | 3 => refusal_in(c::host_receive(memory.memory(), message, &payload)),
        _ => {
            let answer = c::host_next_command(memory.memory(), out.memory());
            need(out.holds_past(answer.length as usize), "output touched")?;
            refusal_in(answer)
        }
    }?;
    left_by_end(refused, host_refusal(&before), &before, &memory, HOST)
}

/// Numbers that a modem may hold: versions, whether VERSION is listed, the stage, the settled version.
const MODEM_NUMBERS: [&[u32]; 5] =
    [&[0x0200, 0x0200, 0x0100], &[0x0100, 0x0200], &[0, 1], &[0, 1, 2], &[0, 0x0100, 0x0200]];

fn modem(random: &mut Random) -> Outcome {
    let before = end_memory(random, MODEM_SIZE, &MODEM_NUMBERS);
    let mut memory = Lent::holding(&before);
    if random.once_in(8) {
        return modem_make(random, &before);
    }
    let mut out = Lent::filled(random.below(8));
    let mut message = message(random, COMMAND);
    if modem_refusal(&before).is_some() && random.once_in(2) {
        message.transaction = 0; // refused too, but only after the memory
    }
    let refused = match random.below(6) {
        0 => refusal_in(c::modem_open(memory.memory())),
        1 => refusal_in(c::modem_close(memory.memory())),
        _ => {
            let answer = c::modem_receive(memory.memory(), message, &[0, 1, 0, 2], out.memory());
            need(out.holds_past(answer.length as usize), "output touched")?;
            refusal_in(answer)
        }
    }?;
    left_by_end(refused, modem_refusal(&before), &before, &memory, MODEM)
}

/// Whatever the memory holds, a modem can be made in it; its list is judged before its size.
fn modem_make(random: &mut Random, before: &[u8]) -> Outcome {
    let mut memory = Lent::holding(before);
    let services = random.pick(&[&[0; 8][..], &[0; 7]]);
    let refused = refusal_in(c::modem_make(memory.memory(), 0x0200, 0x0100, services))?;
    let small = modem_refusal(before).filter(|refusal| refusal.number == 11);
    let expected = if services.len() < 8 { refusal(1, 7) } else { small };
    left_by_end(refused, expected, before, &memory, MODEM)
}

/// Bad memory gives the expected refusal; a refusal leaves memory as it was, an answer leaves good
/// memory and what lies past the end as it was.
fn left_by_end(
    refused: Option<Refusal>,
    expected: Option<Refusal>,
    before: &[u8],
    after: &Lent,
    (size, judge): End,
) -> Outcome {
    need(after.guards_hold(), "bytes beside the memory touched")?;
    need_refusal(refused, expected)?;
    if refused.is_some() {
        need(after.bytes() == before, "memory touched by a refused call")?;
        return Ok(refused);
    }
    need(judge(after.bytes()).is_none(), "bad memory left")?;
    need(after.bytes()[size..] == before[size..], "memory past the end touched")?;
    Ok(None)
}

// ---- tables of PINs

/// The bytes of a row.
const PIN_ROW: usize = 44;

/// A row that is taken, with few tries; past its secret stands anything.
fn pin_row(random: &mut Random) -> Vec<u8> {
    let mut row = random.bytes(PIN_ROW);
    let flags = [0; 3].map(|_| random.pick(&[0, 1, 1]));
    row[..3].copy_from_slice(&flags);
    row[3] = random.pick(&[0, 2, 8, 30, 32]);
    let tries = random.pick(&[0, 0, 1, 1, 2, 3]);
    put(&mut row, 4, tries);
    put(&mut row, 8, random.pick(&[tries, tries + 1, 3, u32::MAX]));
    row
}

fn pins_memory(random: &mut Random) -> Vec<u8> {
    let size = size(random, PINS_SIZE);
    if random.once_in(12) {
        return random.bytes(size);
    }
    let mut memory: Vec<u8> = (0..PIN_TYPES).flat_map(|_| pin_row(random)).collect();
    if random.once_in(3) {
        let at = PIN_ROW * random.below(PIN_TYPES) + random.below(12);
        memory[at] = random.hostile() as u8;
    }
    memory.resize(size, 7);
    memory
}

fn pins_refusal(memory: &[u8]) -> Option<Refusal> {
    expected(pin_memory::read(memory).map(|_| ()))
}

/// An entry, half of the time with the text that its row holds.
fn set_pin(random: &mut Random, memory: &[u8]) -> Vec<u8> {
    let pin_type = random.mostly(&[1, 2, 2, 3, 6, 9, 10, 11, 11, 12, 17]) as u32;
    let at = PIN_ROW * (pin_type as usize).wrapping_sub(1).min(PIN_TYPES);
    let row = memory.get(at..at + PIN_ROW).unwrap_or(&[0; PIN_ROW]);
    let length = usize::from(row[3] & 0x1E);
    let mut text = row[12..12 + length].to_vec();
    if random.once_in(2) {
        text.push(0);
        text.push(1);
        text.truncate(32);
    }
    let new_length = random.pick(&[0, 4, 32]);
    let mut payload = vec![0; 24];
    put(&mut payload, 0, pin_type);
    put(&mut payload, 4, random.mostly(&[0]) as u32);
    for (place, text) in [(8, text), (16, random.bytes(new_length))] {
        let offset = if text.is_empty() { 0 } else { payload.len() as u32 };
        put(&mut payload, place, offset);
        put(&mut payload, place + 4, text.len() as u32);
        payload.extend(&text);
        payload.resize(payload.len().next_multiple_of(4), 0);
    }
    payload
}

/// The answer of the second program, and the memory that it leaves.
fn entered(memory: &[u8], payload: &[u8]) -> (PinAnswer, Vec<u8>) {
    let mut after = memory.to_vec();
    let answer = match pin_memory::enter(&mut after, payload) {
        Err(refused) => {
            PinAnswer::refused(Refusal { number: refused.number, place: refused.place as u64 })
        }
        Ok(reply) => PinAnswer {
            status: reply.status,
            shown: reply.info.is_some().into(),
            info: reply.info.map_or(PinInfo::default(), |info| PinInfo {
                pin_type: info.pin_type,
                pin_state: info.pin_state,
                remaining_attempts: info.remaining_attempts,
            }),
            ..PinAnswer::default()
        },
    };
    (answer, after)
}

fn pins(random: &mut Random) -> Outcome {
    let before = pins_memory(random);
    let mut memory = Lent::holding(&before);
    if random.once_in(8) {
        let refused = refusal_in(c::pin_make(memory.memory(), Pins::default()))?;
        let small = pins_refusal(&before).filter(|refusal| refusal.number == 11);
        return left_by_end(refused, small, &before, &memory, (PINS_SIZE, pins_refusal));
    }
    let payload = set_pin(random, &before);
    let answer = c::pin_enter(memory.memory(), &payload);
    let (expected, after) = entered(&before, &payload);
    need(memory.guards_hold(), "bytes beside the memory touched")?;
    need(answer == expected, "another answer than the second program's")?;
    need(memory.bytes() == after, "another memory than the second program's")?;
    refusal_in(answer)
}

/// A set of PIN most often.
fn pin_message(random: &mut Random) -> MessageHeader {
    let mut message = message(random, COMMAND);
    if !random.once_in(5) {
        message.service = culvertroost::BASIC_CONNECT;
        message.cid = random.mostly(&[culvertroost::PIN]) as u32;
        message.word = random.mostly(&[1, 1, 1, 0]) as u32;
    }
    message
}

/// Whether a command to a good modem is an entry that the handshake lets through.
fn is_entry(modem: &[u8], message: MessageHeader) -> bool {
    let is_set = message.cid == culvertroost::PIN && message.word == culvertroost::SET;
    let is_settled = modem[6] == 2 || modem[6] == 1 && modem[3] == 1; // or advertised 1.00
    is_set && message.service == culvertroost::BASIC_CONNECT && is_settled
}

/// A modem at any stage, now and then a doubtful one.
fn modem_memory(random: &mut Random) -> Vec<u8> {
    if random.once_in(5) {
        return end_memory(random, MODEM_SIZE, &MODEM_NUMBERS);
    }
    let (advertised, stage, version) = random.pick(&[
        (0x0100, 0, 0),
        (0x0100, 1, 0),
        (0x0200, 1, 0),
        (0x0100, 2, 0x0100),
        (0x0200, 2, 0x0200),
    ]);
    [0x0200, advertised, 1, stage, version].map(u16::to_le_bytes).concat()
}

/// Both memories may be bad. The table's is looked at for an entry only, and the room for PIN_INFO last.
fn modem_with_pins(random: &mut Random) -> Outcome {
    let (before, table) = (modem_memory(random), pins_memory(random));
    let (mut memory, mut lent) = (Lent::holding(&before), Lent::holding(&table));
    let room = random.pick(&[0, 11, 12, 12, 12, 20]);
    let mut out = Lent::filled(room);
    let (message, payload) = (pin_message(random), set_pin(random, &table));
    let answer = c::pin_receive(memory.memory(), lent.memory(), message, &payload, out.memory());
    need(out.holds_past(answer.length as usize), "output touched")?;
    need(lent.guards_hold(), "bytes beside the table touched")?;
    let refused = refusal_in(answer)?;
    let bad_modem = modem_refusal(&before);
    if bad_modem.is_some() || !is_entry(&before, message) {
        need(lent.bytes() == table, "a table touched without an entry")?;
        return left_by_end(refused, bad_modem, &before, &memory, MODEM);
    }
    let (entry, after) = entered(&table, &payload);
    let small = if entry.shown == 1 && room < 12 { refusal(11, 12) } else { None };
    left_by_end(refused, pins_refusal(&table).or(small), &before, &memory, MODEM)?;
    let expected = if refused.is_some() { table } else { after };
    need(lent.bytes() == expected, "another table than the second program's")?;
    need(refused.is_some() || is_told(answer, entry, out.bytes()), "another answer to an entry")?;
    Ok(refused)
}

/// Whether a modem answers an entry as the table does; by status 9 where its payload is refused.
fn is_told(answer: ModemAnswer, entry: PinAnswer, out: &[u8]) -> bool {
    let (action, status, length) = if entry.shown == 1 { (5, entry.status, 12) } else { (3, 9, 0) };
    let ModemAnswer { version, .. } = answer;
    let expected = ModemAnswer { action, status, length, version, ..ModemAnswer::default() };
    let info = c::pin_info_read(&out[..length as usize]).info;
    answer == expected && version != 0 && info == entry.info
}
