//! The question for one CID beside the full one: lists with a fault before a match, at it or behind it, and
//! what hosts at every stage make of them.

use crate::library::u32_at;
use crate::payloads::put;
use crate::random::Random;
use crate::sides::Sides;
use crate::sweep::{changed_pairs, numbers, CHOICES};
use second::flat::{question as q, Answer};
use second::message::COMMAND_DONE;
use second::payload::{BASIC_CONNECT, EXTENSIONS};

const ROOM: u64 = 4096;
const VERSIONS: [u64; 2] = [0x0100, 0x0200];
/// CIDs of the extensions and of Basic Connect.
const VERSION: u64 = 15;
const LIST: u64 = 16;
/// Refusals of a host that has its answer.
const ABOVE_HOST: u64 = 13;
const VERSION_NOT_LISTED: u64 = 14;

type Part<'a> = ([u8; 16], &'a [u64]);

// ---- outcomes

/// What the question comes to, and what the full one says of the list.
#[derive(Clone, Copy, PartialEq)]
enum Outcome {
    Yes,
    YesBeforeFault,
    No,
    Refused,
}

const OUTCOMES: [&str; 4] = ["yes", "yes before a fault", "no", "refused"];
/// Who is asked: the question itself, and hosts by their stage.
const ASKED: [&str; 5] = ["question", "closed host", "open host", "awaiting host", "settled host"];

/// How often each outcome was met.
#[derive(Default)]
pub struct Met([[usize; OUTCOMES.len()]; ASKED.len()]);

impl Met {
    fn count(&mut self, asked: usize, outcome: Outcome) {
        self.0[asked][outcome as usize] += 1;
    }

    pub fn report(&self) {
        for (name, counts) in ASKED.iter().zip(&self.0) {
            let texts: Vec<String> = OUTCOMES
                .iter()
                .zip(counts)
                .map(|(text, count)| format!("{count} {text}"))
                .collect();
            println!("{name:16} {}", texts.join(", "));
        }
    }

    /// The outcomes that were not met.
    pub fn missing(&self) -> Vec<String> {
        let mut missing = Vec::new();
        for (name, counts) in ASKED.iter().zip(&self.0) {
            for (text, count) in OUTCOMES.iter().zip(counts) {
                if *count == 0 {
                    missing.push(format!("{name}: {text}"));
                }
            }
        }
        missing
    }
}

/// Asks in full and for one CID, without a choice and by each of these. The input is the service and the
/// list.
pub fn ask(sides: &mut Sides, choices: &[u64], cid: u64, input: &[u8]) {
    one(sides, [q::LISTED, q::ASK_CID], &[cid], input);
    for choice in choices {
        one(sides, [q::LISTED_WITH, q::ASK_CID_WITH], &[cid, *choice], input);
    }
}

/// One of these ways. Gives the question's answer too.
fn one(
    sides: &mut Sides,
    [full, question]: [u32; 2],
    arguments: &[u64],
    input: &[u8],
) -> (Outcome, Answer) {
    let full = sides.ask(full, arguments, input).numbers;
    let answer = sides.ask(question, arguments, input);
    let refused = full[0] != 0;
    let outcome = match answer.numbers[..] {
        [0, 1, _, _] if refused => Outcome::YesBeforeFault,
        [0, 1, _, _] if full == [0, 1] => Outcome::Yes,
        [0, 0, 0, 0] if full == [0, 0] => Outcome::No,
        _ if refused && full == answer.numbers => Outcome::Refused,
        _ => {
            sides.differ(question, arguments, input, &answer, "not as the full question");
            return (Outcome::Refused, answer);
        }
    };
    sides.met.count(0, outcome);
    (outcome, answer)
}

/// The list in a good reply to the host as it stands: it is refused where the question refuses, and beside
/// that by its versions alone.
fn reply(sides: &mut Sides, list: &[u8]) {
    let input = [&EXTENSIONS[..], list].concat();
    let (outcome, asked) = one(sides, [q::LISTED, q::ASK_CID], &[VERSION], &input);
    let stage = sides.ask(q::SHOW_HOST, &[], &[]).output[2];
    sides.met.count(1 + usize::from(stage), outcome);
    let (arguments, input) = ([COMMAND_DONE.into(), 1, LIST, 0], [&BASIC_CONNECT, list].concat());
    let answer = sides.step(q::HOST_RECEIVE, &arguments, &input);
    let good = match outcome {
        Outcome::Refused => answer == asked,
        _ => [0, ABOVE_HOST, VERSION_NOT_LISTED].contains(&answer.numbers[0]),
    };
    if !good {
        sides.differ(q::HOST_RECEIVE, &arguments, &input, &answer, "not as the question");
    }
}

/// A host after so many steps: opened, a list with VERSION, a reply to VERSION.
fn host(sides: &mut Sides, (native, advertised): (u64, u64), steps: usize) {
    let done = COMMAND_DONE.into();
    let list = list(sides, &[(EXTENSIONS, &[VERSION])]);
    sides.ask(q::MAKE_HOST, &[native], &[]);
    if steps > 0 {
        sides.ask(q::HOST_OPEN, &[advertised], &[]);
    }
    if steps > 1 {
        sides.ask(q::HOST_RECEIVE, &[done, 1, LIST, 0], &[&BASIC_CONNECT[..], &list].concat());
    }
    if steps > 2 {
        let input = [&EXTENSIONS[..], &[0, 1, 0, 2]].concat();
        sides.ask(q::HOST_RECEIVE, &[done, 2, VERSION, 0], &input);
    }
}

// ---- lists

/// A list of these elements, from either side's writer.
fn list(sides: &mut Sides, parts: &[Part]) -> Vec<u8> {
    let mut arguments = vec![ROOM, parts.len() as u64, 0];
    for (_, cids) in parts {
        arguments.extend([0, 0, cids.len() as u64]);
        arguments.extend(*cids);
    }
    let services: Vec<u8> = parts.iter().flat_map(|(service, _)| *service).collect();
    sides.ask(q::SERVICES_WRITE, &arguments, &services).output
}

/// A fault of each kind in the element with this number of a good list: numbers to be put at places.
fn faults(good: &[u8], number: usize) -> Vec<Vec<(usize, u32)>> {
    let pair = 8 + 8 * number;
    let (offset, size) = (u32_at(good, pair), u32_at(good, pair + 4));
    let (fixed, end) = (8 + 8 * u32_at(good, 0), good.len() as u32);
    let pairs = [
        (offset, 541),
        (offset, 27),
        (offset, size + 4),
        (offset, size - 4),
        (offset, 0),
        (0, 0),
        (0, size),
        (fixed - 4, size),
        (offset + 1, size),
        (offset + 2, size),
        (end - size + 4, size),
        (end, size),
        (0xFFFF_FFFC, size),
    ];
    let place = offset as usize + 24;
    let count = u32_at(good, place);
    let counts = [129, u32::MAX, count + 1, count.wrapping_sub(1), count | 0x4000_0000];
    let pairs = pairs.map(|(offset, size)| vec![(pair, offset), (pair + 4, size)]);
    pairs.into_iter().chain(counts.map(|count| vec![(place, count)])).collect()
}

fn with(list: &[u8], numbers: &[(usize, u32)]) -> Vec<u8> {
    let mut changed = list.to_vec();
    numbers.iter().for_each(|(place, number)| put(&mut changed, *place, *number));
    changed
}

// ---- the same at every run

/// Services and CIDs that stand once, in several elements and twice in one.
const PARTS: [Part; 5] = [
    (EXTENSIONS, &[14]),
    (BASIC_CONNECT, &[VERSION, 4]),
    (EXTENSIONS, &[9, VERSION, VERSION]),
    (EXTENSIONS, &[VERSION, 16]),
    ([0; 16], &[]),
];

/// Matches in each of them but the last, a CID of another service, and none.
const WANTED: [([u8; 16], u64); 6] = [
    (EXTENSIONS, VERSION),
    (EXTENSIONS, 14),
    (EXTENSIONS, 16),
    (BASIC_CONNECT, VERSION),
    (EXTENSIONS, 4),
    ([0; 16], 0),
];

pub fn sweep(sides: &mut Sides) {
    let good = list(sides, &PARTS);
    single_faults(sides, &good);
    double_faults(sides, &good);
    heads(sides, &good);
    for payload in changed_pairs(&good, &[8, 16, 24, 32, 40], &[0, 24, 28, 32, 36, 40, 541]) {
        wanted(sides, &WANTED[..2], &payload);
    }
    places(sides);
    for native in VERSIONS {
        for advertised in VERSIONS {
            (0..4).for_each(|steps| hosts(sides, &good, (native, advertised), steps));
        }
    }
}

/// Asks a list for each of these.
fn wanted(sides: &mut Sides, wanted: &[([u8; 16], u64)], payload: &[u8]) {
    for (service, cid) in wanted {
        ask(sides, &CHOICES, *cid, &[&service[..], payload].concat());
    }
}

/// The good list, and each fault in each element: before a match, at it, behind it.
fn single_faults(sides: &mut Sides, good: &[u8]) {
    wanted(sides, &WANTED, good);
    for number in 0..PARTS.len() {
        for fault in faults(good, number) {
            wanted(sides, &WANTED, &with(good, &fault));
        }
    }
}

/// Faults in two elements, of which the first counts.
fn double_faults(sides: &mut Sides, good: &[u8]) {
    for later in 1..PARTS.len() {
        for fault in (0..later).flat_map(|earlier| faults(good, earlier)) {
            let once = with(good, &fault);
            for other in faults(good, later) {
                wanted(sides, &WANTED[..3], &with(&once, &other));
            }
        }
    }
}

/// Each count and each length, and those around the most bytes.
fn heads(sides: &mut Sides, good: &[u8]) {
    for count in numbers() {
        wanted(sides, &WANTED, &with(good, &[(0, count)]));
    }
    for length in (0..good.len() + 2).chain(4095..4098) {
        let mut payload = good.to_vec();
        payload.resize(length, 0);
        wanted(sides, &WANTED[..3], &payload);
    }
}

/// The match in each of as many elements, and at each of as many CIDs, as there may be.
fn places(sides: &mut Sides) {
    for number in 0..32 {
        let mut parts: Vec<Part> = vec![(EXTENSIONS, &[16]); 32];
        parts[number] = (EXTENSIONS, &[14, VERSION]);
        let payload = list(sides, &parts);
        wanted(sides, &WANTED[..3], &payload);
    }
    for number in 0..128 {
        let mut cids = [16; 128];
        cids[number] = VERSION;
        let payload = list(sides, &[(BASIC_CONNECT, &[]), (EXTENSIONS, &cids)]);
        wanted(sides, &WANTED[..3], &payload);
    }
}

/// The good list, one without VERSION, and each fault in each element of either, in a reply to a host.
fn hosts(sides: &mut Sides, good: &[u8], versions: (u64, u64), steps: usize) {
    let without = list(sides, &PARTS[..2]);
    for good in [good, &without] {
        let count = u32_at(good, 0) as usize;
        for fault in (0..count).flat_map(|number| faults(good, number)).chain([Vec::new()]) {
            host(sides, versions, steps);
            reply(sides, &with(good, &fault));
        }
    }
}

// ---- made up

/// A list of few services and CIDs with no fault, one or two, asked a few times, and in a reply to a host.
pub fn lists(sides: &mut Sides, random: &mut Random) {
    let cids = [0; 8].map(|_| random.pick(&[14, VERSION, VERSION, 16]));
    let mut parts: Vec<Part> = Vec::new();
    for _ in 0..1 + random.below(5) {
        let from = random.below(6);
        let service = random.pick(&[EXTENSIONS, EXTENSIONS, BASIC_CONNECT]);
        parts.push((service, &cids[from..from + random.below(3)]));
    }
    let good = list(sides, &parts);
    let mut payload = good.clone();
    for _ in 0..random.below(3) {
        let faults = faults(&good, random.below(parts.len()));
        payload = with(&payload, &faults[random.below(faults.len())]);
    }
    for _ in 0..3 {
        let (service, cid) = random.pick(&WANTED);
        ask(sides, &[random.choice()], cid, &[&service[..], &payload].concat());
    }
    host(sides, (random.pick(&VERSIONS), random.pick(&VERSIONS)), random.below(4));
    reply(sides, &payload);
}
