//! The static library against the second program: the same questions to both, first those of a sweep
//! over all limits, then as many as wanted, made up from a seed.
//!
//!     compare [CASES [SEED]]
//!
//! Exit status 1 if any answer differs, if the library does what its header rules out, or if something was
//! not asked or not met.

mod asks;
mod damage;
mod ends;
mod lent;
mod library;
mod memory;
mod messages;
mod payloads;
mod pins;
mod random;
mod services;
mod sides;
mod stream_memory;
mod streams;
mod sweep;

use random::Random;
use sides::Sides;
use std::process::ExitCode;

const CASES: usize = 100_000;
const SEED: u64 = 20;

/// What makes up questions; each is asked in turn.
const MAKERS: [fn(&mut Sides, &mut Random); 17] = [
    payloads::version,
    payloads::packet,
    payloads::registration,
    payloads::signal,
    payloads::readings,
    services::services,
    asks::lists,
    messages::whole,
    messages::kind,
    messages::cut,
    messages::feeds,
    streams::streams,
    ends::run,
    either_end,
    pins::payloads,
    pins::tables,
    pins::modems,
];

fn either_end(sides: &mut Sides, random: &mut Random) {
    ends::host(sides, random);
    ends::modem(sides, random);
}

fn main() -> ExitCode {
    let Some((cases, seed)) = arguments() else {
        eprintln!("usage: compare [CASES [SEED]]");
        return ExitCode::from(2);
    };
    let mut random = Random::new(seed);
    let mut sides = Sides::new();
    sweep::all(&mut sides);
    let swept = sides.cases;
    while sides.cases - swept < cases {
        MAKERS.iter().for_each(|make| make(&mut sides, &mut random));
    }
    sides.report();
    let swept = stream_memory::Sweep::new();
    println!("{:16} {:8} cases of a sweep", "stream memory", swept.cases);
    let wrong = swept.wrong + memory::hostile(&mut random, cases / 10);
    let unasked = sides.unasked();
    if !unasked.is_empty() {
        println!("not asked: {unasked:?}");
    }
    let unmet = [sides.met.missing(), sides.streams.missing(), swept.missing()].concat();
    if !unmet.is_empty() {
        println!("not met: {unmet:?}");
    }
    println!("{} differences, {wrong} wrong with hostile memory", sides.differences);
    ExitCode::from((sides.differences + wrong + unasked.len() + unmet.len() > 0) as u8)
}

fn arguments() -> Option<(usize, u64)> {
    let words: Vec<String> = std::env::args().skip(1).collect();
    let number = |place: usize, usual: u64| match words.get(place) {
        Some(word) => word.parse().ok(),
        None => Some(usual),
    };
    let known = words.len() <= 2;
    known.then_some((number(0, CASES as u64)? as usize, number(1, SEED)?))
}
