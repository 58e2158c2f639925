//! What is done with a row: its time is measured, or its calls are made for a program that counts
//! instructions.

use crate::plain;
use std::hint::black_box;
use std::time::Instant;

const ROUNDS: usize = 25;
const CALLS: usize = 4000;

/// What the program was asked for.
#[derive(Clone, Copy)]
pub enum Mode<'a> {
    /// Tables of nanoseconds.
    Times,
    /// So many calls of each row whose name begins so; their names are printed.
    Calls { count: usize, of: &'a str },
}

/// Nanoseconds of one call, the least of the rounds so far.
struct Least {
    calls: usize,
    nanoseconds: f64,
}

impl Least {
    /// For calls that do `units` things each.
    fn new(units: usize) -> Least {
        Least { calls: CALLS.div_ceil(units), nanoseconds: f64::MAX }
    }

    fn round(&mut self, call: &mut dyn FnMut()) {
        let start = Instant::now();
        for _ in 0..self.calls {
            call();
        }
        let each = start.elapsed().as_nanos() as f64 / self.calls as f64;
        self.nanoseconds = self.nanoseconds.min(each);
    }
}

/// An answer that the compiler has to make.
pub fn keep<T>(answer: T) {
    let _ = black_box(answer);
}

/// The calls of one row and nothing else. `bench/instructions` knows it by its name.
#[no_mangle]
#[inline(never)]
pub fn bench_calls(count: usize, call: &mut dyn FnMut()) {
    for _ in 0..count {
        call();
    }
}

impl Mode<'_> {
    /// The row's calls, if these are asked for, and how many things they did, before its name.
    pub fn calls(&self, name: &str, units: usize, call: &mut dyn FnMut()) {
        if let Mode::Calls { count, of } = *self {
            if name.starts_with(of) {
                bench_calls(count, call);
                println!("{} {name}", count * units);
            }
        }
    }
}

/// Two calls that give the same, and what one of them does.
pub struct Row<'a> {
    pub name: &'a str,
    /// How many things a call does; the table shows the cost of one.
    pub units: usize,
    /// What one thing carries, for the copy.
    pub bytes: usize,
}

impl Row<'_> {
    /// The library, the second program and the copy take turns.
    pub fn run(&self, mode: Mode, library: &mut dyn FnMut(), second: &mut dyn FnMut()) {
        match mode {
            Mode::Times => self.times(library, second),
            Mode::Calls { .. } => mode.calls(self.name, self.units, library),
        }
    }

    fn times(&self, library: &mut dyn FnMut(), second: &mut dyn FnMut()) {
        let source = vec![1u8; self.bytes];
        let mut target = vec![0u8; self.bytes];
        let mut times = [Least::new(self.units), Least::new(self.units), Least::new(1)];
        for _ in 0..ROUNDS {
            times[0].round(library);
            times[1].round(second);
            times[2].round(&mut || plain::copy(black_box(&source), black_box(&mut target)));
        }
        let [ours, theirs, copy] = times.map(|time| time.nanoseconds);
        let (ours, theirs) = (ours / self.units as f64, theirs / self.units as f64);
        println!(
            "{:38} {:5} {ours:9.1} {theirs:9.1} {:6.2} {copy:9.1} {:6.1}",
            self.name,
            self.bytes,
            ours / theirs,
            ours / copy
        );
    }
}

/// Two calls of the library on one input, each behind its name, which take turns: the times of both, and
/// the first's divided by the second's.
pub fn beside(mode: Mode, place: &str, bytes: usize, mut calls: [(&str, &mut dyn FnMut()); 2]) {
    if let Mode::Calls { .. } = mode {
        for (name, call) in &mut calls {
            mode.calls(&format!("{name}, {place}"), 1, call);
        }
        return;
    }
    let mut times = [Least::new(1), Least::new(1)];
    for _ in 0..ROUNDS {
        for (time, (_, call)) in times.iter_mut().zip(&mut calls) {
            time.round(call);
        }
    }
    let [one, other] = times.map(|time| time.nanoseconds);
    println!("{place:26} {bytes:5} {one:9.1} {other:9.1} {:6.2}", one / other);
}

/// Several ways to do a row's things, each behind its name, which take turns: the time of each for one
/// thing, and divided by the first's. A call that does much is made less often.
pub fn ways(mode: Mode, row: &Row, mut ways: Vec<(&str, Box<dyn FnMut() + '_>)>) {
    if let Mode::Calls { .. } = mode {
        for (name, call) in &mut ways {
            mode.calls(&format!("{}, {name}", row.name), row.units, call);
        }
        return;
    }
    let mut times: Vec<Least> = ways.iter().map(|_| Least::new(100)).collect();
    for _ in 0..ROUNDS {
        for (time, (_, call)) in times.iter_mut().zip(&mut ways) {
            time.round(call);
        }
    }
    let first = times[0].nanoseconds;
    print!("{:26} {:5} {:9.1}", row.name, row.bytes, first / row.units as f64);
    for time in &times[1..] {
        let one = time.nanoseconds / row.units as f64;
        print!(" {one:9.1} {:6.2}", time.nanoseconds / first);
    }
    println!();
}

/// A call of the library on one size of its input: `count` elements or fragments in so many bytes.
pub struct Size<'a> {
    pub count: usize,
    pub bytes: usize,
    pub call: Box<dyn FnMut() + 'a>,
}

/// One call on sizes that grow, which take turns: its time, for one, and for each more than before.
pub fn growth(mode: Mode, name: &str, of: &str, mut sizes: Vec<Size>) {
    if let Mode::Calls { .. } = mode {
        for size in &mut sizes {
            mode.calls(&format!("{name}, {} {of}", size.count), 1, &mut size.call);
        }
        return;
    }
    let mut times: Vec<Least> = sizes.iter().map(|size| Least::new(size.count)).collect();
    for _ in 0..ROUNDS {
        for (time, size) in times.iter_mut().zip(&mut sizes) {
            time.round(&mut size.call);
        }
    }
    let mut before = None;
    for (time, size) in times.iter().zip(&sizes) {
        let (call, count) = (time.nanoseconds, size.count as f64);
        let more = match before.replace((call, count)) {
            Some((less, fewer)) => format!("{:9.2}", (call - less) / (count - fewer)),
            None => String::new(),
        };
        let line = format!("{name:26} {:3} {of:9} {:5}", size.count, size.bytes);
        println!("{}", format!("{line} {call:9.1} {:9.2} {more}", call / count).trim_end());
    }
}
