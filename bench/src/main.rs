//! Nanoseconds a call, of the static library, of the second program (release build) and of a loop that
//! only copies the same bytes, in one run: the rounds of the three take turns, and each shows its least.
//! No buffer is cleared between calls; what the library itself clears is part of its time. Then how the
//! library's time grows with its input, its question for one CID beside the full one, and a byte stream
//! beside its pieces.
//!
//! `bench calls COUNT [ROW]` measures nothing: it makes so many calls of each row of the tables, or of
//! those whose name begins so, for a program that counts: `bench/instructions`, a profiler.

mod asks;
mod growth;
mod inputs;
mod measure;
mod plain;
mod rows;
mod streams;

use inputs::Inputs;
use measure::Mode;

/// What the words of the command ask for.
fn mode<'a>(words: &[&'a str]) -> Option<Mode<'a>> {
    let calls = |count: &str, of| count.parse().ok().map(|count| Mode::Calls { count, of });
    match *words {
        [] => Some(Mode::Times),
        ["calls", count] => calls(count, ""),
        ["calls", count, row] => calls(count, row),
        _ => None,
    }
}

fn main() {
    let words: Vec<String> = std::env::args().skip(1).collect();
    let words: Vec<&str> = words.iter().map(String::as_str).collect();
    let Some(mode) = mode(&words) else {
        eprintln!("usage: bench [calls COUNT [ROW]]");
        std::process::exit(2);
    };
    let heads = matches!(mode, Mode::Times);
    if heads {
        println!(
            "{:38} {:>5} {:>9} {:>9} {:>6} {:>9} {:>6}",
            "call", "bytes", "library", "second", "ratio", "copy", "ratio"
        );
    }
    rows::run(mode, &Inputs::new());
    if heads {
        println!(
            "\n{:26} {:13} {:>5} {:>9} {:>9} {:>9}",
            "call", "of", "bytes", "library", "for one", "each more"
        );
    }
    growth::run(mode);
    if heads {
        println!("\n{:26} {:>5} {:>9} {:>9} {:>6}", "a CID", "bytes", "ask", "listed", "ratio");
    }
    asks::run(mode);
    if heads {
        println!("\n{}", streams::HEAD);
    }
    streams::run(mode);
}
