//! Prints the samples of payloads or those of messages: questions with the answers of
//! this program, one a line; or a trace for the replay: a long one with all that can go
//! wrong, or that of a station's day. The same comes out at every run.
//!
//!     generate payloads|messages|traces|day

mod asks;
mod bad_lines;
mod damage;
mod day;
mod doors;
mod feeds;
mod host_lists;
mod hosts;
mod messages;
mod modems;
mod packets;
mod pin_entries;
mod pin_modems;
mod pins;
mod qualities;
mod random;
mod records;
mod registrations;
mod runs;
mod samples;
mod services;
mod signals;
mod streams;
mod traces;
mod versions;

use samples::Samples;
use std::io::{self, Write};
use std::process::ExitCode;

fn main() -> ExitCode {
    let text = match std::env::args().nth(1).as_deref() {
        Some("payloads") => all().payloads().as_bytes().to_vec(),
        Some("messages") => all().messages().as_bytes().to_vec(),
        Some("traces") => traces::all(),
        Some("day") => day::all(),
        _ => {
            eprintln!("usage: generate payloads|messages|traces|day");
            return ExitCode::from(2);
        }
    };
    match io::stdout().lock().write_all(&text) {
        Ok(()) => ExitCode::SUCCESS,
        Err(_) => ExitCode::FAILURE,
    }
}

fn all() -> Samples {
    let mut samples = Samples::default();
    versions::all(&mut samples);
    packets::all(&mut samples);
    registrations::all(&mut samples);
    signals::all(&mut samples);
    services::all(&mut samples);
    messages::all(&mut samples);
    feeds::all(&mut samples);
    doors::all(&mut samples);
    hosts::all(&mut samples);
    host_lists::all(&mut samples);
    modems::all(&mut samples);
    runs::all(&mut samples);
    qualities::all(&mut samples);
    pins::all(&mut samples);
    pin_entries::all(&mut samples);
    pin_modems::all(&mut samples);
    asks::all(&mut samples);
    streams::all(&mut samples);
    samples
}
