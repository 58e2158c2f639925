//! The samples so far and the program that answers them.

use second::flat::{question, Answer, Second};
use std::collections::BTreeSet;
use std::fmt::Write;

/// The most bytes of a line, its line feed included.
const MOST_BYTES: usize = 16_640;

#[derive(Default)]
pub struct Samples {
    second: Second,
    seen: BTreeSet<String>,
    payloads: String,
    messages: String,
}

impl Samples {
    /// The samples of payloads and readings.
    pub fn payloads(&self) -> &str {
        &self.payloads
    }

    /// The samples of messages, of both ends and of the stream.
    pub fn messages(&self) -> &str {
        &self.messages
    }

    /// Asks, writes the sample and gives the answer. A question that depends on
    /// no state is written once only.
    pub fn ask(&mut self, question: u32, arguments: &[u64], input: &[u8]) -> Answer {
        let answer = self.second.ask(question, arguments, input);
        assert!(!answer.numbers.is_empty(), "not a sample");
        let line = line(question, arguments, input, &answer);
        assert!(line.len() <= MOST_BYTES, "line too long");
        if has_state(question) || self.seen.insert(line.clone()) {
            let text = if is_message(question) { &mut self.messages } else { &mut self.payloads };
            text.push_str(&line);
        }
        answer
    }
}

/// Whether a question is one of messages, of both ends and of the stream.
fn is_message(asked: u32) -> bool {
    (question::WHOLE_MESSAGE..=question::SHOW_MODEM).contains(&asked)
        || is_of_pins(asked)
        || is_of_stream(asked)
}

fn has_state(asked: u32) -> bool {
    (question::RECEIVE..=question::SHOW_ASSEMBLY).contains(&asked)
        || (question::MAKE_HOST..=question::SHOW_MODEM).contains(&asked)
        || is_of_pins(asked)
        || is_of_stream(asked)
}

/// Whether a question is one of the table of PINs.
fn is_of_pins(asked: u32) -> bool {
    (question::MAKE_PINS..=question::SHOW_PINS).contains(&asked)
}

/// Whether a question is one of the stream.
fn is_of_stream(asked: u32) -> bool {
    (question::STREAM_FEED..=question::SHOW_STREAM).contains(&asked)
}

/// A sample as docs/samples.md has it.
fn line(question: u32, arguments: &[u64], input: &[u8], answer: &Answer) -> String {
    let mut asked = number(input.len() as u64);
    for (place, argument) in arguments.iter().enumerate() {
        let is_speed = question == question::PACKET_WRITE && place >= 7;
        asked.extend(if is_speed { argument.to_le_bytes().to_vec() } else { number(*argument) });
    }
    let mut answered = number(answer.numbers[0]);
    if answer.numbers[0] == 0 {
        answered.extend(number(0));
    }
    for (place, shown) in answer.numbers.iter().enumerate().skip(1) {
        let is_speed = question == question::PACKET_READ && place >= 7;
        answered.extend(if is_speed { shown.to_le_bytes().to_vec() } else { number(*shown) });
    }
    let fields = [&[question as u8], &asked[..], input, &answered, &answer.output];
    fields.map(hex).join("\t") + "\n"
}

/// A number of 32 bits as bytes.
fn number(number: u64) -> Vec<u8> {
    u32::try_from(number).expect("32 bits").to_le_bytes().to_vec()
}

/// The bytes in hexadecimal, but for zeros at the end.
fn hex(bytes: &[u8]) -> String {
    let end = bytes.iter().rposition(|byte| *byte != 0).map_or(0, |last| last + 1);
    bytes[..end].iter().fold(String::new(), |mut text, byte| {
        let _ = write!(text, "{byte:02x}");
        text
    })
}
