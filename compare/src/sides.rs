//! The two sides: every question goes to both, and their answers must be equal.

use crate::asks::Met;
use crate::library::Library;
use crate::streams;
use second::flat::{question as q, Answer, Second};
use std::collections::BTreeSet;
use std::fmt::{Debug, Write};

/// How many differences are printed in full.
const PRINTED: usize = 20;

/// The questions that are counted together.
const GROUPS: [(&str, &[u32]); 14] = [
    ("VERSION", &[q::VERSION_READ, q::VERSION_WRITE]),
    ("packet service", &[q::PACKET_READ, q::PACKET_WRITE]),
    ("registration", &[q::REGISTRATION_READ, q::REGISTRATION_READ_WITH, q::REGISTRATION_WRITE]),
    ("signal state", &[q::SIGNAL_READ, q::SIGNAL_READ_WITH, q::SIGNAL_WRITE]),
    (
        "device services",
        &[
            q::SERVICES_READ,
            q::SERVICES_READ_WITH,
            q::ELEMENT,
            q::ELEMENT_WITH,
            q::SERVICE_CIDS,
            q::SERVICE_CIDS_WITH,
            q::LISTED,
            q::LISTED_WITH,
            q::ASK_CID,
            q::ASK_CID_WITH,
            q::SERVICES_WRITE,
        ],
    ),
    ("whole messages", &[q::WHOLE_MESSAGE, q::WHOLE_WRITE]),
    ("received pieces", &[q::RECEIVE, q::EMPTY_ASSEMBLY, q::SHOW_ASSEMBLY]),
    ("cutter", &[q::CUT, q::NEXT_TRANSACTION, q::PAYLOAD_KIND]),
    (
        "host",
        &[q::MAKE_HOST, q::HOST_OPEN, q::HOST_CLOSE, q::HOST_NEXT, q::HOST_RECEIVE, q::SHOW_HOST],
    ),
    ("modem", &[q::MAKE_MODEM, q::MODEM_OPEN, q::MODEM_CLOSE, q::MODEM_RECEIVE, q::SHOW_MODEM]),
    ("readings", &[q::RSRP, q::SNR, q::BARS]),
    (
        "PIN payloads",
        &[
            q::SET_PIN_READ,
            q::SET_PIN_READ_WITH,
            q::SET_PIN_WRITE,
            q::PIN_INFO_READ,
            q::PIN_INFO_WRITE,
        ],
    ),
    ("tables of PINs", &[q::MAKE_PINS, q::PIN_ENTRY, q::PIN_RECEIVE, q::SHOW_PINS]),
    ("byte streams", &[q::STREAM_FEED, q::STREAM_RESET, q::SHOW_STREAM]),
];

#[derive(Clone, Default)]
struct Count {
    cases: usize,
    refused: usize,
    numbers: BTreeSet<u64>,
}

pub struct Sides {
    second: Second,
    library: Library,
    counts: Vec<Count>,
    pub met: Met,
    pub streams: streams::Met,
    pub cases: usize,
    pub differences: usize,
}

impl Sides {
    pub fn new() -> Sides {
        Sides {
            second: Second::new(),
            library: Library::new(),
            counts: vec![Count::default(); q::SHOW_STREAM as usize + 1],
            met: Met::default(),
            streams: streams::Met::default(),
            cases: 0,
            differences: 0,
        }
    }

    /// Asks both sides and gives the library's answer, or none where it has done wrong.
    pub fn ask(&mut self, question: u32, arguments: &[u64], input: &[u8]) -> Answer {
        let expected = self.second.ask(question, arguments, input);
        assert!(!expected.numbers.is_empty(), "question {question} is none");
        let answer = self.library.ask(question, arguments, input).map_err(str::to_string);
        self.count(question, expected.numbers[0]);
        match answer {
            Ok(answer) if answer == expected => answer,
            Ok(answer) => {
                let text = answer_text(&answer);
                self.differ(question, arguments, input, &expected, &text);
                answer
            }
            Err(wrong) => {
                self.differ(question, arguments, input, &expected, &wrong);
                expected
            }
        }
    }

    /// Asks, and a reader that takes a choice once more by each of these numbers. Gives the answer to
    /// the question without one.
    pub fn ask_by(
        &mut self,
        choices: &[u64],
        question: u32,
        arguments: &[u64],
        input: &[u8],
    ) -> Answer {
        let answer = self.ask(question, arguments, input);
        if let Some(chosen) = by_choice(question) {
            for choice in choices {
                self.ask(chosen, &[arguments, &[*choice]].concat(), input);
            }
        }
        answer
    }

    /// Asks, and then for the states that the question may have changed.
    pub fn step(&mut self, question: u32, arguments: &[u64], input: &[u8]) -> Answer {
        let answer = self.ask(question, arguments, input);
        for show in states_of(question) {
            self.ask(*show, &[], &[]);
        }
        answer
    }

    /// Holds against each other what both sides give where there is no question for it.
    pub fn same<T: PartialEq + Debug>(
        &mut self,
        call: &str,
        input: &[u8],
        expected: &T,
        given: &T,
    ) {
        self.cases += 1;
        if given == expected {
            return;
        }
        self.differences += 1;
        if self.differences <= PRINTED {
            println!("difference {} at case {}: {call}", self.differences, self.cases);
            println!("  input     {}", groups(input));
            println!("  second    {expected:?}");
            println!("  library   {given:?}");
        }
    }

    fn count(&mut self, question: u32, number: u64) {
        let count = &mut self.counts[question as usize];
        self.cases += 1;
        count.cases += 1;
        if number != 0 {
            count.refused += 1;
            count.numbers.insert(number);
        }
    }

    /// Counts a difference and shows it.
    pub fn differ(
        &mut self,
        question: u32,
        arguments: &[u64],
        input: &[u8],
        want: &Answer,
        got: &str,
    ) {
        self.differences += 1;
        if self.differences > PRINTED {
            return;
        }
        println!("difference {} at case {}", self.differences, self.cases);
        println!("  question  {question}");
        println!("  arguments {}", numbers(arguments));
        println!("  input     {}", groups(input));
        println!("  second    {}", answer_text(want));
        println!("  library   {got}");
    }

    /// One line for each group, and the total; then what the question for one CID and streams came to.
    pub fn report(&self) {
        let mut total = Count::default();
        for (name, questions) in GROUPS {
            let mut group = Count::default();
            for question in questions {
                group.add(&self.counts[*question as usize]);
            }
            group.print(name);
            total.add(&group);
        }
        total.print("total");
        self.met.report();
        self.streams.report();
    }

    /// Questions that were not asked.
    pub fn unasked(&self) -> Vec<usize> {
        (1..self.counts.len()).filter(|question| self.counts[*question].cases == 0).collect()
    }
}

impl Count {
    fn add(&mut self, other: &Count) {
        self.cases += other.cases;
        self.refused += other.refused;
        self.numbers.extend(&other.numbers);
    }

    fn print(&self, name: &str) {
        let seen: Vec<u64> = self.numbers.iter().copied().collect();
        let (cases, refused) = (self.cases, self.refused);
        println!("{name:16} {cases:8} cases {refused:8} refused, by {}", numbers(&seen));
    }
}

/// The question that is the same by a choice, which stands behind the other arguments.
fn by_choice(question: u32) -> Option<u32> {
    match question {
        q::REGISTRATION_READ => Some(q::REGISTRATION_READ_WITH),
        q::SIGNAL_READ => Some(q::SIGNAL_READ_WITH),
        q::SERVICES_READ => Some(q::SERVICES_READ_WITH),
        q::ELEMENT => Some(q::ELEMENT_WITH),
        q::SERVICE_CIDS => Some(q::SERVICE_CIDS_WITH),
        q::LISTED => Some(q::LISTED_WITH),
        q::ASK_CID => Some(q::ASK_CID_WITH),
        q::SET_PIN_READ => Some(q::SET_PIN_READ_WITH),
        _ => None,
    }
}

/// The questions that show what this one works on.
fn states_of(question: u32) -> &'static [u32] {
    match question {
        q::RECEIVE..=q::SHOW_ASSEMBLY => &[q::SHOW_ASSEMBLY],
        q::MAKE_HOST..=q::HOST_RECEIVE => &[q::SHOW_HOST],
        q::MAKE_MODEM..=q::MODEM_RECEIVE => &[q::SHOW_MODEM],
        q::MAKE_PINS | q::PIN_ENTRY => &[q::SHOW_PINS],
        q::PIN_RECEIVE => &[q::SHOW_MODEM, q::SHOW_PINS],
        q::STREAM_FEED | q::STREAM_RESET => &[q::SHOW_STREAM, q::SHOW_ASSEMBLY],
        _ => &[],
    }
}

fn answer_text(answer: &Answer) -> String {
    format!("{} | {}", numbers(&answer.numbers), groups(&answer.output))
}

fn numbers(numbers: &[u64]) -> String {
    let words: Vec<String> = numbers.iter().map(u64::to_string).collect();
    words.join(" ")
}

/// Bytes in hex, and runs of 8 or more as a byte and a count.
fn groups(bytes: &[u8]) -> String {
    let mut groups = String::new();
    let mut plain = false;
    for run in bytes.chunk_by(|one, next| one == next) {
        let counted = run.len() >= 8;
        if !groups.is_empty() && (counted || !plain) {
            groups.push(',');
        }
        if counted {
            let _ = write!(groups, "{:02x}*{}", run[0], run.len());
        } else {
            run.iter().for_each(|byte| groups.push_str(&format!("{byte:02x}")));
        }
        plain = !counted;
    }
    groups
}
