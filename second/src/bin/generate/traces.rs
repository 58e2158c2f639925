//! A long trace for the replay, the same at every run: lines of both senders, good and bad.

use crate::bad_lines;
use crate::damage::{resized, with_word, words};
use crate::random::Random;
use crate::records;
use second::cutter::cut;
use second::message::{
    Header, CLOSE, CLOSE_DONE, COMMAND, COMMAND_DONE, FUNCTION_ERROR, HOST_ERROR, INDICATE_STATUS,
    OPEN, OPEN_DONE, SET,
};
use second::payload::{
    Kind, BASIC_CONNECT, CID_DEVICE_SERVICES, CID_PACKET_SERVICE, CID_PIN, CID_REGISTER_STATE,
    CID_SIGNAL_STATE, CID_VERSION, EXTENSIONS,
};
use second::trace::{Answer, Sender, Trace, MAX_PIECE};
use second::version::Version;
use std::collections::VecDeque;

/// How many lines the trace has at least.
const LINES: usize = 20_000;
const WHOLE: [u32; 6] = [OPEN, CLOSE, HOST_ERROR, OPEN_DONE, CLOSE_DONE, FUNCTION_ERROR];
const SENDERS: [Sender; 2] = [Sender::Host, Sender::Device];

pub fn all() -> Vec<u8> {
    let mut maker = Maker {
        random: Random::new(5),
        trace: Trace::new(),
        counter: 4_294_900_000,
        queues: Default::default(),
        text: Vec::new(),
        lines: 0,
    };
    for line in bad_lines::each() {
        maker.in_between(&line);
    }
    maker.long_messages();
    while maker.lines < LINES {
        maker.go_on();
    }
    let mut last = line(0, Sender::Host, &words(&[CLOSE, 12, 9]));
    last.pop();
    maker.push(&last);
    maker.text
}

/// A good line with its line feed.
pub fn line(counter: u32, sender: Sender, piece: &[u8]) -> Vec<u8> {
    let letter = if sender == Sender::Host { 'H' } else { 'D' };
    let digits: String = piece.iter().map(|byte| format!("{byte:02x}")).collect();
    format!("{counter}\t{letter}\t{digits}\n").into_bytes()
}

/// Cuts a message and gives its fragments.
pub fn fragments(header: &Header, size: usize, information: &[u8]) -> Vec<Vec<u8>> {
    let mut out = [0; 8192];
    let (_, length) = cut(header, size, information, &mut out).expect("a good message");
    out[..length].chunks(size).map(<[u8]>::to_vec).collect()
}

/// The trace so far, and the fragments that either sender is about to send.
struct Maker {
    random: Random,
    /// Knows the version that the next payload is read at.
    trace: Trace,
    counter: u32,
    queues: [VecDeque<Vec<u8>>; 2],
    text: Vec<u8>,
    lines: usize,
}

impl Maker {
    /// Writes any bytes, one line or several.
    fn push(&mut self, bytes: &[u8]) {
        for line in bytes.split_inclusive(|byte| *byte == b'\n') {
            self.lines += 1;
            let Ok(event) = self.trace.step(line) else { continue };
            // A sender mostly gives up a message once a piece of it is refused.
            if matches!(event.answer, Answer::PieceRefused(_)) && self.random.below(3) > 0 {
                self.queues[event.sender as usize].clear();
            }
        }
        self.text.extend_from_slice(bytes);
    }

    /// Writes a piece's line in one of the ways that a good line may be written.
    fn send(&mut self, number: usize, piece: &[u8]) {
        self.tick();
        let piece = &piece[..piece.len().min(MAX_PIECE)];
        let mut line = line(self.counter, SENDERS[number], piece);
        match self.random.below(8) {
            0 => line.make_ascii_uppercase(),
            1 => {
                for byte in &mut line {
                    let is_upper = self.random.below(2) == 0 && matches!(byte, b'a'..=b'f');
                    *byte -= if is_upper { 32 } else { 0 };
                }
            }
            2 => {
                let digits = line.iter().take_while(|byte| byte.is_ascii_digit()).count();
                let zeros = self.random.below(11 - digits);
                line.splice(0..0, vec![b'0'; zeros]);
            }
            _ => (),
        }
        self.push(&line);
    }

    fn tick(&mut self) {
        let step = self.random.below(3000) as u32;
        self.counter = match self.random.below(60) {
            0 => self.counter.wrapping_sub(step),
            1 => u32::MAX - step,
            2 => step,
            3 => self.random.word(),
            4 => self.counter,
            _ => self.counter.wrapping_add(step),
        };
    }

    /// Some bytes, with fragments around them.
    fn in_between(&mut self, bytes: &[u8]) {
        if self.random.below(3) == 0 {
            self.go_on();
        }
        self.push(bytes);
    }

    /// The next line or few: a fragment of either sender, and now and then something else.
    fn go_on(&mut self) {
        let number = self.random.below(2);
        match self.random.below(30) {
            0 => self.whole_message(number),
            1 => self.short_piece(number),
            2..=4 => {
                let bad = bad_lines::any(&mut self.random, self.counter);
                self.push(&bad);
            }
            _ => self.fragment(number),
        }
    }

    /// The next fragment, which may be lost, repeated, exchanged or damaged.
    fn fragment(&mut self, number: usize) {
        if self.queues[number].is_empty() {
            let message = message(&mut self.random, self.trace.version());
            self.queues[number] = message.into();
        }
        let Some(piece) = self.queues[number].pop_front() else { return };
        match self.random.below(60) {
            0 => (),
            1 => {
                self.send(number, &piece);
                self.send(number, &piece);
            }
            2 => {
                let next = self.queues[number].pop_front();
                self.queues[number].push_front(piece);
                self.queues[number].extend(next);
            }
            3 => self.queues[number].clear(),
            4 => {
                let length = self.random.below(piece.len() + 9);
                self.send(number, &resized(&piece, length));
            }
            5..=7 => {
                let place = self.random.pick(&[0, 4, 8, 12, 16, 36, 40, 44]);
                let place = place.min(piece.len() - 4);
                let value = self.random.pick(&[0, 1, 2, 3, 128, 129, 4097, u32::MAX]);
                self.send(number, &with_word(&piece, place, value));
            }
            _ => self.send(number, &piece),
        }
    }

    /// A whole message, good or with a fault.
    fn whole_message(&mut self, number: usize) {
        let message_type = self.random.pick(&WHOLE);
        let length = if message_type == CLOSE { 12 } else { 16 };
        let word = self.random.pick(&[0, 1, 64, 4096, u32::MAX]);
        let all = words(&[message_type, length, self.random.word(), word]);
        let good = &all[..length as usize];
        let bad = match self.random.below(10) {
            0 => with_word(good, 4, self.random.pick(&[0, 11, 12, 13, 16, 17, 20])),
            1 => with_word(good, 0, self.random.pick(&[0, 5, 0x101, 0x8000_0005, 0x8000_0008])),
            2 => resized(good, self.random.below(24)),
            3 => with_word(&resized(good, 20), 4, 20),
            4 => with_word(&resized(good, 12), 4, 12),
            _ => good.to_vec(),
        };
        self.send(number, &bad);
    }

    /// Fewer bytes than a fragment has, of any type; some say their length.
    fn short_piece(&mut self, number: usize) {
        let types = [1, 2, 3, 4, 7, 0x8000_0001, 0x8000_0003, 0x8000_0007, 0x0100_0000];
        let length = self.random.below(21);
        let all = words(&[self.random.pick(&types), length as u32, 7, 1, 0]);
        self.send(number, &all[..length]);
    }

    /// As many bytes, fragments, elements and CIDs as there may be.
    fn long_messages(&mut self) {
        let header = Header { cid: CID_DEVICE_SERVICES, ..header(COMMAND_DONE) };
        let long = resized(&words(&[0, 9]), 4096);
        let overlapping = records::overlapping_services();
        for (size, information) in
            [(64, &overlapping), (256, &overlapping), (64, &long), (256, &long)]
        {
            for piece in fragments(&header, size, information) {
                self.send(1, &piece);
            }
        }
        for number in 0..128 {
            let head = resized(&words(&[COMMAND_DONE, 48, 5, 128, 0]), 48);
            let empty = words(&[COMMAND_DONE, 20, 5, 128, number]);
            self.send(0, if number == 0 { &head } else { &empty });
        }
    }
}

fn header(message_type: u32) -> Header {
    let transaction = if message_type == INDICATE_STATUS { 0 } else { 5 };
    Header { message_type, transaction, service: BASIC_CONNECT, cid: 0, word: 0 }
}

const KINDS: [(Kind, u32); 7] = [
    (Kind::RegisterState, CID_REGISTER_STATE),
    (Kind::PacketService, CID_PACKET_SERVICE),
    (Kind::SignalState, CID_SIGNAL_STATE),
    (Kind::DeviceServices, CID_DEVICE_SERVICES),
    (Kind::Version, CID_VERSION),
    (Kind::SetPin, CID_PIN),
    (Kind::PinInfo, CID_PIN),
];

/// The fragments of a message of any kind, which mostly has the form of this version.
fn message(random: &mut Random, version: Version) -> Vec<Vec<u8>> {
    let (kind, cid) = random.pick(&KINDS);
    let is_set_pin = kind == Kind::SetPin && random.below(8) > 0;
    let message_type = match random.below(8) {
        _ if is_set_pin => COMMAND,
        0 => COMMAND,
        1 | 2 => INDICATE_STATUS,
        _ => COMMAND_DONE,
    };
    let version = random.pick(&[version, version, version, Version::V1, Version::V2]);
    let mut information = records::good(random, kind, version);
    if random.below(3) == 0 {
        information = records::damaged(random, kind, &information);
    }
    let mut header = Header {
        service: if kind == Kind::Version { EXTENSIONS } else { BASIC_CONNECT },
        cid,
        word: word(random, message_type, kind),
        ..header(message_type)
    };
    if message_type != INDICATE_STATUS {
        header.transaction = random.pick(&[1, 2, 3, u32::MAX, 0x0102_0304]);
    }
    elsewhere(random, &mut header);
    fragments(&header, 64 + random.below(193), &information)
}

/// A command type or a status, of which a third are not the usual one.
fn word(random: &mut Random, message_type: u32, kind: Kind) -> u32 {
    match (message_type, kind) {
        (COMMAND, Kind::SetPin) => random.pick(&[SET, SET, SET, 0]),
        (COMMAND, _) => random.below(2) as u32,
        (_, Kind::PinInfo) => random.pick(&[0, 2, 2, 1, 9]),
        _ => random.pick(&[0, 0, 0, 0, 0, 0, 1, 2, 9, u32::MAX]),
    }
}

/// Now and then another service, or another CID.
fn elsewhere(random: &mut Random, header: &mut Header) {
    match random.below(30) {
        0 => header.service = random.pick(&[[0; 16], [0x3D; 16], EXTENSIONS, BASIC_CONNECT]),
        1 => header.service[random.below(16)] ^= 1,
        2 => header.cid = random.pick(&[0, 1, 3, 5, 8, 12, 15, 17, 265, u32::MAX]),
        _ => (),
    }
}
