//! A station's trace: what a line holds, and what the lines do one after another.
//! The text that comes of it is `replay`'s part.

use crate::assembler::Assembler;
use crate::door::{self, Received};
use crate::message::{Header, Whole, COMMAND_DONE};
use crate::payload::{self, Kind};
use crate::refusal::{require, Refusal, BAD_LINE};
use crate::version::Version;
use crate::{version_info, MAX_INFORMATION};

/// Most digits of a counter.
pub const MAX_DIGITS: usize = 10;
/// Most bytes of a piece.
pub const MAX_PIECE: usize = 256;
/// Bytes of the longest good line: counter, tab, sender, tab, piece, line feed.
pub const LONGEST_LINE: usize = MAX_DIGITS + 3 + 2 * MAX_PIECE + 1;

const TAB: u8 = b'\t';
const LINE_FEED: u8 = b'\n';

#[derive(Clone, Copy, Debug, PartialEq, Eq)]
pub enum Sender {
    Host,
    Device,
}

/// A good line.
#[derive(Clone, Copy, Debug, PartialEq, Eq)]
pub struct Line {
    pub counter: u32,
    pub sender: Sender,
    bytes: [u8; MAX_PIECE],
    length: usize,
}

impl Line {
    /// Reads a line with its line feed. A bad one is 19 at the length of the longest beginning
    /// that it shares with a good line.
    pub fn read(line: &[u8]) -> Result<Line, Refusal> {
        let mut cursor = Cursor { line, column: 0 };
        let counter = cursor.counter()?;
        cursor.expect(TAB)?;
        let sender = cursor.take(sender).ok_or(cursor.bad())?;
        cursor.expect(TAB)?;
        let (bytes, length) = cursor.piece()?;
        cursor.expect(LINE_FEED)?;
        require(cursor.column == line.len(), BAD_LINE, cursor.column)?;
        Ok(Line { counter, sender, bytes, length })
    }

    pub fn piece(&self) -> &[u8] {
        self.bytes.get(..self.length).unwrap_or_default()
    }
}

/// A place in a line. All before it begins some good line.
struct Cursor<'a> {
    line: &'a [u8],
    column: usize,
}

impl Cursor<'_> {
    fn bad(&self) -> Refusal {
        Refusal::new(BAD_LINE, self.column)
    }

    /// Goes past the next byte if it is accepted.
    fn take<T>(&mut self, accept: impl FnOnce(u8) -> Option<T>) -> Option<T> {
        let taken = accept(*self.line.get(self.column)?)?;
        self.column += 1;
        Some(taken)
    }

    fn expect(&mut self, wanted: u8) -> Result<(), Refusal> {
        self.take(|byte| (byte == wanted).then_some(())).ok_or(self.bad())
    }

    /// The digit that would lead over 32 bits is not taken, and no tab either.
    fn counter(&mut self) -> Result<u32, Refusal> {
        let append = |counter: u32, byte| counter.checked_mul(10)?.checked_add(decimal(byte)?);
        let mut counter = self.take(decimal).ok_or(self.bad())?;
        for _ in 1..MAX_DIGITS {
            match self.take(|byte| append(counter, byte)) {
                Some(longer) => counter = longer,
                None => break,
            }
        }
        Ok(counter)
    }

    fn piece(&mut self) -> Result<([u8; MAX_PIECE], usize), Refusal> {
        let mut bytes = [0; MAX_PIECE];
        let mut length = 0;
        for byte in &mut bytes {
            let Some(high) = self.take(hexadecimal) else { break };
            let low = self.take(hexadecimal).ok_or(self.bad())?;
            *byte = high << 4 | low;
            length += 1;
        }
        Ok((bytes, length))
    }
}

fn decimal(byte: u8) -> Option<u32> {
    char::from(byte).to_digit(10)
}

fn hexadecimal(byte: u8) -> Option<u8> {
    char::from(byte).to_digit(16).map(|digit| digit as u8)
}

fn sender(byte: u8) -> Option<Sender> {
    match byte {
        b'H' => Some(Sender::Host),
        b'D' => Some(Sender::Device),
        _ => None,
    }
}

/// What stands between lines.
#[derive(Clone, Debug, PartialEq, Eq)]
pub struct Trace {
    host: Assembler,
    device: Assembler,
    /// The counter of the good line before.
    previous: Option<u32>,
    version: Version,
    information: [u8; MAX_INFORMATION],
}

/// What a good line brought.
#[derive(Clone, Copy, Debug, PartialEq, Eq)]
pub struct Event<'a> {
    /// Milliseconds since the good line before.
    pub elapsed: u32,
    pub sender: Sender,
    /// The version that a payload of this line is read at.
    pub version: Version,
    pub answer: Answer<'a>,
}

/// What a piece brought.
#[derive(Clone, Copy, Debug, PartialEq, Eq)]
pub enum Answer<'a> {
    /// Refused; the sender's assembler is empty.
    PieceRefused(Refusal),
    Pending {
        message_type: u32,
        transaction: u32,
        dropped: bool,
    },
    Complete {
        header: Header,
        information: &'a [u8],
        dropped: bool,
    },
    Whole(Whole),
    /// Refused; the sender's assembler is as it was.
    WholeRefused(Refusal),
}

impl Default for Trace {
    fn default() -> Self {
        Self::new()
    }
}

impl Trace {
    pub const fn new() -> Trace {
        Trace {
            host: Assembler::new(),
            device: Assembler::new(),
            previous: None,
            version: Version::V1,
            information: [0; MAX_INFORMATION],
        }
    }

    /// The version that the next line's payload is read at.
    pub fn version(&self) -> Version {
        self.version
    }

    /// Takes the next line with its line feed. A bad one changes nothing.
    pub fn step(&mut self, line: &[u8]) -> Result<Event<'_>, Refusal> {
        let line = Line::read(line)?;
        let (sender, version) = (line.sender, self.version);
        let elapsed = self.previous.map_or(0, |previous| line.counter.wrapping_sub(previous));
        self.previous = Some(line.counter);
        let answer = self.receive(sender, line.piece());
        Ok(Event { elapsed, sender, version, answer })
    }

    fn receive(&mut self, sender: Sender, piece: &[u8]) -> Answer<'_> {
        let assembler = match sender {
            Sender::Host => &mut self.host,
            Sender::Device => &mut self.device,
        };
        match door::receive(assembler, piece, &mut self.information) {
            Err(refusal) if door::is_whole(piece) => Answer::WholeRefused(refusal),
            Err(refusal) => Answer::PieceRefused(refusal),
            Ok(Received::Whole(whole)) => Answer::Whole(whole),
            Ok(Received::Pending { message_type, transaction, dropped }) => {
                Answer::Pending { message_type, transaction, dropped }
            }
            Ok(Received::Complete { header, length, dropped }) => {
                let information = self.information.get(..length).unwrap_or_default();
                self.version = settled(sender, &header, information).unwrap_or(self.version);
                Answer::Complete { header, information, dropped }
            }
        }
    }
}

/// The version of a reply to VERSION that is one of the device's and accepted. Only a reply of
/// status 0 shows its payload.
fn settled(sender: Sender, header: &Header, information: &[u8]) -> Option<Version> {
    let is_reply = sender == Sender::Device && header.message_type == COMMAND_DONE;
    let shows_version = payload::shown(header) == Ok(Some(Kind::Version));
    let read = || version_info::read(information).ok();
    (is_reply && shows_version).then(read).flatten()
}

#[cfg(test)]
mod tests {
    use super::*;
    use crate::cutter::cut;
    use crate::message::{write_whole, COMMAND, INDICATE_STATUS, OPEN};
    use crate::payload::{BASIC_CONNECT, EXTENSIONS};

    fn column(line: &[u8]) -> Option<usize> {
        Line::read(line).err().map(|refusal| {
            assert_eq!(refusal.number, 19);
            refusal.place
        })
    }

    fn assert_columns(cases: &[(&str, usize)]) {
        for (line, wanted) in cases {
            assert_eq!(column(line.as_bytes()), Some(*wanted), "{line:?}");
        }
    }

    #[test]
    fn good_lines() {
        let line = Line::read(b"0004294967\tD\t00fFAb10\n").unwrap();
        assert_eq!((line.counter, line.sender), (4_294_967, Sender::Device));
        assert_eq!(line.piece(), [0, 0xFF, 0xAB, 0x10]);
        let line = Line::read(b"5\tH\t\n").unwrap();
        assert_eq!((line.counter, line.sender, line.piece()), (5, Sender::Host, &[][..]));
        assert_eq!(Line::read(b"4294967295\tH\t\n").unwrap().counter, u32::MAX);
        assert_eq!(Line::read(b"0000000000\tH\t\n").unwrap().counter, 0);
        let longest = format!("0123456789\tH\t{}\n", "a5".repeat(256));
        assert_eq!(longest.len(), LONGEST_LINE);
        assert_eq!(Line::read(longest.as_bytes()).unwrap().piece(), [0xA5; 256]);
    }

    #[test]
    fn columns_of_the_counter() {
        assert_columns(&[
            ("\n", 0),
            ("\t", 0),
            ("\tH\t\n", 0),
            (" 1\tH\t\n", 0),
            ("-1\tH\t\n", 0),
            ("a\tH\t\n", 0),
            ("\r\n", 0),
            ("12a\tH\t\n", 2),
            ("12\n", 2),
            ("12 \tH\t\n", 2),
            ("4294967296\tH\t\n", 9),
            ("4294967300\tH\t\n", 9),
            ("4300000000\tH\t\n", 9),
            ("9999999999\tH\t\n", 9),
            ("42949672950\tH\t\n", 10),
            ("00000000001\tH\t\n", 10),
            ("00000000000\tH\t\n", 10),
            ("1234567890\n", 10),
        ]);
    }

    #[test]
    fn columns_behind_the_counter() {
        assert_columns(&[
            ("1\t\n", 2),
            ("1\t\tH\t\n", 2),
            ("1\th\t\n", 2),
            ("1\tX\t\n", 2),
            ("1\tH\n", 3),
            ("1\tHD\t\n", 3),
            ("1\tH \n", 3),
            ("1\tH\tg\n", 4),
            ("1\tH\t \n", 4),
            ("1\tH\t\t\n", 4),
            ("1\tH\t0\n", 5),
            ("1\tH\t0g\n", 5),
            ("1\tH\t000\n", 7),
            ("1\tH\t00 \n", 6),
            ("1\tH\t00\r\n", 6),
            ("1\tH\t00\t\n", 6),
        ]);
        for digits in [513, 514, 100_000] {
            let line = format!("1\tH\t{}\n", "0".repeat(digits));
            assert_eq!(column(line.as_bytes()), Some(4 + 512));
        }
        let odd = format!("1\tH\t{}\n", "0".repeat(511));
        assert_eq!(column(odd.as_bytes()), Some(4 + 511));
    }

    #[test]
    fn a_line_without_its_line_feed_is_bad_where_it_ends() {
        let line = b"4294967295\tD\t0011";
        for length in 0..=line.len() {
            assert_eq!(column(&line[..length]), Some(length));
        }
        assert_columns(&[("4294967296", 9), ("1\tX", 2), ("1\tH\t00\r", 6)]);
        assert_eq!(column(b"1\tH\t\n1"), Some(5));
        for byte in [0, 0x7F, 0x80, 0xFF] {
            assert_eq!(column(&[b'1', b'\t', b'H', b'\t', byte, b'\n']), Some(4));
            assert_eq!(column(&[byte, b'\n']), Some(0));
        }
    }

    /// Whether some good line begins so. Each end of a good line stands in the table.
    fn begins_a_good_line(beginning: &[u8]) -> bool {
        let ends = ["", "\n", "0\n", "\t\n", "H\t\n", "\tH\t\n", "0\tH\t\n"];
        ends.iter().any(|end| Line::read(&[beginning, end.as_bytes()].concat()).is_ok())
    }

    #[test]
    fn the_column_is_the_longest_shared_beginning() {
        let good = b"4294967295\tD\t0a1F\n";
        for place in 0..good.len() {
            for byte in 0..=255 {
                let mut line = good.to_vec();
                line[place] = byte;
                let shares = |length: &usize| begins_a_good_line(&line[..*length]);
                let longest = (0..=line.len()).rev().find(shares);
                let is_good = Line::read(&line).is_ok();
                assert_eq!(column(&line), longest.filter(|_| !is_good), "{line:?}");
            }
        }
    }

    const CLOSE_PIECE: [u8; 12] = [2, 0, 0, 0, 12, 0, 0, 0, 7, 0, 0, 0];

    fn line(counter: u32, sender: char, piece: &[u8]) -> Vec<u8> {
        let hex: String = piece.iter().map(|byte| format!("{byte:02x}")).collect();
        format!("{counter}\t{sender}\t{hex}\n").into_bytes()
    }

    fn message(message_type: u32, word: u32, information: &[u8]) -> Vec<Vec<u8>> {
        let transaction = if message_type == INDICATE_STATUS { 0 } else { 7 };
        let header = Header { message_type, transaction, service: EXTENSIONS, cid: 15, word };
        let mut out = [0; 600];
        let (_, length) = cut(&header, 64, information, &mut out).unwrap();
        out[..length].chunks(64).map(<[u8]>::to_vec).collect()
    }

    fn elapsed(trace: &mut Trace, line: &[u8]) -> Option<u32> {
        trace.step(line).ok().map(|event| event.elapsed)
    }

    #[test]
    fn elapsed_wraps_and_a_bad_line_is_not_previous() {
        let mut trace = Trace::new();
        assert_eq!(elapsed(&mut trace, b"nothing\n"), None);
        assert_eq!(elapsed(&mut trace, b"4294967290\tH\t\n"), Some(0));
        assert_eq!(elapsed(&mut trace, b"0000000004\tD\t\n"), Some(10));
        let before = trace.clone();
        assert_eq!(elapsed(&mut trace, b"70\tD\t0\n"), None);
        assert_eq!(trace, before);
        assert_eq!(elapsed(&mut trace, b"64\tH\t00\n"), Some(60));
        assert_eq!(elapsed(&mut trace, b"64\tH\t\n"), Some(0));
        assert_eq!(elapsed(&mut trace, b"63\tH\t\n"), Some(u32::MAX));
        assert_eq!(elapsed(&mut trace, b"4294967295\tH\t\n"), Some(u32::MAX - 63));
    }

    #[test]
    fn each_sender_has_an_assembler() {
        let [first, last] = [0, 1].map(|place| message(COMMAND, 1, &[5; 40])[place].clone());
        let mut trace = Trace::new();
        for sender in ['H', 'D'] {
            let answer = trace.step(&line(1, sender, &first)).unwrap().answer;
            assert!(matches!(answer, Answer::Pending { dropped: false, transaction: 7, .. }));
        }
        for sender in ['D', 'H'] {
            let answer = trace.step(&line(1, sender, &last)).unwrap().answer;
            let Answer::Complete { information, .. } = answer else { panic!("{answer:?}") };
            assert_eq!(information, [5; 40]);
            let answer = trace.step(&line(1, sender, &last)).unwrap().answer;
            assert_eq!(answer, Answer::PieceRefused(Refusal::new(4, 16)));
        }
    }

    /// A trace with a message of both senders begun.
    fn pending() -> Trace {
        let first = &message(COMMAND, 1, &[5; 40])[0];
        let mut trace = Trace::new();
        for sender in ['H', 'D'] {
            assert!(trace.step(&line(1, sender, first)).is_ok());
        }
        trace
    }

    #[test]
    fn whole_messages_touch_no_assembler() {
        let mut open = [0; 16];
        let whole = Whole { message_type: OPEN, transaction: 3, word: 64 };
        assert_eq!(write_whole(&whole, &mut open), Ok(16));
        let mut trace = pending();
        for sender in ['H', 'D'] {
            let mut answer = |piece: &[u8]| {
                let answer = match trace.step(&line(1, sender, piece)).unwrap().answer {
                    Answer::Whole(whole) => Ok(whole),
                    Answer::WholeRefused(refusal) => Err(refusal),
                    answer => panic!("{answer:?}"),
                };
                assert_eq!(trace, pending());
                answer
            };
            assert_eq!(answer(&open), Ok(whole));
            assert!(answer(&CLOSE_PIECE).is_ok());
            for length in 4..12 {
                assert_eq!(answer(&open[..length]), Err(Refusal::new(1, length)));
            }
            assert_eq!(answer(&open[..12]), Err(Refusal::new(2, 4)));
        }
    }

    #[test]
    fn a_piece_without_a_type_empties_the_senders_assembler() {
        let pieces = message(COMMAND, 1, &[5; 40]);
        for length in 0..4 {
            let mut trace = pending();
            let answer = trace.step(&line(1, 'H', &CLOSE_PIECE[..length])).unwrap().answer;
            assert_eq!(answer, Answer::PieceRefused(Refusal::new(1, length)));
            assert_eq!(trace.host, Assembler::new());
            let answer = trace.step(&line(1, 'D', &pieces[1])).unwrap().answer;
            assert!(matches!(answer, Answer::Complete { .. }));
        }
    }

    fn settles(sender: char, message_type: u32, word: u32, information: &[u8]) -> bool {
        let mut trace = Trace::new();
        for piece in message(message_type, word, information) {
            assert_eq!(trace.step(&line(1, sender, &piece)).unwrap().version, Version::V1);
        }
        let next = trace.step(b"1\tD\t\n").unwrap().version;
        assert_eq!(next, trace.version());
        next == Version::V2
    }

    #[test]
    fn only_an_accepted_version_reply_of_the_device_changes_the_version() {
        let second = [0, 1, 0, 2];
        assert!(settles('D', COMMAND_DONE, 0, &second));
        assert!(!settles('H', COMMAND_DONE, 0, &second));
        for status in [1, 2, 9] {
            assert!(!settles('D', COMMAND_DONE, status, &second));
        }
        assert!(!settles('D', INDICATE_STATUS, 0, &second));
        assert!(!settles('D', COMMAND, 0, &second));
        for information in [&[][..], &[0, 1, 0, 3], &[0, 2, 0, 2], &[0, 1, 0, 2, 0]] {
            assert!(!settles('D', COMMAND_DONE, 0, information));
        }
    }

    #[test]
    fn the_version_stays_until_the_next_reply() {
        let mut trace = Trace::new();
        let reply = |extension| message(COMMAND_DONE, 0, &[0, 1, 0, extension])[0].clone();
        for (extension, version) in [(2, Version::V2), (1, Version::V1), (2, Version::V2)] {
            assert!(trace.step(&line(1, 'D', &reply(extension))).is_ok());
            assert!(trace.step(&line(1, 'D', &reply(3))).is_ok());
            assert!(trace.step(&line(1, 'H', &CLOSE_PIECE)).is_ok());
            assert_eq!(trace.version(), version);
        }
        let mut elsewhere = reply(1);
        elsewhere[20..36].copy_from_slice(&BASIC_CONNECT);
        assert!(trace.step(&line(1, 'D', &elsewhere)).is_ok());
        assert_eq!(trace.version(), Version::V2);
    }
}
