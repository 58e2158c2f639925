//! The assembler: joins fragments to messages in a buffer of its own.
//! The assembly is all zero when empty, and zero past the bytes gathered.

use crate::bytes::put;
use crate::message::{self, First, Fragment, Header};
use crate::refusal::{require, Refusal, FRAGMENT_WRONG, LENGTH_DISAGREES, OUTPUT_TOO_SMALL};
use crate::MAX_INFORMATION;

/// What one fragment brought. Only a first fragment can drop an unfinished message.
#[derive(Clone, Copy, Debug, PartialEq, Eq)]
pub enum Answer {
    /// Taken; the message is not complete.
    Pending { dropped: bool },
    /// Complete; this many information bytes stand at the start of the output.
    Complete { header: Header, length: usize, dropped: bool },
    /// Refused; the assembly is empty.
    Refused(Refusal),
}

/// An unfinished message.
#[derive(Clone, Copy, Debug, PartialEq, Eq)]
pub struct Progress {
    pub header: Header,
    pub total: u32,
    /// The number expected next.
    pub next: u32,
    pub declared: usize,
    pub gathered: usize,
}

/// The assembly.
#[derive(Clone, Debug, PartialEq, Eq)]
pub struct Assembler {
    progress: Option<Progress>,
    bytes: [u8; MAX_INFORMATION],
}

impl Default for Assembler {
    fn default() -> Self {
        Self::new()
    }
}

impl Assembler {
    pub const fn new() -> Self {
        Assembler { progress: None, bytes: [0; MAX_INFORMATION] }
    }

    /// The assembly of an unfinished message; past the gathered bytes these are zero.
    pub(crate) const fn of(progress: Progress, bytes: [u8; MAX_INFORMATION]) -> Self {
        Assembler { progress: Some(progress), bytes }
    }

    #[inline]
    pub fn progress(&self) -> Option<&Progress> {
        self.progress.as_ref()
    }

    #[inline]
    pub fn bytes(&self) -> &[u8; MAX_INFORMATION] {
        &self.bytes
    }

    /// Takes one fragment. A refused one, whatever it is, empties the assembly.
    #[inline]
    pub fn feed(&mut self, piece: &[u8], out: &mut [u8]) -> Answer {
        match self.take(piece, out) {
            Ok(answer) => answer,
            Err(refusal) => {
                self.clear();
                Answer::Refused(refusal)
            }
        }
    }

    #[inline]
    fn take(&mut self, piece: &[u8], out: &mut [u8]) -> Result<Answer, Refusal> {
        let fragment = message::fragment(piece)?;
        match fragment.first {
            Some(first) => self.begin(&fragment, &first, out),
            None => self.go_on(&fragment, out),
        }
    }

    /// A first fragment begins anew, whatever is pending.
    #[inline]
    fn begin(
        &mut self,
        fragment: &Fragment,
        first: &First,
        out: &mut [u8],
    ) -> Result<Answer, Refusal> {
        let dropped = self.progress.is_some();
        let header = first.header;
        if fragment.total == 1 {
            let length = give(&[], fragment.information, out)?;
            self.clear();
            return Ok(Answer::Complete { header, length, dropped });
        }
        self.clear();
        let gathered = fragment.information.len();
        put(&mut self.bytes, 0, fragment.information);
        let declared = first.information_length;
        let total = fragment.total;
        self.progress = Some(Progress { header, total, next: 1, declared, gathered });
        Ok(Answer::Pending { dropped })
    }

    /// A later fragment joins the pending message only if everything matches.
    #[inline]
    fn go_on(&mut self, fragment: &Fragment, out: &mut [u8]) -> Result<Answer, Refusal> {
        let stray = Refusal::new(FRAGMENT_WRONG, message::NUMBER);
        let pending = self.progress.as_mut().filter(|known| matches(known, fragment));
        let progress = pending.ok_or(stray)?;
        let gathered = progress.gathered + fragment.information.len();
        let last = progress.next + 1 == progress.total;
        let fits = if last { gathered == progress.declared } else { gathered <= progress.declared };
        require(fits, LENGTH_DISAGREES, message::MESSAGE_LENGTH)?;
        if last {
            let header = progress.header;
            let before = self.bytes.get(..progress.gathered).unwrap_or_default();
            let length = give(before, fragment.information, out)?;
            self.clear();
            return Ok(Answer::Complete { header, length, dropped: false });
        }
        put(&mut self.bytes, progress.gathered, fragment.information);
        progress.gathered = gathered;
        progress.next += 1;
        Ok(Answer::Pending { dropped: false })
    }

    /// Empties the assembly; past the gathered bytes it is zero already.
    #[inline]
    pub(crate) fn clear(&mut self) {
        if let Some(progress) = self.progress.take() {
            self.bytes.get_mut(..progress.gathered).unwrap_or_default().fill(0);
        }
    }
}

#[inline(always)]
fn matches(progress: &Progress, fragment: &Fragment) -> bool {
    progress.header.message_type == fragment.message_type
        && progress.header.transaction == fragment.transaction
        && progress.total == fragment.total
        && progress.next == fragment.number
}

/// Puts both parts into the output and gives their length.
#[inline(always)]
fn give(before: &[u8], last: &[u8], out: &mut [u8]) -> Result<usize, Refusal> {
    let length = before.len() + last.len();
    let room = out.get_mut(..length).ok_or(Refusal::new(OUTPUT_TOO_SMALL, length))?;
    let (start, end) = room.split_at_mut(before.len());
    start.copy_from_slice(before);
    end.copy_from_slice(last);
    Ok(length)
}

#[cfg(test)]
mod tests {
    use super::*;
    use crate::cutter::cut;
    use crate::message::{COMMAND, COMMAND_DONE, INDICATE_STATUS};

    fn header(message_type: u32, transaction: u32) -> Header {
        Header { message_type, transaction, service: [3; 16], cid: 11, word: 1 }
    }

    fn pieces(header: &Header, size: usize, information: &[u8]) -> Vec<Vec<u8>> {
        let mut out = [0; 20000];
        let (count, length) = cut(header, size, information, &mut out).unwrap();
        let mut rest = &out[..length];
        let mut pieces = Vec::new();
        for _ in 0..count {
            let end = u32::from_le_bytes([rest[4], rest[5], rest[6], rest[7]]) as usize;
            pieces.push(rest[..end].to_vec());
            rest = &rest[end..];
        }
        assert!(rest.is_empty());
        pieces
    }

    fn counted(length: usize) -> Vec<u8> {
        (0..length).map(|place| (place % 251) as u8 + 1).collect()
    }

    fn with(piece: &[u8], place: usize, value: u8) -> Vec<u8> {
        let mut piece = piece.to_vec();
        piece[place] = value;
        piece
    }

    fn is_empty(assembler: &Assembler) -> bool {
        *assembler == Assembler::new()
    }

    #[test]
    fn what_is_cut_comes_together() {
        for length in [0, 1, 15, 16, 17, 60, 61, 100, 4095, 4096] {
            for size in [64, 65, 100, 4096] {
                let information = counted(length);
                let mut assembler = Assembler::new();
                let mut out = [0xEE; 4100];
                let mut answer = Answer::Pending { dropped: false };
                for piece in pieces(&header(COMMAND, 7), size, &information) {
                    assert_eq!(answer, Answer::Pending { dropped: false });
                    answer = assembler.feed(&piece, &mut out);
                }
                let header = header(COMMAND, 7);
                assert_eq!(answer, Answer::Complete { header, length, dropped: false });
                assert_eq!(out[..length], information[..]);
                assert!(out[length..].iter().all(|byte| *byte == 0xEE));
                assert!(is_empty(&assembler));
            }
        }
    }

    #[test]
    fn strays_are_4_at_16_and_empty_the_assembly() {
        let good = pieces(&header(COMMAND_DONE, 7), 64, &counted(100));
        let changes = [(0, 0x07), (8, 8), (12, 4), (16, 2)];
        for (place, value) in changes {
            let mut assembler = Assembler::new();
            assembler.feed(&good[0], &mut []);
            let stray = with(&good[1], place, value);
            let answer = assembler.feed(&stray, &mut []);
            assert_eq!(answer, Answer::Refused(Refusal::new(4, 16)));
            assert!(is_empty(&assembler));
        }
        let mut assembler = Assembler::new();
        let answer = assembler.feed(&good[1], &mut []);
        assert_eq!(answer, Answer::Refused(Refusal::new(4, 16)));
    }

    #[test]
    fn any_refused_piece_empties_the_assembly() {
        let good = pieces(&header(COMMAND, 7), 64, &counted(100));
        for bad in [vec![], vec![0; 16], good[1][..63].to_vec(), with(&good[0], 40, 2)] {
            let mut assembler = Assembler::new();
            assembler.feed(&good[0], &mut []);
            assert!(!is_empty(&assembler));
            assert!(matches!(assembler.feed(&bad, &mut []), Answer::Refused(_)));
            assert!(is_empty(&assembler));
        }
    }

    #[test]
    fn a_first_fragment_begins_anew() {
        let good = pieces(&header(COMMAND, 7), 64, &counted(100));
        let one = pieces(&header(INDICATE_STATUS, 0), 64, &[9]);
        let mut assembler = Assembler::new();
        let mut out = [0; 100];
        assembler.feed(&good[0], &mut out);
        assembler.feed(&good[1], &mut out);
        let answer = assembler.feed(&good[0], &mut out);
        assert_eq!(answer, Answer::Pending { dropped: true });
        assert!(assembler.bytes()[16..].iter().all(|byte| *byte == 0));
        let answer = assembler.feed(&one[0], &mut out);
        assert!(matches!(answer, Answer::Complete { length: 1, dropped: true, .. }));
        assert!(is_empty(&assembler));
    }

    #[test]
    fn gathered_bytes_go_with_the_declared() {
        let good = pieces(&header(COMMAND, 7), 64, &counted(100));
        for (declared, at) in [(59, 1), (99, 2), (101, 2)] {
            let mut assembler = Assembler::new();
            let first = with(&good[0], 44, declared);
            assembler.feed(&first, &mut []);
            for piece in &good[1..at] {
                assert!(matches!(assembler.feed(piece, &mut []), Answer::Pending { .. }));
            }
            let answer = assembler.feed(&good[at], &mut []);
            assert_eq!(answer, Answer::Refused(Refusal::new(2, 4)));
            assert!(is_empty(&assembler));
        }
    }

    #[test]
    fn small_output_is_11_at_completion() {
        let good = pieces(&header(COMMAND, 7), 64, &counted(100));
        let mut assembler = Assembler::new();
        let mut out = [0xEE; 99];
        assembler.feed(&good[0], &mut out);
        assembler.feed(&good[1], &mut out);
        let answer = assembler.feed(&good[2], &mut out);
        assert_eq!(answer, Answer::Refused(Refusal::new(11, 100)));
        assert!(is_empty(&assembler));
        assert_eq!(out, [0xEE; 99]);
    }
}
