//! Messages from a byte stream: it is fed chunks of any length, takes each piece by its length field and
//! passes it through the door. The bytes held of an unfinished piece have zeros behind them.

use crate::assembler::Assembler;
use crate::bytes::{put, word};
use crate::door::{self, Received};
use crate::message::{
    whole_length, FRAGMENT_HEADER, MAX_TRANSFER, MESSAGE_LENGTH, MESSAGE_TYPE, TRANSACTION,
};
use crate::refusal::{Refusal, LENGTH_DISAGREES, OUTPUT_TOO_SMALL};
use crate::MAX_INFORMATION;

/// The room that an output must have.
pub const ROOM: usize = MAX_INFORMATION;
/// Of a length field that ends a stream.
pub const LENGTH_FAULT: Refusal = Refusal::new(LENGTH_DISAGREES, MESSAGE_LENGTH);
/// How many bytes tell a piece's type and length.
pub(crate) const HEAD: usize = TRANSACTION;

/// What one call came to.
#[derive(Clone, Copy, Debug, PartialEq, Eq)]
pub struct Fed {
    /// What the piece brought; nothing while it is short.
    pub answer: Result<Option<Received>, Refusal>,
    /// How many bytes of the chunk were taken, refused or not.
    pub taken: usize,
    /// Whether the refusal is the one that ends the stream.
    pub ended: bool,
}

/// A stream. Its assembly may be fed by the door too.
#[derive(Clone, Debug, PartialEq, Eq)]
pub struct Stream {
    pub assembler: Assembler,
    front: Front,
    buffer: [u8; MAX_TRANSFER],
}

/// How many bytes are held, and whether a length field has ended the stream.
#[derive(Clone, Copy, Debug, PartialEq, Eq)]
pub(crate) struct Front {
    pub held: usize,
    pub ended: bool,
}

impl Default for Stream {
    fn default() -> Self {
        Self::new()
    }
}

impl Stream {
    pub const fn new() -> Self {
        let front = Front { held: 0, ended: false };
        Stream { assembler: Assembler::new(), front, buffer: [0; MAX_TRANSFER] }
    }

    /// How many bytes are held of an unfinished piece.
    #[inline]
    pub fn held(&self) -> usize {
        self.front.held
    }

    #[inline]
    pub fn has_ended(&self) -> bool {
        self.front.ended
    }

    /// The bytes held, then zeros.
    #[inline]
    pub fn bytes(&self) -> &[u8; MAX_TRANSFER] {
        &self.buffer
    }

    /// Empties all.
    pub fn reset(&mut self) {
        *self = Stream::new();
    }

    /// Takes bytes of a chunk up to the first answer.
    #[inline]
    pub fn feed(&mut self, chunk: &[u8], out: &mut [u8]) -> Fed {
        if out.len() < ROOM {
            return Fed::refused(Refusal::new(OUTPUT_TOO_SMALL, ROOM));
        }
        self.front.feed(&mut self.buffer, &mut self.assembler, chunk, out)
    }
}

impl Fed {
    /// A refusal that takes nothing and changes nothing.
    pub(crate) const fn refused(refusal: Refusal) -> Fed {
        Fed { answer: Err(refusal), taken: 0, ended: false }
    }

    const fn ended(taken: usize) -> Fed {
        Fed { answer: Err(LENGTH_FAULT), taken, ended: true }
    }
}

/// Where the pieces of a stream go: the door of an assembly, by value or in lent memory.
pub(crate) trait Assembly {
    fn receive(&mut self, piece: &[u8], out: &mut [u8]) -> Result<Received, Refusal>;
    fn empty(&mut self);
}

impl Assembly for Assembler {
    #[inline]
    fn receive(&mut self, piece: &[u8], out: &mut [u8]) -> Result<Received, Refusal> {
        door::receive(self, piece, out)
    }

    #[inline]
    fn empty(&mut self) {
        self.clear();
    }
}

impl Front {
    /// One call with enough room; the bytes held stand at the start of the buffer.
    #[inline]
    pub(crate) fn feed<A: Assembly + ?Sized>(
        &mut self,
        buffer: &mut [u8],
        assembly: &mut A,
        chunk: &[u8],
        out: &mut [u8],
    ) -> Fed {
        if self.ended {
            return Fed::ended(0);
        }
        match next(buffer.get(..self.held).unwrap_or_default(), chunk) {
            Next::Short => {
                put(buffer, self.held, chunk);
                self.held += chunk.len();
                Fed { answer: Ok(None), taken: chunk.len(), ended: false }
            }
            Next::Fault { is_whole } => {
                if !is_whole {
                    assembly.empty();
                }
                let taken = HEAD.saturating_sub(self.held);
                self.drop_bytes(buffer, self.held);
                self.ended = true;
                Fed::ended(taken)
            }
            Next::Piece { length } => {
                let taken = length.saturating_sub(self.held);
                let part = chunk.get(..taken).unwrap_or_default();
                let answer = self.pass(buffer, assembly, part, out);
                Fed { answer: answer.map(Some), taken, ended: false }
            }
        }
    }

    /// Passes the piece that this part of the chunk ends. Only one that was held goes through the buffer.
    #[inline]
    fn pass<A: Assembly + ?Sized>(
        &mut self,
        buffer: &mut [u8],
        assembly: &mut A,
        part: &[u8],
        out: &mut [u8],
    ) -> Result<Received, Refusal> {
        if self.held == 0 {
            return assembly.receive(part, out);
        }
        put(buffer, self.held, part);
        let length = self.held + part.len();
        let answer = assembly.receive(buffer.get(..length).unwrap_or_default(), out);
        self.drop_bytes(buffer, length);
        answer
    }

    /// Nothing is held any more, and zeros stand where so many bytes stood.
    #[inline]
    fn drop_bytes(&mut self, buffer: &mut [u8], count: usize) {
        buffer.get_mut(..count).unwrap_or_default().fill(0);
        self.held = 0;
    }
}

/// What stands next in a stream.
#[derive(Clone, Copy, Debug, PartialEq, Eq)]
pub(crate) enum Next {
    /// Less than a piece.
    Short,
    /// A length field that ends the stream.
    Fault { is_whole: bool },
    /// A piece of this length.
    Piece { length: usize },
}

/// What the bytes held and then the chunk begin with.
#[inline]
pub(crate) fn next(held: &[u8], chunk: &[u8]) -> Next {
    let mut head = [0; HEAD];
    for (place, byte) in head.iter_mut().zip(held.iter().chain(chunk)) {
        *place = *byte;
    }
    let count = held.len().saturating_add(chunk.len());
    if count < HEAD {
        return Next::Short;
    }
    let length = word(&head, MESSAGE_LENGTH) as usize;
    let own = whole_length(word(&head, MESSAGE_TYPE));
    let is_good = match own {
        Some(own) => length == own,
        None => (FRAGMENT_HEADER..=MAX_TRANSFER).contains(&length),
    };
    match is_good {
        false => Next::Fault { is_whole: own.is_some() },
        true if count < length => Next::Short,
        true => Next::Piece { length },
    }
}

#[cfg(test)]
mod tests {
    use super::*;
    use crate::cutter::cut;
    use crate::message::{Header, Whole, CLOSE, COMMAND, FUNCTION_ERROR, HOST_ERROR, OPEN};

    const UNKNOWN: u32 = 9;
    const KINDS: [u32; 6] = [OPEN, CLOSE, HOST_ERROR, FUNCTION_ERROR, COMMAND, UNKNOWN];

    /// A piece of this length, nothing but its type and the length field in it.
    fn piece(message_type: u32, length: u32) -> Vec<u8> {
        let mut piece = head(message_type, length);
        piece.resize(length as usize, 0);
        piece
    }

    fn head(message_type: u32, length: u32) -> Vec<u8> {
        [message_type, length].map(u32::to_le_bytes).concat()
    }

    /// Three fragments, of 64, 64 and 60 bytes.
    fn fragments() -> [Vec<u8>; 3] {
        let header =
            Header { message_type: COMMAND, transaction: 7, service: [3; 16], cid: 11, word: 1 };
        let mut out = [0; 188];
        assert_eq!(cut(&header, 64, &[5; 100], &mut out), Ok((3, 188)));
        [out[..64].to_vec(), out[64..128].to_vec(), out[128..].to_vec()]
    }

    type Answers = Vec<Result<Received, Refusal>>;

    /// The answers of the pieces one by one, and the assembly after them.
    fn one_by_one(pieces: &[Vec<u8>]) -> (Answers, Assembler) {
        let mut assembler = Assembler::new();
        let receive = |piece: &Vec<u8>| door::receive(&mut assembler, piece, &mut [0; ROOM]);
        (pieces.iter().map(receive).collect(), assembler)
    }

    /// Feeds chunks, each until all of it is taken or the stream has ended.
    fn feed_all<'a>(chunks: impl IntoIterator<Item = &'a [u8]>) -> (Answers, Stream) {
        let (mut stream, mut answers) = (Stream::new(), Vec::new());
        for mut chunk in chunks {
            while !stream.has_ended() {
                let fed = stream.feed(chunk, &mut [0; ROOM]);
                answers.extend(fed.answer.transpose());
                assert!(stream.bytes()[stream.held()..].iter().all(|byte| *byte == 0));
                assert_eq!(fed.ended, stream.has_ended());
                chunk = &chunk[fed.taken..];
                if chunk.is_empty() {
                    break;
                }
            }
        }
        (answers, stream)
    }

    /// Holds the stream cut in every way against one chunk of it.
    fn cut_everywhere(bytes: &[u8]) -> (Answers, Stream) {
        let uncut = feed_all([bytes]);
        for size in 1..=bytes.len() {
            assert_eq!(feed_all(bytes.chunks(size)), uncut);
        }
        for first in 0..=bytes.len() {
            let (start, rest) = bytes.split_at(first);
            for second in (0..=rest.len()).step_by(5) {
                let (middle, end) = rest.split_at(second);
                assert_eq!(feed_all([start, &[], middle, end]), uncut);
            }
        }
        uncut
    }

    /// Good and refused pieces of each kind; the last message is complete.
    fn pieces() -> Vec<Vec<u8>> {
        let [first, second, third] = fragments();
        let [open, close] = [piece(OPEN, 16), piece(CLOSE, 12)];
        let unknown = piece(UNKNOWN, 20);
        vec![first.clone(), open, second.clone(), unknown, first, second, close, third]
    }

    #[test]
    fn any_cuts_give_the_answers_of_the_pieces() {
        let expected = one_by_one(&pieces());
        assert!(matches!(expected.0[7], Ok(Received::Complete { length: 100, .. })));
        let (answers, stream) = cut_everywhere(&pieces().concat());
        assert_eq!((answers, stream.assembler), expected);
        assert_eq!((stream.front.held, stream.buffer), (0, [0; 4096]));
    }

    #[test]
    fn what_is_left_of_a_piece_is_held() {
        let pieces = pieces();
        let (answers, assembler) = one_by_one(&pieces[..2]);
        for length in [1, 7, 8, 63] {
            let bytes = [&pieces[0][..], &pieces[1], &pieces[2][..length]].concat();
            let (answered, stream) = cut_everywhere(&bytes);
            assert_eq!((&answered, &stream.assembler), (&answers, &assembler));
            assert_eq!(stream.bytes()[..stream.held()], pieces[2][..length]);
        }
    }

    #[test]
    fn any_cuts_end_at_the_same_fault() {
        let [first, second, _] = fragments();
        for (message_type, length) in [(COMMAND, 19), (UNKNOWN, 4097), (OPEN, 20), (CLOSE, 16)] {
            let is_whole = whole_length(message_type).is_some();
            let fault = head(message_type, length);
            let (answers, stream) =
                cut_everywhere(&[&first[..], &second, &fault, &[7; 9]].concat());
            let (mut expected, pending) = one_by_one(&[first.clone(), second.clone()]);
            expected.push(Err(LENGTH_FAULT));
            assert_eq!(answers, expected);
            assert_eq!(stream.assembler, if is_whole { pending } else { Assembler::new() });
            assert_eq!((stream.front.held, stream.front.ended), (0, true));
        }
    }

    #[test]
    fn each_length_is_good_or_ends_the_stream_at_its_eighth_byte() {
        let lengths = [0, 11, 12, 13, 15, 16, 17, 19, 20, 21, 4095, 4096, 4097, u32::MAX];
        for (message_type, length) in KINDS.iter().flat_map(|kind| lengths.map(|l| (*kind, l))) {
            let is_good = match message_type {
                COMMAND | UNKNOWN => (20..=4096).contains(&length),
                CLOSE => length == 12,
                _ => length == 16,
            };
            for held in 0..8 {
                let bytes = head(message_type, length);
                let mut stream = Stream::new();
                let short = Fed { answer: Ok(None), taken: held, ended: false };
                assert_eq!(stream.feed(&bytes[..held], &mut [0; ROOM]), short);
                let rest = [&bytes[held..], &[7; 3]].concat();
                let fed = stream.feed(&rest, &mut [0; ROOM]);
                let taken = if is_good { 11 - held } else { 8 - held };
                let answer = if is_good { Ok(None) } else { Err(LENGTH_FAULT) };
                assert_eq!(fed, Fed { answer, taken, ended: !is_good }, "{message_type} {length}");
            }
        }
    }

    #[test]
    fn whole_messages_leave_the_assembly() {
        let mut stream = Stream::new();
        stream.feed(&fragments()[0], &mut [0; ROOM]);
        let pending = stream.clone();
        for message_type in [OPEN, CLOSE, HOST_ERROR, FUNCTION_ERROR] {
            let length = if message_type == CLOSE { 12 } else { 16 };
            let good = piece(message_type, length);
            let whole = Whole { message_type, transaction: 0, word: 0 };
            let answer = Ok(Some(Received::Whole(whole)));
            let fed = stream.feed(&good, &mut [0; ROOM]);
            assert_eq!(fed, Fed { answer, taken: length as usize, ended: false });
            assert_eq!(stream, pending);
            let mut ended = stream.clone();
            assert!(ended.feed(&head(message_type, 20), &mut [0; ROOM]).ended);
            assert_eq!(ended.assembler, pending.assembler);
        }
    }

    #[test]
    fn an_ended_stream_repeats_its_refusal_until_a_reset() {
        let mut stream = Stream::new();
        stream.feed(&fragments()[0], &mut [0; ROOM]);
        stream.feed(&head(CLOSE, 13), &mut [0; ROOM]);
        let before = stream.clone();
        for chunk in [&[][..], &[1], &piece(CLOSE, 12), &fragments()[1]] {
            assert_eq!(stream.feed(chunk, &mut [0; ROOM]), Fed::ended(0));
            assert_eq!(stream.feed(chunk, &mut [0; 4095]), Fed::refused(Refusal::new(11, 4096)));
            assert_eq!(stream, before);
        }
        stream.reset();
        assert_eq!(stream, Stream::new());
    }

    #[test]
    fn small_output_is_11_before_all_else() {
        let [first, second, _] = fragments();
        let mut stream = Stream::new();
        stream.feed(&[&first[..], &second[..10]].concat(), &mut [0; ROOM]);
        stream.feed(&second[..10], &mut [0; ROOM]);
        let before = stream.clone();
        for room in [0, 100, 4095] {
            for chunk in [&[][..], &second[10..], &piece(CLOSE, 13)] {
                let fed = stream.feed(chunk, &mut vec![0; room]);
                assert_eq!(fed, Fed::refused(Refusal::new(11, 4096)));
                assert_eq!(stream, before);
            }
        }
        let fed = stream.feed(&second[10..], &mut [0; 5000]);
        assert!(matches!(fed, Fed { answer: Ok(Some(Received::Pending { .. })), taken: 54, .. }));
    }

    #[test]
    fn the_longest_piece_is_held_up_to_its_last_byte() {
        let mut longest = piece(UNKNOWN, 4096);
        longest[4095] = 1;
        let mut stream = Stream::new();
        assert_eq!(stream.feed(&longest[..4095], &mut [0; ROOM]).taken, 4095);
        assert_eq!((stream.held(), &stream.bytes()[..4095]), (4095, &longest[..4095]));
        let fed = stream.feed(&[1, 2], &mut [0; ROOM]);
        assert_eq!(fed, Fed { answer: Err(Refusal::new(3, 0)), taken: 1, ended: false });
        assert_eq!(stream, Stream::new());
    }
}
