//! The door: any received piece, whole message or fragment.

use crate::assembler::{Answer, Assembler};
use crate::bytes::word;
use crate::message::{self, Header, Whole, MESSAGE_TYPE, TRANSACTION};
use crate::refusal::Refusal;

/// What a piece brought.
#[derive(Clone, Copy, Debug, PartialEq, Eq)]
pub enum Received {
    /// A whole message; the assembly is as it was.
    Whole(Whole),
    /// A fragment, and more is to come.
    Pending { message_type: u32, transaction: u32, dropped: bool },
    /// The last fragment; this many information bytes stand at the start of the output.
    Complete { header: Header, length: usize, dropped: bool },
}

/// Takes a piece. A refused whole message leaves the assembly as it was, any other
/// refused piece leaves it empty.
#[inline]
pub fn receive(
    assembler: &mut Assembler,
    piece: &[u8],
    out: &mut [u8],
) -> Result<Received, Refusal> {
    if is_whole(piece) {
        return message::whole(piece).map(Received::Whole);
    }
    match assembler.feed(piece, out) {
        Answer::Refused(refusal) => Err(refusal),
        Answer::Complete { header, length, dropped } => {
            Ok(Received::Complete { header, length, dropped })
        }
        Answer::Pending { dropped } => Ok(Received::Pending {
            message_type: word(piece, MESSAGE_TYPE),
            transaction: word(piece, TRANSACTION),
            dropped,
        }),
    }
}

/// Whether a piece has one of the six whole types. A shorter one than a type reads
/// as type 0, which is none of them.
#[inline]
pub(crate) fn is_whole(piece: &[u8]) -> bool {
    message::whole_length(word(piece, MESSAGE_TYPE)).is_some()
}

#[cfg(test)]
mod tests {
    use super::*;
    use crate::cutter::cut;
    use crate::message::{write_whole, CLOSE, COMMAND, FUNCTION_ERROR, HOST_ERROR, OPEN};

    const HEADER: Header =
        Header { message_type: COMMAND, transaction: 7, service: [3; 16], cid: 11, word: 1 };

    /// Two fragments, of 64 and of 44 bytes.
    fn pieces() -> [Vec<u8>; 2] {
        let mut out = [0; 108];
        assert_eq!(cut(&HEADER, 64, &[5; 40], &mut out), Ok((2, 108)));
        [out[..64].to_vec(), out[64..].to_vec()]
    }

    fn pending() -> Assembler {
        let mut assembler = Assembler::new();
        let answer = receive(&mut assembler, &pieces()[0], &mut []);
        let pending = Received::Pending { message_type: COMMAND, transaction: 7, dropped: false };
        assert_eq!(answer, Ok(pending));
        assembler
    }

    #[test]
    fn a_whole_message_leaves_what_is_pending() {
        for message_type in [OPEN, CLOSE, HOST_ERROR, FUNCTION_ERROR] {
            let whole = Whole { message_type, transaction: 9, word: 0 };
            let mut piece = [0; 16];
            let length = write_whole(&whole, &mut piece).unwrap();
            let mut assembler = pending();
            let answer = receive(&mut assembler, &piece[..length], &mut []);
            assert_eq!(answer, Ok(Received::Whole(whole)));
            assert_eq!(assembler, pending());
            for bad in [4, 11, length - 1] {
                let refusal = if bad < 12 { Refusal::new(1, bad) } else { Refusal::new(2, 4) };
                assert_eq!(receive(&mut assembler, &piece[..bad], &mut []), Err(refusal));
                assert_eq!(assembler, pending());
            }
            let answer = receive(&mut assembler, &pieces()[1], &mut [0; 40]);
            let complete = Received::Complete { header: HEADER, length: 40, dropped: false };
            assert_eq!(answer, Ok(complete));
        }
    }

    #[test]
    fn a_piece_without_a_type_empties_the_assembly() {
        for length in 0..4 {
            let mut assembler = pending();
            let answer = receive(&mut assembler, &[1, 0, 0, 0][..length], &mut []);
            assert_eq!(answer, Err(Refusal::new(1, length)));
            assert_eq!(assembler, Assembler::new());
        }
    }

    #[test]
    fn a_first_fragment_drops_what_is_pending() {
        let mut assembler = pending();
        let answer = receive(&mut assembler, &pieces()[0], &mut []);
        assert!(matches!(answer, Ok(Received::Pending { dropped: true, .. })));
    }
}
