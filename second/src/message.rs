//! Messages and single fragments, each judged by itself.
//! What a fragment means beside an unfinished message is the assembler's part.

use crate::bytes::{put_word, service, word};
use crate::refusal::{
    require, Refusal, FRAGMENT_WRONG, INFORMATION_TOO_LONG, LENGTH_DISAGREES, OUTPUT_TOO_SMALL,
    OUTSIDE_TABLE, TOO_SHORT, TRANSFER_SIZE, UNKNOWN_KIND,
};
use crate::{ServiceId, MAX_INFORMATION};

pub const OPEN: u32 = 1;
pub const CLOSE: u32 = 2;
pub const COMMAND: u32 = 3;
pub const HOST_ERROR: u32 = 4;
pub const OPEN_DONE: u32 = 0x8000_0001;
pub const CLOSE_DONE: u32 = 0x8000_0002;
pub const COMMAND_DONE: u32 = 0x8000_0003;
pub const FUNCTION_ERROR: u32 = 0x8000_0004;
pub const INDICATE_STATUS: u32 = 0x8000_0007;

/// Command types.
pub const QUERY: u32 = 0;
pub const SET: u32 = 1;

/// Statuses: MBIM_STATUS_SUCCESS, MBIM_STATUS_FAILURE, MBIM_STATUS_NO_DEVICE_SUPPORT.
pub const STATUS_SUCCESS: u32 = 0;
pub const STATUS_FAILURE: u32 = 2;
pub const STATUS_NO_DEVICE_SUPPORT: u32 = 9;

/// Longest fragment.
pub const MAX_TRANSFER: usize = 4096;
/// Most fragments of a message.
pub const MAX_TOTAL: u32 = 128;
/// Header of every message.
pub const MESSAGE_HEADER: usize = 12;
/// Header of every fragment; a later one has its information from here.
pub const FRAGMENT_HEADER: usize = 20;

pub(crate) const MESSAGE_TYPE: usize = 0;
pub(crate) const MESSAGE_LENGTH: usize = 4;
pub(crate) const TRANSACTION: usize = 8;
pub(crate) const TOTAL: usize = 12;
pub(crate) const NUMBER: usize = 16;
pub(crate) const SERVICE: usize = 20;
pub(crate) const CID: usize = 36;
/// Command type or status; an indication has its information length here.
pub(crate) const WORD: usize = 40;
const WHOLE_WORD: usize = 12;

/// A whole message. The word is OPEN's transfer size, a DONE's status or an
/// error's code; CLOSE has none and shows 0.
#[derive(Clone, Copy, Debug, PartialEq, Eq)]
pub struct Whole {
    pub message_type: u32,
    pub transaction: u32,
    pub word: u32,
}

/// What the first fragment says of its message. The word is the command type
/// of a COMMAND, the status of a DONE, and 0 for an indication, which has none.
#[derive(Clone, Copy, Debug, PartialEq, Eq)]
pub struct Header {
    pub message_type: u32,
    pub transaction: u32,
    pub service: ServiceId,
    pub cid: u32,
    pub word: u32,
}

/// Header and declared information length of a first fragment.
#[derive(Clone, Copy, Debug, PartialEq, Eq)]
pub struct First {
    pub header: Header,
    pub information_length: usize,
}

/// One fragment; `first` is there exactly if its number is 0.
#[derive(Clone, Copy, Debug, PartialEq, Eq)]
pub struct Fragment<'a> {
    pub message_type: u32,
    pub transaction: u32,
    pub total: u32,
    pub number: u32,
    pub first: Option<First>,
    pub information: &'a [u8],
}

/// Judges a whole message.
#[inline]
pub fn whole(bytes: &[u8]) -> Result<Whole, Refusal> {
    require(bytes.len() >= MESSAGE_HEADER, TOO_SHORT, bytes.len())?;
    judge_message_length(bytes)?;
    let message_type = word(bytes, MESSAGE_TYPE);
    let unknown = Refusal::new(UNKNOWN_KIND, MESSAGE_TYPE);
    let length = whole_length(message_type).ok_or(unknown)?;
    require(bytes.len() == length, LENGTH_DISAGREES, MESSAGE_LENGTH)?;
    // A CLOSE ends before the word, and what is not there reads as 0.
    let (transaction, word) = (word(bytes, TRANSACTION), word(bytes, WHOLE_WORD));
    Ok(Whole { message_type, transaction, word })
}

/// Writes a whole message and gives its length: 3, then 11. A CLOSE has no room
/// for its word.
#[inline]
pub fn write_whole(whole: &Whole, out: &mut [u8]) -> Result<usize, Refusal> {
    let unknown = Refusal::new(UNKNOWN_KIND, MESSAGE_TYPE);
    let length = whole_length(whole.message_type).ok_or(unknown)?;
    let out = out.get_mut(..length).ok_or(Refusal::new(OUTPUT_TOO_SMALL, length))?;
    put_word(out, MESSAGE_TYPE, whole.message_type);
    put_word(out, MESSAGE_LENGTH, length as u32);
    put_word(out, TRANSACTION, whole.transaction);
    put_word(out, WHOLE_WORD, whole.word);
    Ok(length)
}

/// Judges one fragment by itself.
#[inline]
pub fn fragment(piece: &[u8]) -> Result<Fragment<'_>, Refusal> {
    require(piece.len() >= FRAGMENT_HEADER, TOO_SHORT, piece.len())?;
    judge_message_length(piece)?;
    require(piece.len() <= MAX_TRANSFER, TRANSFER_SIZE, MESSAGE_LENGTH)?;
    let message_type = word(piece, MESSAGE_TYPE);
    let unknown = Refusal::new(UNKNOWN_KIND, MESSAGE_TYPE);
    let head = first_header_length(message_type).ok_or(unknown)?;
    let total = word(piece, TOTAL);
    require((1..=MAX_TOTAL).contains(&total), FRAGMENT_WRONG, TOTAL)?;
    let number = word(piece, NUMBER);
    require(number < total, FRAGMENT_WRONG, NUMBER)?;
    let first = if number == 0 { Some(first_header(piece, head, total)?) } else { None };
    let from = if number == 0 { head } else { FRAGMENT_HEADER };
    Ok(Fragment {
        message_type,
        transaction: word(piece, TRANSACTION),
        total,
        number,
        first,
        information: piece.get(from..).unwrap_or_default(),
    })
}

/// Length of the first fragment's header; only fragmented types have one.
#[inline]
pub const fn first_header_length(message_type: u32) -> Option<usize> {
    match message_type {
        COMMAND | COMMAND_DONE => Some(48),
        INDICATE_STATUS => Some(44),
        _ => None,
    }
}

/// Only the six whole types have a length.
#[inline]
pub(crate) const fn whole_length(message_type: u32) -> Option<usize> {
    match message_type {
        CLOSE => Some(12),
        OPEN | HOST_ERROR | OPEN_DONE | CLOSE_DONE | FUNCTION_ERROR => Some(16),
        _ => None,
    }
}

#[inline(always)]
fn judge_message_length(bytes: &[u8]) -> Result<(), Refusal> {
    let agrees = word(bytes, MESSAGE_LENGTH) as usize == bytes.len();
    require(agrees, LENGTH_DISAGREES, MESSAGE_LENGTH)
}

/// The header of a first fragment; the information length is its last word.
#[inline(always)]
fn first_header(piece: &[u8], head: usize, total: u32) -> Result<First, Refusal> {
    require(piece.len() >= head, TOO_SHORT, piece.len())?;
    let message_type = word(piece, MESSAGE_TYPE);
    let has_word = message_type != INDICATE_STATUS;
    let header = Header {
        message_type,
        transaction: word(piece, TRANSACTION),
        service: service(piece, SERVICE),
        cid: word(piece, CID),
        word: if has_word { word(piece, WORD) } else { 0 },
    };
    require(has_command_type(&header), OUTSIDE_TABLE, WORD)?;
    let field = head - 4;
    let declared = word(piece, field) as usize;
    require(declared <= MAX_INFORMATION, INFORMATION_TOO_LONG, field)?;
    let carried = piece.len() - head;
    let fits = carried <= declared && (total > 1 || carried == declared);
    require(fits, LENGTH_DISAGREES, field)?;
    Ok(First { header, information_length: declared })
}

/// A COMMAND's type is query or set; other messages have none.
#[inline(always)]
pub(crate) fn has_command_type(header: &Header) -> bool {
    header.message_type != COMMAND || header.word <= SET
}

#[cfg(test)]
mod tests {
    use super::*;

    fn bytes(words: &[u32]) -> Vec<u8> {
        words.iter().flat_map(|word| word.to_le_bytes()).collect()
    }

    fn first(message_type: u32, total: u32, word: u32, declared: u32, carried: usize) -> Vec<u8> {
        let mut words = vec![message_type, 0, 5, total, 0, 1, 1, 1, 1, 16, word, declared];
        if message_type == INDICATE_STATUS {
            words.remove(10);
        }
        let mut piece = bytes(&words);
        piece.resize(piece.len() + carried, 0xAB);
        let length = piece.len() as u32;
        piece[4..8].copy_from_slice(&length.to_le_bytes());
        piece
    }

    #[test]
    fn whole_messages_have_exact_lengths() {
        for message_type in [1, 4, 0x8000_0001, 0x8000_0002, 0x8000_0004] {
            let shown = whole(&bytes(&[message_type, 16, 9, 4096])).unwrap();
            assert_eq!((shown.transaction, shown.word), (9, 4096));
            let short = bytes(&[message_type, 12, 9]);
            assert_eq!(whole(&short), Err(Refusal::new(2, 4)));
        }
        assert_eq!(whole(&bytes(&[2, 12, 9])).unwrap().word, 0);
        assert_eq!(whole(&bytes(&[2, 16, 9, 0])), Err(Refusal::new(2, 4)));
    }

    #[test]
    fn whole_messages_are_judged_1_2_3_2() {
        assert_eq!(whole(&[]), Err(Refusal::new(1, 0)));
        assert_eq!(whole(&[0xFF; 11]), Err(Refusal::new(1, 11)));
        assert_eq!(whole(&bytes(&[9, 13, 0])), Err(Refusal::new(2, 4)));
        assert_eq!(whole(&bytes(&[9, 12, 0])), Err(Refusal::new(3, 0)));
        assert_eq!(whole(&bytes(&[COMMAND, 12, 0])), Err(Refusal::new(3, 0)));
    }

    #[test]
    fn what_is_written_is_judged_as_it_was() {
        for message_type in [OPEN, CLOSE, HOST_ERROR, OPEN_DONE, CLOSE_DONE, FUNCTION_ERROR] {
            let word = if message_type == CLOSE { 0 } else { u32::MAX };
            let given = Whole { message_type, transaction: 0, word };
            let mut out = [0xEE; 20];
            let length = write_whole(&given, &mut out).unwrap();
            assert_eq!(whole(&out[..length]), Ok(given));
            assert!(out[length..].iter().all(|byte| *byte == 0xEE));
            let small = &mut out[..length - 1];
            assert_eq!(write_whole(&given, small), Err(Refusal::new(11, length)));
        }
    }

    #[test]
    fn the_writer_knows_six_types_and_ignores_the_word_of_a_close() {
        for message_type in [0, COMMAND, 5, COMMAND_DONE, INDICATE_STATUS] {
            let given = Whole { message_type, transaction: 1, word: 1 };
            assert_eq!(write_whole(&given, &mut []), Err(Refusal::new(3, 0)));
        }
        let given = Whole { message_type: CLOSE, transaction: 7, word: 77 };
        let mut out = [0xEE; 16];
        assert_eq!(write_whole(&given, &mut out), Ok(12));
        assert_eq!(out[..12], bytes(&[2, 12, 7])[..]);
        assert_eq!(out[12..], [0xEE; 4]);
    }

    #[test]
    fn fragments_are_judged_1_2_16_3_4_4() {
        let later = |words: &[u32]| fragment(&bytes(words)).map(|_| ());
        assert_eq!(fragment(&[0xFF; 19]), Err(Refusal::new(1, 19)));
        assert_eq!(later(&[9, 21, 1, 0, 9]), Err(Refusal::new(2, 4)));
        assert_eq!(later(&[9, 20, 1, 0, 9]), Err(Refusal::new(3, 0)));
        assert_eq!(later(&[OPEN, 20, 1, 2, 1]), Err(Refusal::new(3, 0)));
        assert_eq!(later(&[3, 20, 1, 0, 9]), Err(Refusal::new(4, 12)));
        assert_eq!(later(&[3, 20, 1, 129, 1]), Err(Refusal::new(4, 12)));
        assert_eq!(later(&[3, 20, 1, 128, 128]), Err(Refusal::new(4, 16)));
        assert_eq!(later(&[3, 20, 1, 128, 127]), Ok(()));
        let mut long = vec![0xFF; 4097];
        long[4..8].copy_from_slice(&4097u32.to_le_bytes());
        assert_eq!(fragment(&long), Err(Refusal::new(16, 4)));
    }

    #[test]
    fn first_fragments_are_judged_1_9_5_2() {
        assert_eq!(fragment(&bytes(&[3, 20, 0, 1, 0])), Err(Refusal::new(1, 20)));
        let command = |word, declared, carried, total| {
            fragment(&first(COMMAND, total, word, declared, carried)).map(|_| ())
        };
        assert_eq!(command(2, 5000, 9, 1), Err(Refusal::new(9, 40)));
        assert_eq!(command(1, 4097, 9, 1), Err(Refusal::new(5, 44)));
        assert_eq!(command(1, 8, 9, 2), Err(Refusal::new(2, 44)));
        assert_eq!(command(1, 10, 9, 1), Err(Refusal::new(2, 44)));
        assert_eq!(command(1, 10, 9, 2), Ok(()));
        assert_eq!(command(1, 10, 10, 2), Ok(()));
        let indication = first(INDICATE_STATUS, 1, 0, 4097, 0);
        assert_eq!(fragment(&indication), Err(Refusal::new(5, 40)));
        let indication = first(INDICATE_STATUS, 1, 0, 3, 0);
        assert_eq!(fragment(&indication), Err(Refusal::new(2, 40)));
    }

    #[test]
    fn a_done_has_any_status_and_an_indication_no_word() {
        let done = first(COMMAND_DONE, 1, 77, 2, 2);
        let shown = fragment(&done).unwrap();
        assert_eq!(shown.first.unwrap().header.word, 77);
        assert_eq!(shown.information, &[0xAB; 2]);
        let indication = first(INDICATE_STATUS, 1, 0, 2, 2);
        let shown = fragment(&indication).unwrap();
        assert_eq!(shown.first.unwrap().header.word, 0);
        assert_eq!(shown.information, &[0xAB; 2]);
    }
}
