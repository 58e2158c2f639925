//! The cutter: cuts a message into fragments, one after another in one output.

use crate::bytes::{put, put_word};
use crate::message::{
    first_header_length, has_command_type, Header, CID, FRAGMENT_HEADER, INDICATE_STATUS,
    MAX_TRANSFER, MESSAGE_LENGTH, MESSAGE_TYPE, NUMBER, SERVICE, TOTAL, TRANSACTION, WORD,
};
use crate::refusal::{
    require, Refusal, INFORMATION_TOO_LONG, OUTPUT_TOO_SMALL, OUTSIDE_TABLE, TRANSFER_SIZE,
    UNKNOWN_KIND,
};
use crate::MAX_INFORMATION;

/// Smallest transfer size.
pub const MIN_TRANSFER: usize = 64;

/// Cuts a message and gives the count of fragments and the length of all.
/// The word of an indication is not used.
#[inline]
pub fn cut(
    header: &Header,
    size: usize,
    information: &[u8],
    out: &mut [u8],
) -> Result<(u32, usize), Refusal> {
    let head = judge(header, size, information)?;
    let (first, rest) = information.split_at(information.len().min(size - head));
    let room = size - FRAGMENT_HEADER;
    let total = 1 + rest.len().div_ceil(room);
    let length = head + information.len() + FRAGMENT_HEADER * (total - 1);
    let out = out.get_mut(..length).ok_or(Refusal::new(OUTPUT_TOO_SMALL, length))?;
    let (target, mut later) = out.split_at_mut(head + first.len());
    put_fragment(header, total, 0, first, head, target);
    put_first(header, information.len(), head, target);
    for (number, part) in rest.chunks(room).enumerate() {
        let (target, after) = later.split_at_mut(FRAGMENT_HEADER + part.len());
        put_fragment(header, total, number + 1, part, FRAGMENT_HEADER, target);
        later = after;
    }
    Ok((total as u32, length))
}

/// The transaction number after this one; 0 is for indications.
#[inline]
pub const fn next_transaction(transaction: u32) -> u32 {
    match transaction.wrapping_add(1) {
        0 => 1,
        next => next,
    }
}

/// 16, 3, 9 at 8, 9 at 40, 5; gives the length of the first header.
#[inline(always)]
fn judge(header: &Header, size: usize, information: &[u8]) -> Result<usize, Refusal> {
    require((MIN_TRANSFER..=MAX_TRANSFER).contains(&size), TRANSFER_SIZE, 0)?;
    let unknown = Refusal::new(UNKNOWN_KIND, MESSAGE_TYPE);
    let head = first_header_length(header.message_type).ok_or(unknown)?;
    let is_indication = header.message_type == INDICATE_STATUS;
    require((header.transaction == 0) == is_indication, OUTSIDE_TABLE, TRANSACTION)?;
    require(has_command_type(header), OUTSIDE_TABLE, WORD)?;
    require(information.len() <= MAX_INFORMATION, INFORMATION_TOO_LONG, 0)?;
    Ok(head)
}

#[inline(always)]
fn put_fragment(
    header: &Header,
    total: usize,
    number: usize,
    part: &[u8],
    head: usize,
    out: &mut [u8],
) {
    put_word(out, MESSAGE_TYPE, header.message_type);
    put_word(out, MESSAGE_LENGTH, out.len() as u32);
    put_word(out, TRANSACTION, header.transaction);
    put_word(out, TOTAL, total as u32);
    put_word(out, NUMBER, number as u32);
    put(out, head, part);
}

/// The rest of the first header; the information length is its last word.
#[inline(always)]
fn put_first(header: &Header, declared: usize, head: usize, out: &mut [u8]) {
    put(out, SERVICE, &header.service);
    put_word(out, CID, header.cid);
    if header.message_type != INDICATE_STATUS {
        put_word(out, WORD, header.word);
    }
    put_word(out, head - 4, declared as u32);
}

#[cfg(test)]
mod tests {
    use super::*;
    use crate::message::{COMMAND, COMMAND_DONE, OPEN};

    fn header(message_type: u32, transaction: u32, word: u32) -> Header {
        Header { message_type, transaction, service: [3; 16], cid: 11, word }
    }

    fn lengths(out: &[u8], count: u32) -> Vec<usize> {
        let mut place = 0;
        let mut lengths = Vec::new();
        for _ in 0..count {
            let length = crate::bytes::word(out, place + 4) as usize;
            lengths.push(length);
            place += length;
        }
        lengths
    }

    #[test]
    fn the_worked_case() {
        let mut out = [0xEE; 200];
        let answer = cut(&header(COMMAND, 1, 0), 64, &[5; 100], &mut out);
        assert_eq!(answer, Ok((3, 188)));
        assert_eq!(lengths(&out, 3), [64, 64, 60]);
        assert_eq!(out[188..], [0xEE; 12]);
        assert_eq!(out[12..20], [3, 0, 0, 0, 0, 0, 0, 0]);
        assert_eq!(out[44..48], [100, 0, 0, 0]);
        assert_eq!(out[128 + 12..128 + 20], [3, 0, 0, 0, 2, 0, 0, 0]);
    }

    #[test]
    fn an_indication_is_four_bytes_shorter() {
        let mut out = [0xEE; 200];
        assert_eq!(cut(&header(INDICATE_STATUS, 0, 77), 64, &[5; 20], &mut out), Ok((1, 64)));
        assert_eq!(out[40..44], [20, 0, 0, 0]);
        assert_eq!(cut(&header(INDICATE_STATUS, 0, 77), 64, &[5; 21], &mut out), Ok((2, 85)));
        assert_eq!(cut(&header(COMMAND_DONE, 1, 77), 64, &[], &mut out), Ok((1, 48)));
    }

    #[test]
    fn judged_16_3_9_9_5_11() {
        let long = [0; 4097];
        let mut out = [0xEE; 47];
        let mut cut = |header: Header, size, information| cut(&header, size, information, &mut out);
        assert_eq!(cut(header(OPEN, 0, 2), 63, &long), Err(Refusal::new(16, 0)));
        assert_eq!(cut(header(OPEN, 0, 2), 4097, &long), Err(Refusal::new(16, 0)));
        assert_eq!(cut(header(OPEN, 0, 2), 64, &long), Err(Refusal::new(3, 0)));
        assert_eq!(cut(header(COMMAND, 0, 2), 64, &long), Err(Refusal::new(9, 8)));
        assert_eq!(cut(header(COMMAND_DONE, 0, 2), 64, &long), Err(Refusal::new(9, 8)));
        assert_eq!(cut(header(INDICATE_STATUS, 1, 2), 64, &long), Err(Refusal::new(9, 8)));
        assert_eq!(cut(header(COMMAND, 1, 2), 64, &long), Err(Refusal::new(9, 40)));
        assert_eq!(cut(header(COMMAND_DONE, 1, 2), 64, &long), Err(Refusal::new(5, 0)));
        let needed = Refusal::new(11, 4096 + 48 + 93 * 20);
        assert_eq!(cut(header(COMMAND, 1, 1), 64, &long[1..]), Err(needed));
        assert_eq!(out, [0xEE; 47]);
    }

    #[test]
    fn transactions_wrap_to_one() {
        assert_eq!(next_transaction(0), 1);
        assert_eq!(next_transaction(1), 2);
        assert_eq!(next_transaction(u32::MAX - 1), u32::MAX);
        assert_eq!(next_transaction(u32::MAX), 1);
    }
}
