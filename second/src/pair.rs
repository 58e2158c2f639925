//! A pair: offset and size of a range that a payload's field names.
//! The rules of a pair stand here once for texts and lists of every payload.

use crate::bytes::{padded, put, put_word, word};
use crate::refusal::{
    require, Refusal, BEYOND_PAYLOAD, OFFSET_IN_FIXED_PART, OFFSET_MISALIGNED,
    OFFSET_WITH_ZERO_SIZE, OUTSIDE_TABLE, SIZE_WRONG,
};

/// What a size of 0 is beside an offset that isn't 0. Beside offset 0 the range is absent
/// either way.
#[derive(Clone, Copy, Debug, Default, PartialEq, Eq)]
pub enum ZeroSize {
    /// The range is absent, whatever the offset.
    #[default]
    Absent,
    /// A fault: 18.
    Strict,
}

impl ZeroSize {
    /// The choice of a number: 9 at 0 when it has none.
    #[inline]
    pub fn from_number(number: u32) -> Result<ZeroSize, Refusal> {
        match number {
            0 => Ok(ZeroSize::Absent),
            1 => Ok(ZeroSize::Strict),
            _ => Err(Refusal::new(OUTSIDE_TABLE, 0)),
        }
    }
}

/// A range of the payload, measured from the payload's start.
#[derive(Clone, Copy, Debug, Default, PartialEq, Eq)]
pub struct Range {
    pub offset: u32,
    pub size: u32,
}

impl Range {
    /// The pair that stands at this field.
    #[inline(always)]
    pub fn at(payload: &[u8], field: usize) -> Range {
        Range { offset: word(payload, field), size: word(payload, field + 4) }
    }

    /// The range as it is shown once it is judged: (0, 0) where it is absent.
    #[inline(always)]
    pub fn shown(self) -> Range {
        let offset = if self.size == 0 { 0 } else { self.offset };
        Range { offset, ..self }
    }

    /// The bytes of the range; empty when it lies outside.
    #[inline]
    pub fn of<'a>(&self, payload: &'a [u8]) -> &'a [u8] {
        let rest = payload.get(self.offset as usize..).unwrap_or_default();
        rest.get(..self.size as usize).unwrap_or_default()
    }
}

/// What a pair is judged by: the payload's fixed part and whole length.
#[derive(Clone, Copy)]
pub struct Bounds {
    pub fixed: usize,
    pub length: usize,
}

/// A text: limit and odd size, then the offset's rules.
#[inline(always)]
pub fn judge_text(
    pair: Range,
    field: usize,
    limit: u32,
    zero_size: ZeroSize,
    bounds: Bounds,
) -> Result<(), Refusal> {
    require(pair.size <= limit && pair.size.is_multiple_of(2), SIZE_WRONG, field)?;
    judge_offset(pair, field, zero_size, bounds)
}

/// A list: limit, then the offset's rules. The list itself is judged after it.
#[inline(always)]
pub fn judge_list(
    pair: Range,
    field: usize,
    limit: u32,
    zero_size: ZeroSize,
    bounds: Bounds,
) -> Result<(), Refusal> {
    require(pair.size <= limit, SIZE_WRONG, field)?;
    judge_offset(pair, field, zero_size, bounds)
}

/// The offset's rules: zero size, fixed part, alignment, and the range's end.
#[inline(always)]
fn judge_offset(
    pair: Range,
    field: usize,
    zero_size: ZeroSize,
    bounds: Bounds,
) -> Result<(), Refusal> {
    if pair.size == 0 {
        let is_absent = pair.offset == 0 || zero_size == ZeroSize::Absent;
        return require(is_absent, OFFSET_WITH_ZERO_SIZE, field);
    }
    let offset = u64::from(pair.offset);
    require(offset >= bounds.fixed as u64, OFFSET_IN_FIXED_PART, field)?;
    require(offset.is_multiple_of(4), OFFSET_MISALIGNED, field)?;
    let end = offset + u64::from(pair.size);
    require(end <= bounds.length as u64, BEYOND_PAYLOAD, field)
}

/// The pair of a text laid at this length, and the length after it.
/// A size above 32 bits stays above every limit.
#[inline(always)]
pub fn lay(text: &[u8], length: &mut usize) -> Range {
    if text.is_empty() {
        return Range { offset: 0, size: 0 };
    }
    let offset = u32::try_from(*length).unwrap_or(u32::MAX);
    let size = u32::try_from(text.len()).unwrap_or(u32::MAX);
    *length = length.saturating_add(padded(text.len()));
    Range { offset, size }
}

#[inline(always)]
pub fn put_pair(pair: Range, field: usize, out: &mut [u8]) {
    put_word(out, field, pair.offset);
    put_word(out, field + 4, pair.size);
}

/// The text and zeros up to a multiple of 4.
#[inline(always)]
pub fn put_text(text: &[u8], pair: Range, out: &mut [u8]) {
    let start = pair.offset as usize;
    let end = start + text.len();
    put(out, start, text);
    put(out, end, &[0; 3][..padded(text.len()) - text.len()]);
}

#[cfg(test)]
mod tests {
    use super::*;

    const BOUNDS: Bounds = Bounds { fixed: 52, length: 64 };
    const CHOICES: [ZeroSize; 2] = [ZeroSize::Absent, ZeroSize::Strict];

    fn judged(offset: u32, size: u32, zero_size: ZeroSize) -> Result<Range, Refusal> {
        let pair = Range { offset, size };
        judge_text(pair, 20, 12, zero_size, BOUNDS).map(|()| pair.shown())
    }

    /// The same by either choice: the number of the refusal, or 0 where the pair is shown as it is.
    fn text(offset: u32, size: u32) -> u32 {
        let [absent, strict] = CHOICES.map(|zero_size| judged(offset, size, zero_size));
        assert_eq!(absent, strict);
        match absent {
            Ok(shown) => {
                assert_eq!(shown, Range { offset, size });
                0
            }
            Err(refusal) => {
                assert_eq!(refusal.place, 20);
                refusal.number
            }
        }
    }

    #[test]
    fn two_numbers_are_choices() {
        assert_eq!(ZeroSize::from_number(0), Ok(ZeroSize::default()));
        assert_eq!(ZeroSize::default(), ZeroSize::Absent);
        assert_eq!(ZeroSize::from_number(1), Ok(ZeroSize::Strict));
        for number in [2, 3, 255, 256, 257, 0x1_0000, 0x8000_0000, u32::MAX] {
            assert_eq!(ZeroSize::from_number(number), Err(Refusal::new(9, 0)));
        }
    }

    #[test]
    fn offset_and_size_are_whole_numbers() {
        assert_eq!(text(0xFFFF_FFFC, 8), 7);
    }

    #[test]
    fn size_zero_beside_an_offset_is_absent_or_18() {
        let absent = Ok(Range { offset: 0, size: 0 });
        for offset in [1, 3, 4, 48, 51, 52, 53, 64, 4096, 0xFFFF_FFFC, u32::MAX] {
            assert_eq!(judged(offset, 0, ZeroSize::Absent), absent);
            assert_eq!(judged(offset, 0, ZeroSize::Strict), Err(Refusal::new(18, 20)));
        }
        assert_eq!(text(0, 0), 0);
    }

    #[test]
    fn the_fixed_part_comes_before_alignment() {
        for offset in [0, 5, 48, 51] {
            assert_eq!(text(offset, 10), 6);
        }
        for offset in [53, 54, 55] {
            assert_eq!(text(offset, 2), 17);
        }
    }

    #[test]
    fn size_comes_before_offset_and_offset_before_end() {
        assert_eq!(text(1, 13), 8);
        assert_eq!(text(52, 14), 8);
        assert_eq!(text(53, 13), 8);
        assert_eq!(text(48, 10), 6);
        assert_eq!(text(53, 10), 17);
        assert_eq!(text(57, 10), 17);
        assert_eq!(text(0xFFFF_FFFF, 10), 17);
        assert_eq!(text(56, 10), 7);
        assert_eq!(text(52, 12), 0);
    }

    #[test]
    fn odd_is_for_texts_only() {
        let odd = Range { offset: 52, size: 11 };
        for zero_size in CHOICES {
            assert_eq!(judge_list(odd, 20, 12, zero_size, BOUNDS), Ok(()));
        }
        assert_eq!(text(52, 11), 8);
    }

    #[test]
    fn a_range_outside_shows_no_bytes() {
        assert_eq!(Range { offset: 2, size: 2 }.of(&[1, 2, 3, 4]), &[3, 4]);
        assert!(Range { offset: 3, size: 2 }.of(&[1, 2, 3, 4]).is_empty());
    }
}
