//! A refusal: a number and a place, and nothing else. The numbers are those of the scope's
//! table and of the change requests.

/// Fewer bytes than the header or fixed part.
pub const TOO_SHORT: u32 = 1;
/// A length disagrees.
pub const LENGTH_DISAGREES: u32 = 2;
/// Unknown message type, service or CID.
pub const UNKNOWN_KIND: u32 = 3;
/// Fragment total or number wrong.
pub const FRAGMENT_WRONG: u32 = 4;
/// Over 4,096 information bytes.
pub const INFORMATION_TOO_LONG: u32 = 5;
/// Offset in the fixed part.
pub const OFFSET_IN_FIXED_PART: u32 = 6;
/// Offset plus size beyond the payload.
pub const BEYOND_PAYLOAD: u32 = 7;
/// Size over its limit, odd for text, or unfit for its list.
pub const SIZE_WRONG: u32 = 8;
/// Number or bit outside its table.
pub const OUTSIDE_TABLE: u32 = 9;
/// Fields contradict.
pub const FIELDS_CONTRADICT: u32 = 10;
/// Output too small.
pub const OUTPUT_TOO_SMALL: u32 = 11;
/// A version number outside its table, or advertised above native.
pub const VERSION_OUTSIDE_TABLE: u32 = 12;
/// Announced version above the host's.
pub const ABOVE_HOST: u32 = 13;
/// 2.00 advertised, VERSION not listed.
pub const VERSION_NOT_LISTED: u32 = 14;
/// List count over its limit.
pub const COUNT_OVER_LIMIT: u32 = 15;
/// Transfer size outside 64 to 4,096.
pub const TRANSFER_SIZE: u32 = 16;
/// Offset not a multiple of 4.
pub const OFFSET_MISALIGNED: u32 = 17;
/// Offset not 0 with size 0.
pub const OFFSET_WITH_ZERO_SIZE: u32 = 18;
/// A line of a trace without the form of one; its place is a column.
pub const BAD_LINE: u32 = 19;

/// A refusal: the number of its rule and a byte offset, in a line a column.
#[derive(Clone, Copy, Debug, PartialEq, Eq)]
pub struct Refusal {
    pub number: u32,
    pub place: usize,
}

impl Refusal {
    #[inline]
    pub const fn new(number: u32, place: usize) -> Self {
        Refusal { number, place }
    }
}

/// Refuses with this number and place unless the rule holds.
#[inline(always)]
pub(crate) fn require(holds: bool, number: u32, place: usize) -> Result<(), Refusal> {
    if holds {
        Ok(())
    } else {
        Err(Refusal { number, place })
    }
}

#[cfg(test)]
mod tests {
    use super::*;

    #[test]
    fn a_rule_that_holds_refuses_nothing() {
        assert_eq!(require(true, TOO_SHORT, 7), Ok(()));
        assert_eq!(require(false, TOO_SHORT, 7), Err(Refusal::new(1, 7)));
    }
}
