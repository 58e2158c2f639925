//! The numbers of a refusal, by name. `docs/refusals.md` has an example of each, and what usually
//! causes it.

macro_rules! numbers {
    ($($name:ident = $number:literal),+ $(,)?) => {
        $(pub const $name: u32 = $number;)+

        pub(crate) fn name(number: u32) -> &'static str {
            match number {
                $($name => stringify!($name),)+
                _ => "?",
            }
        }
    };
}

numbers! {
    NO_REFUSAL = 0,
    TOO_SHORT = 1,
    WRONG_LENGTH = 2,
    UNKNOWN = 3,
    WRONG_FRAGMENT = 4,
    TOO_LONG = 5,
    OFFSET_IN_FIXED_PART = 6,
    PAST_END = 7,
    WRONG_SIZE = 8,
    OUTSIDE_TABLE = 9,
    CONTRADICTION = 10,
    OUTPUT_TOO_SMALL = 11,
    WRONG_VERSION = 12,
    ABOVE_HOST = 13,
    VERSION_NOT_LISTED = 14,
    WRONG_COUNT = 15,
    WRONG_TRANSFER_SIZE = 16,
    MISALIGNED_OFFSET = 17,
    OFFSET_WITH_ZERO_SIZE = 18,
    BAD_LINE = 19,
}
