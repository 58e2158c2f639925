//! The two versions and their BCD numbers.

use crate::refusal::{Refusal, VERSION_OUTSIDE_TABLE};

/// The only MBIM number.
pub const MBIM: u16 = 0x0100;
/// BCD number of version 1.00.
pub const BCD_V1: u16 = 0x0100;
/// BCD number of version 2.00.
pub const BCD_V2: u16 = 0x0200;

/// Version of the extensions; 1.00 is below 2.00.
#[derive(Clone, Copy, Debug, PartialEq, Eq, PartialOrd, Ord)]
pub enum Version {
    V1,
    V2,
}

impl Version {
    /// The version of a BCD number: 12 at 0 when it has none.
    #[inline]
    pub fn from_bcd(number: u16) -> Result<Version, Refusal> {
        match number {
            BCD_V1 => Ok(Version::V1),
            BCD_V2 => Ok(Version::V2),
            _ => Err(Refusal::new(VERSION_OUTSIDE_TABLE, 0)),
        }
    }

    #[inline]
    pub const fn bcd(self) -> u16 {
        match self {
            Version::V1 => BCD_V1,
            Version::V2 => BCD_V2,
        }
    }
}

#[cfg(test)]
mod tests {
    use super::*;

    #[test]
    fn two_numbers_and_no_others() {
        for number in 0..=u16::MAX {
            match Version::from_bcd(number) {
                Ok(version) => assert_eq!(version.bcd(), number),
                Err(refusal) => assert_eq!(refusal, Refusal::new(12, 0)),
            }
        }
        assert!(Version::V1 < Version::V2);
    }
}
