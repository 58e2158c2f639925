//! The VERSION payload: two BCD numbers, exactly 4 bytes.

use crate::bytes::half;
use crate::refusal::{
    require, Refusal, LENGTH_DISAGREES, OUTPUT_TOO_SMALL, TOO_SHORT, VERSION_OUTSIDE_TABLE,
};
use crate::version::{Version, MBIM};

/// Length of the payload.
pub const LENGTH: usize = 4;

const BCD_MBIM_VERSION: usize = 0;
const BCD_MBIM_EXTENDED_VERSION: usize = 2;

/// The extension version of a payload; the MBIM number has one value only.
#[inline]
pub fn read(payload: &[u8]) -> Result<Version, Refusal> {
    require(payload.len() >= LENGTH, TOO_SHORT, payload.len())?;
    require(payload.len() == LENGTH, LENGTH_DISAGREES, payload.len())?;
    judge(half(payload, BCD_MBIM_VERSION), half(payload, BCD_MBIM_EXTENDED_VERSION))
}

/// Writes both numbers: 12, then 11. Gives the length written.
#[inline]
pub fn write(
    bcd_mbim_version: u16,
    bcd_mbim_extended_version: u16,
    out: &mut [u8],
) -> Result<usize, Refusal> {
    let version = judge(bcd_mbim_version, bcd_mbim_extended_version)?;
    let too_small = Refusal::new(OUTPUT_TOO_SMALL, LENGTH);
    *out.first_chunk_mut::<LENGTH>().ok_or(too_small)? = bytes(version);
    Ok(LENGTH)
}

/// The payload that says this version.
#[inline]
pub fn bytes(version: Version) -> [u8; LENGTH] {
    let [a, b] = MBIM.to_le_bytes();
    let [c, d] = version.bcd().to_le_bytes();
    [a, b, c, d]
}

#[inline]
fn judge(mbim: u16, extension: u16) -> Result<Version, Refusal> {
    require(mbim == MBIM, VERSION_OUTSIDE_TABLE, BCD_MBIM_VERSION)?;
    Version::from_bcd(extension)
}

#[cfg(test)]
mod tests {
    use super::*;

    #[test]
    fn the_worked_case() {
        let mut out = [9; 6];
        assert_eq!(write(0x0100, 0x0200, &mut out), Ok(4));
        assert_eq!(out, [0, 1, 0, 2, 9, 9]);
        assert_eq!(read(&out[..4]), Ok(Version::V2));
        assert_eq!(read(&[0, 1, 0, 1]), Ok(Version::V1));
    }

    #[test]
    fn lengths_come_first() {
        assert_eq!(read(&[]), Err(Refusal::new(1, 0)));
        assert_eq!(read(&[1, 1, 1]), Err(Refusal::new(1, 3)));
        assert_eq!(read(&[1; 5]), Err(Refusal::new(2, 5)));
        assert_eq!(read(&[1; 5000]), Err(Refusal::new(2, 5000)));
    }

    #[test]
    fn numbers_outside_the_table_are_12_at_0() {
        assert_eq!(read(&[0, 2, 0, 2]), Err(Refusal::new(12, 0)));
        assert_eq!(read(&[0, 1, 0, 3]), Err(Refusal::new(12, 0)));
    }

    #[test]
    fn the_writer_judges_12_before_11() {
        let mut out = [9; 3];
        assert_eq!(write(0x0200, 0x0200, &mut out), Err(Refusal::new(12, 0)));
        assert_eq!(write(0x0100, 0, &mut out), Err(Refusal::new(12, 0)));
        assert_eq!(write(0x0100, 0x0100, &mut out), Err(Refusal::new(11, 4)));
        assert_eq!(out, [9; 3]);
    }
}
