//! Readings of RSRP and SNR codes in dBm and dB, and bars from RSSI.
//! The floats are exact.

use crate::refusal::{Refusal, OUTSIDE_TABLE};
use crate::signal_state::{RSRP_UNKNOWN, RSSI_MAX, RSSI_UNKNOWN, SNR_UNKNOWN};

/// A reading: the lower edge of the code's step.
#[derive(Clone, Copy, Debug, PartialEq)]
pub enum Reading {
    Dbm(f32),
    Db(f32),
    /// Below the range, whose lowest edge is given.
    BelowRange(f32),
    Unknown,
}

/// Lowest edge of the RSRP range.
pub const RSRP_EDGE: f32 = -156.0;
/// Lowest edge of the SNR range.
pub const SNR_EDGE: f32 = -23.0;

/// Least RSSI and its bars, highest first.
const BARS: [(u32, u32); 5] = [(17, 5), (12, 4), (7, 3), (4, 2), (2, 1)];

const OUTSIDE: Refusal = Refusal::new(OUTSIDE_TABLE, 0);

/// Code 1 to 126 is code - 157 dBm.
#[inline]
pub fn rsrp(code: u32) -> Result<Reading, Refusal> {
    match code {
        0 => Ok(Reading::BelowRange(RSRP_EDGE)),
        1..RSRP_UNKNOWN => Ok(Reading::Dbm(code as f32 - 157.0)),
        RSRP_UNKNOWN => Ok(Reading::Unknown),
        _ => Err(OUTSIDE),
    }
}

/// Code 1 to 127 is (code - 47) / 2 dB.
#[inline]
pub fn snr(code: u32) -> Result<Reading, Refusal> {
    match code {
        0 => Ok(Reading::BelowRange(SNR_EDGE)),
        1..SNR_UNKNOWN => Ok(Reading::Db((code as f32 - 47.0) / 2.0)),
        SNR_UNKNOWN => Ok(Reading::Unknown),
        _ => Err(OUTSIDE),
    }
}

/// Bars of an RSSI code; 99 gives no reading.
#[inline]
pub fn bars(rssi: u32) -> Result<Option<u32>, Refusal> {
    match rssi {
        0..=RSSI_MAX => {
            let row = BARS.iter().find(|(least, _)| rssi >= *least);
            Ok(Some(row.map_or(0, |(_, bars)| *bars)))
        }
        RSSI_UNKNOWN => Ok(None),
        _ => Err(OUTSIDE),
    }
}

#[cfg(test)]
mod tests {
    use super::*;

    #[test]
    fn the_worked_cases() {
        assert_eq!(rsrp(1), Ok(Reading::Dbm(-156.0)));
        assert_eq!(rsrp(126), Ok(Reading::Dbm(-31.0)));
        assert_eq!(snr(1), Ok(Reading::Db(-23.0)));
        assert_eq!(snr(127), Ok(Reading::Db(40.0)));
        assert_eq!(snr(2), Ok(Reading::Db(-22.5)));
    }

    #[test]
    fn ends_of_the_tables() {
        assert_eq!(rsrp(0), Ok(Reading::BelowRange(-156.0)));
        assert_eq!(snr(0), Ok(Reading::BelowRange(-23.0)));
        assert_eq!(rsrp(127), Ok(Reading::Unknown));
        assert_eq!(snr(128), Ok(Reading::Unknown));
        for code in [128, u32::MAX] {
            assert_eq!(rsrp(code), Err(Refusal::new(9, 0)));
            assert_eq!(snr(code.saturating_add(1)), Err(Refusal::new(9, 0)));
        }
    }

    #[test]
    fn twice_the_snr_is_a_whole_number() {
        for code in 1..=127u32 {
            let Ok(Reading::Db(value)) = snr(code) else { panic!("no reading") };
            assert_eq!(value * 2.0, (code as i32 - 47) as f32);
        }
    }

    #[test]
    fn bars_by_the_default_table() {
        let expected = [(0, 0), (1, 0), (2, 1), (3, 1), (4, 2), (6, 2), (7, 3), (11, 3)];
        for (rssi, bars_shown) in expected.into_iter().chain([(12, 4), (16, 4), (17, 5), (31, 5)]) {
            assert_eq!(bars(rssi), Ok(Some(bars_shown)));
        }
        assert_eq!(bars(99), Ok(None));
        for rssi in [32, 98, 100, u32::MAX] {
            assert_eq!(bars(rssi), Err(Refusal::new(9, 0)));
        }
    }
}
