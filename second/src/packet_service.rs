//! The PACKET_SERVICE payload: numbers only, exactly 28 or 32 bytes.

use crate::bytes::{long, put_long, put_word, word};
use crate::data_class;
use crate::refusal::{
    require, Refusal, FIELDS_CONTRADICT, LENGTH_DISAGREES, OUTPUT_TOO_SMALL, OUTSIDE_TABLE,
    TOO_SHORT,
};
use crate::version::Version;

/// Length at 1.00.
pub const LENGTH_V1: usize = 28;
/// Length at 2.00.
pub const LENGTH_V2: usize = 32;

const NW_ERROR: usize = 0;
const PACKET_SERVICE_STATE: usize = 4;
const DATA_CLASS: usize = 8;
const UPLINK_SPEED: usize = 12;
const DOWNLINK_SPEED: usize = 20;
const FREQUENCY_RANGE: usize = 28;

const PACKET_SERVICE_STATE_MAX: u32 = 4;
const FREQUENCY_RANGE_MAX: u32 = 3;
const ATTACHED: u32 = 2;

/// The fields that only one form has.
#[derive(Clone, Copy, Debug, PartialEq, Eq)]
pub enum Form {
    V1 { highest_available_data_class: u32 },
    V2 { current_data_class: u32, frequency_range: u32 },
}

/// A packet service record.
#[derive(Clone, Copy, Debug, PartialEq, Eq)]
pub struct PacketService {
    pub nw_error: u32,
    pub packet_service_state: u32,
    pub uplink_speed: u64,
    pub downlink_speed: u64,
    pub form: Form,
}

/// Length of the payload.
#[inline]
pub const fn length(version: Version) -> usize {
    match version {
        Version::V1 => LENGTH_V1,
        Version::V2 => LENGTH_V2,
    }
}

/// Reads a payload in the form of this version.
#[inline]
pub fn read(version: Version, payload: &[u8]) -> Result<PacketService, Refusal> {
    require(payload.len() >= length(version), TOO_SHORT, payload.len())?;
    require(payload.len() == length(version), LENGTH_DISAGREES, payload.len())?;
    let class = word(payload, DATA_CLASS);
    let record = PacketService {
        nw_error: word(payload, NW_ERROR),
        packet_service_state: word(payload, PACKET_SERVICE_STATE),
        uplink_speed: long(payload, UPLINK_SPEED),
        downlink_speed: long(payload, DOWNLINK_SPEED),
        form: match version {
            Version::V1 => Form::V1 { highest_available_data_class: class },
            Version::V2 => Form::V2 {
                current_data_class: class,
                frequency_range: word(payload, FREQUENCY_RANGE),
            },
        },
    };
    judge(&record)?;
    Ok(record)
}

/// Writes a record and gives the length written: the reader's rules, then 11.
#[inline]
pub fn write(record: &PacketService, out: &mut [u8]) -> Result<usize, Refusal> {
    judge(record)?;
    let (version, class, frequency_range) = parts(record);
    let length = length(version);
    let room = out.get_mut(..length).ok_or(Refusal::new(OUTPUT_TOO_SMALL, length))?;
    put_word(room, NW_ERROR, record.nw_error);
    put_word(room, PACKET_SERVICE_STATE, record.packet_service_state);
    put_word(room, DATA_CLASS, class);
    put_long(room, UPLINK_SPEED, record.uplink_speed);
    put_long(room, DOWNLINK_SPEED, record.downlink_speed);
    put_word(room, FREQUENCY_RANGE, frequency_range);
    Ok(length)
}

/// The rules of the fields by place, then the contradictions of 2.00.
#[inline(always)]
fn judge(record: &PacketService) -> Result<(), Refusal> {
    let (version, class, frequency_range) = parts(record);
    let state = record.packet_service_state;
    require(state <= PACKET_SERVICE_STATE_MAX, OUTSIDE_TABLE, PACKET_SERVICE_STATE)?;
    require(data_class::is_packet_class(version, class), OUTSIDE_TABLE, DATA_CLASS)?;
    require(frequency_range <= FREQUENCY_RANGE_MAX, OUTSIDE_TABLE, FREQUENCY_RANGE)?;
    if version == Version::V1 {
        return Ok(());
    }
    require(state == ATTACHED || class == 0, FIELDS_CONTRADICT, DATA_CLASS)?;
    let fits = data_class::is_five_g(class) || frequency_range == 0;
    require(fits, FIELDS_CONTRADICT, FREQUENCY_RANGE)
}

/// Version, class and frequency range (0 for the form without it).
#[inline(always)]
fn parts(record: &PacketService) -> (Version, u32, u32) {
    match record.form {
        Form::V1 { highest_available_data_class } => (Version::V1, highest_available_data_class, 0),
        Form::V2 { current_data_class, frequency_range } => {
            (Version::V2, current_data_class, frequency_range)
        }
    }
}

#[cfg(test)]
mod tests {
    use super::*;
    use crate::data_class::HSPA;

    const CASE: [u8; 32] = [
        0, 0, 0, 0, 2, 0, 0, 0, 0x40, 0, 0, 0, 0x80, 0xF0, 0xFA, 0x02, 0, 0, 0, 0, 0x80, 0xD1,
        0xF0, 0x08, 0, 0, 0, 0, 1, 0, 0, 0,
    ];

    fn with(changes: &[(usize, u8)]) -> [u8; 32] {
        let mut payload = CASE;
        for (place, value) in changes {
            payload[*place] = *value;
        }
        payload
    }

    fn record(version: Version, state: u32, class: u32, frequency_range: u32) -> PacketService {
        PacketService {
            nw_error: 7,
            packet_service_state: state,
            uplink_speed: 1,
            downlink_speed: 1 << 40,
            form: match version {
                Version::V1 => Form::V1 { highest_available_data_class: class },
                Version::V2 => Form::V2 { current_data_class: class, frequency_range },
            },
        }
    }

    /// What reader and writer both answer; what is written must be read as the record.
    fn judged(version: Version, state: u32, class: u32, range: u32) -> Result<(), Refusal> {
        let fields = [7, state, class, 1, 0, 0, 1 << 8, range];
        let payload = fields.map(u32::to_le_bytes).concat();
        let (record, length) = (record(version, state, class, range), length(version));
        let mut out = [7; 34];
        let written = write(&record, &mut out);
        assert_eq!(read(version, &payload[..length]), written.map(|_| record));
        let end = written.unwrap_or(0);
        assert_eq!(out[..end], payload[..end]);
        assert!(out[end..].iter().all(|byte| *byte == 7));
        assert!(written.is_err() || end == length);
        written.map(|_| ())
    }

    #[test]
    fn the_worked_case() {
        let record = PacketService {
            nw_error: 0,
            packet_service_state: 2,
            uplink_speed: 50_000_000,
            downlink_speed: 150_000_000,
            form: Form::V2 { current_data_class: 64, frequency_range: 1 },
        };
        assert_eq!(read(Version::V2, &CASE), Ok(record));
        assert_eq!(read(Version::V1, &CASE), Err(Refusal::new(2, 32)));
        let mut out = [7; 34];
        assert_eq!(write(&record, &mut out), Ok(32));
        assert_eq!(out[..32], CASE);
        assert_eq!(out[32..], [7, 7]);
    }

    #[test]
    fn lengths() {
        assert_eq!(read(Version::V2, &[]), Err(Refusal::new(1, 0)));
        assert_eq!(read(Version::V2, &CASE[..31]), Err(Refusal::new(1, 31)));
        assert_eq!(read(Version::V1, &CASE[..27]), Err(Refusal::new(1, 27)));
        assert_eq!(read(Version::V2, &[0xFF; 5000]), Err(Refusal::new(2, 5000)));
    }

    #[test]
    fn numbers_outside_their_tables_come_by_place() {
        let read = |changes: &[(usize, u8)]| read(Version::V2, &with(changes));
        assert_eq!(read(&[(4, 5), (8, 0xC0), (28, 4)]), Err(Refusal::new(9, 4)));
        assert_eq!(read(&[(4, 1), (8, 0xC0), (28, 4)]), Err(Refusal::new(9, 8)));
        assert_eq!(read(&[(4, 1), (28, 4)]), Err(Refusal::new(9, 28)));
        assert_eq!(read(&[(9, 1), (8, 0)]), Err(Refusal::new(9, 8)));
    }

    #[test]
    fn contradictions_of_2_00_come_last_and_by_place() {
        let read = |changes: &[(usize, u8)]| read(Version::V2, &with(changes));
        assert_eq!(read(&[(4, 1), (8, 0x20)]), Err(Refusal::new(10, 8)));
        assert_eq!(read(&[(8, 0x20)]), Err(Refusal::new(10, 28)));
        assert_eq!(read(&[(8, 0)]), Err(Refusal::new(10, 28)));
        assert!(read(&[(8, 0), (28, 0), (4, 4)]).is_ok());
        assert!(read(&[(8, 0x80), (28, 3)]).is_ok());
    }

    #[test]
    fn the_1_00_form_has_no_contradiction() {
        let payload = with(&[(4, 0), (8, 0x20)]);
        let record = super::read(Version::V1, &payload[..28]).unwrap();
        assert_eq!(record.form, Form::V1 { highest_available_data_class: 0x20 });
        let mut out = [7; 30];
        assert_eq!(write(&record, &mut out), Ok(28));
        assert_eq!(out[..28], payload[..28]);
        assert_eq!(out[28..], [7, 7]);
        assert_eq!(write(&record, &mut out[..27]), Err(Refusal::new(11, 28)));
    }

    #[test]
    fn hspa_at_1_00_stands_in_every_state() {
        for state in 0..=4 {
            assert_eq!(judged(Version::V1, state, HSPA, 0), Ok(()));
        }
        assert_eq!(judged(Version::V1, 5, HSPA, 0), Err(Refusal::new(9, 4)));
    }

    #[test]
    fn hspa_at_2_00_wants_attached_and_no_range() {
        let judged = |state, range| judged(Version::V2, state, HSPA, range);
        assert_eq!(judged(2, 0), Ok(()));
        for state in [0, 1, 3, 4] {
            assert_eq!(judged(state, 0), Err(Refusal::new(10, 8)));
            assert_eq!(judged(state, 1), Err(Refusal::new(10, 8)));
            assert_eq!(judged(state, 4), Err(Refusal::new(9, 28)));
        }
        for range in 1..=3 {
            assert_eq!(judged(2, range), Err(Refusal::new(10, 28)));
        }
        assert_eq!(judged(2, 4), Err(Refusal::new(9, 28)));
        assert_eq!(judged(5, 4), Err(Refusal::new(9, 4)));
    }

    #[test]
    fn hspa_with_another_bit_and_its_neighbours_are_outside_the_table() {
        let two = [0x28, 0x30, 0x9, 0x48, 0x1800, 0x18_0000, 0x1800_0000];
        let three = [0x38, 0x19, 0x58, 0x98, 0x118, 0x1018, 0x1_0018, 0x8000_0018];
        for version in [Version::V1, Version::V2] {
            for class in two.into_iter().chain(three).chain([u32::MAX]) {
                assert_eq!(judged(version, 2, class, 0), Err(Refusal::new(9, 8)));
                assert_eq!(judged(version, 1, class, 4), Err(Refusal::new(9, 8)));
            }
        }
    }

    #[test]
    fn of_all_pairs_of_bits_only_hspa_is_taken() {
        for version in [Version::V1, Version::V2] {
            for high in 0..32 {
                for low in 0..high {
                    let class = 1 << high | 1 << low;
                    let refusal = Refusal::new(9, 8);
                    let expected = if class == 0x18 { Ok(()) } else { Err(refusal) };
                    assert_eq!(judged(version, 2, class, 0), expected);
                }
            }
        }
    }
}
