//! The payloads of PIN, each in one form at both versions: SET_PIN, two numbers and two texts, and
//! PIN_INFO, three numbers in exactly 12 bytes. Texts are not checked as UTF-16.

use crate::bytes::{put_word, word};
use crate::pair::{judge_text, lay, put_pair, put_text, Bounds, ZeroSize};
use crate::refusal::{
    require, Refusal, INFORMATION_TOO_LONG, LENGTH_DISAGREES, OUTPUT_TOO_SMALL, OUTSIDE_TABLE,
    TOO_SHORT,
};
use crate::MAX_INFORMATION;

pub use crate::pair::Range;

/// Fixed part of SET_PIN.
pub const SET_FIXED: usize = 24;
/// Length of PIN_INFO.
pub const INFO_LENGTH: usize = 12;
/// The most bytes of a text.
pub const TEXT_LIMIT: u32 = 32;

/// MBIMPinTypeNone; the types go on to 17, CorporatePUK.
pub const PIN_TYPE_NONE: u32 = 0;
pub const PIN_TYPE_MAX: u32 = 17;
/// MBIMPinOperationEnter.
pub const ENTER: u32 = 0;
/// Pin states.
pub const UNLOCKED: u32 = 0;
pub const LOCKED: u32 = 1;

const PIN_TYPE: usize = 0;
const PIN_OPERATION: usize = 4;
const PIN: usize = 8;
const NEW_PIN: usize = 16;

const PIN_STATE: usize = 4;
const REMAINING_ATTEMPTS: usize = 8;

const PIN_OPERATION_MAX: u32 = 3;

/// A SET_PIN record. A reader shows texts as ranges of the payload; a writer takes them as bytes.
#[derive(Clone, Copy, Debug, PartialEq, Eq)]
pub struct SetPin<T> {
    pub pin_type: u32,
    pub pin_operation: u32,
    pub pin: T,
    pub new_pin: T,
}

/// A PIN_INFO record.
#[derive(Clone, Copy, Debug, Default, PartialEq, Eq)]
pub struct PinInfo {
    pub pin_type: u32,
    pub pin_state: u32,
    pub remaining_attempts: u32,
}

/// Reads a SET_PIN payload. A text of size 0 is absent.
#[inline]
pub fn read_set(payload: &[u8]) -> Result<SetPin<Range>, Refusal> {
    read_set_with(ZeroSize::default(), payload)
}

/// Reads a SET_PIN payload as `read_set` does, but by this choice where a text has size 0.
#[inline]
pub fn read_set_with(zero_size: ZeroSize, payload: &[u8]) -> Result<SetPin<Range>, Refusal> {
    require(payload.len() >= SET_FIXED, TOO_SHORT, payload.len())?;
    require(payload.len() <= MAX_INFORMATION, INFORMATION_TOO_LONG, 0)?;
    let record = SetPin {
        pin_type: word(payload, PIN_TYPE),
        pin_operation: word(payload, PIN_OPERATION),
        pin: Range::at(payload, PIN),
        new_pin: Range::at(payload, NEW_PIN),
    };
    judge_set(&record, zero_size, payload.len())?;
    Ok(SetPin { pin: record.pin.shown(), new_pin: record.new_pin.shown(), ..record })
}

/// Writes a SET_PIN record and gives the length written: the reader's rules, then 11.
/// The longest record is far below 4,096 bytes, so 5 cannot come.
#[inline]
pub fn write_set(record: &SetPin<&[u8]>, out: &mut [u8]) -> Result<usize, Refusal> {
    let mut length = SET_FIXED;
    let laid = SetPin {
        pin_type: record.pin_type,
        pin_operation: record.pin_operation,
        pin: lay(record.pin, &mut length),
        new_pin: lay(record.new_pin, &mut length),
    };
    judge_set(&laid, ZeroSize::Strict, length)?;
    let room = out.get_mut(..length).ok_or(Refusal::new(OUTPUT_TOO_SMALL, length))?;
    put_word(room, PIN_TYPE, laid.pin_type);
    put_word(room, PIN_OPERATION, laid.pin_operation);
    put_pair(laid.pin, PIN, room);
    put_pair(laid.new_pin, NEW_PIN, room);
    put_text(record.pin, laid.pin, room);
    put_text(record.new_pin, laid.new_pin, room);
    Ok(length)
}

/// Reads a PIN_INFO payload.
#[inline]
pub fn read_info(payload: &[u8]) -> Result<PinInfo, Refusal> {
    require(payload.len() >= INFO_LENGTH, TOO_SHORT, payload.len())?;
    require(payload.len() == INFO_LENGTH, LENGTH_DISAGREES, payload.len())?;
    let record = PinInfo {
        pin_type: word(payload, PIN_TYPE),
        pin_state: word(payload, PIN_STATE),
        remaining_attempts: word(payload, REMAINING_ATTEMPTS),
    };
    judge_info(&record)?;
    Ok(record)
}

/// Writes a PIN_INFO record and gives the length written: the reader's rules, then 11.
#[inline]
pub fn write_info(record: &PinInfo, out: &mut [u8]) -> Result<usize, Refusal> {
    judge_info(record)?;
    let too_small = Refusal::new(OUTPUT_TOO_SMALL, INFO_LENGTH);
    let room = out.get_mut(..INFO_LENGTH).ok_or(too_small)?;
    put_word(room, PIN_TYPE, record.pin_type);
    put_word(room, PIN_STATE, record.pin_state);
    put_word(room, REMAINING_ATTEMPTS, record.remaining_attempts);
    Ok(INFO_LENGTH)
}

/// The rules of SET_PIN's fields, in the order of their places.
#[inline(always)]
fn judge_set(record: &SetPin<Range>, zero_size: ZeroSize, length: usize) -> Result<(), Refusal> {
    let bounds = Bounds { fixed: SET_FIXED, length };
    require(record.pin_type <= PIN_TYPE_MAX, OUTSIDE_TABLE, PIN_TYPE)?;
    require(record.pin_operation <= PIN_OPERATION_MAX, OUTSIDE_TABLE, PIN_OPERATION)?;
    judge_text(record.pin, PIN, TEXT_LIMIT, zero_size, bounds)?;
    judge_text(record.new_pin, NEW_PIN, TEXT_LIMIT, zero_size, bounds)
}

/// The rules of PIN_INFO's numbers. They do not contradict each other, and any number of
/// attempts may remain.
#[inline(always)]
fn judge_info(record: &PinInfo) -> Result<(), Refusal> {
    require(record.pin_type <= PIN_TYPE_MAX, OUTSIDE_TABLE, PIN_TYPE)?;
    require(record.pin_state <= LOCKED, OUTSIDE_TABLE, PIN_STATE)
}

#[cfg(test)]
mod tests {
    use super::*;

    const TEXT: &[u8] = b"1\x002\x003\x004\0";
    const NEW_TEXT: &[u8] = b"5\x006\x007\0";

    fn record() -> SetPin<&'static [u8]> {
        SetPin { pin_type: 2, pin_operation: 3, pin: TEXT, new_pin: NEW_TEXT }
    }

    fn written(record: &SetPin<&[u8]>) -> Vec<u8> {
        let mut out = [0xEE; 100];
        let length = write_set(record, &mut out).unwrap();
        assert!(out[length..].iter().all(|byte| *byte == 0xEE));
        out[..length].to_vec()
    }

    fn with(payload: &[u8], changes: &[(usize, u32)]) -> Vec<u8> {
        let mut payload = payload.to_vec();
        for (place, value) in changes {
            payload[*place..place + 4].copy_from_slice(&value.to_le_bytes());
        }
        payload
    }

    /// The answers by the choices, absent and strict.
    fn by_choice(payload: &[u8]) -> [Result<SetPin<Range>, Refusal>; 2] {
        let [absent, strict] =
            [ZeroSize::Absent, ZeroSize::Strict].map(|choice| read_set_with(choice, payload));
        assert_eq!(read_set(payload), absent);
        [absent, strict]
    }

    fn refused(number: u32, place: usize) -> [Result<SetPin<Range>, Refusal>; 2] {
        [Err(Refusal::new(number, place)); 2]
    }

    #[test]
    fn what_is_written_is_read_as_it_was() {
        let payload = written(&record());
        assert_eq!(payload.len(), 40);
        assert_eq!(payload[38..], [0, 0]);
        let [absent, strict] = by_choice(&payload);
        assert_eq!(absent, strict);
        let shown = absent.unwrap();
        assert_eq!((shown.pin_type, shown.pin_operation), (2, 3));
        assert_eq!(shown.pin, Range { offset: 24, size: 8 });
        assert_eq!(shown.new_pin, Range { offset: 32, size: 6 });
        assert_eq!([shown.pin, shown.new_pin].map(|text| text.of(&payload)), [TEXT, NEW_TEXT]);
    }

    #[test]
    fn lengths_come_first() {
        for length in [0, 11, 12, 23] {
            assert_eq!(by_choice(&vec![0xFF; length]), refused(1, length));
        }
        assert_eq!(by_choice(&[0xFF; 4097]), refused(5, 0));
        assert!(by_choice(&[0; 4096]).iter().all(Result::is_ok));
        assert!(by_choice(&[0; 24]).iter().all(Result::is_ok));
    }

    #[test]
    fn numbers_outside_their_tables() {
        let good = written(&record());
        for pin_type in 0..=17 {
            assert!(read_set(&with(&good, &[(0, pin_type)])).is_ok());
        }
        for pin_operation in 0..=3 {
            assert!(read_set(&with(&good, &[(4, pin_operation)])).is_ok());
        }
        for far in [18, 19, 0x102, u32::MAX] {
            assert_eq!(by_choice(&with(&good, &[(0, far), (4, 4), (12, 1)])), refused(9, 0));
        }
        for far in [4, 0x100, u32::MAX] {
            assert_eq!(by_choice(&with(&good, &[(4, far), (12, 1)])), refused(9, 4));
        }
    }

    #[test]
    fn each_pair_has_its_rules() {
        let good = [written(&record()), vec![0; 40]].concat();
        for field in [8, 16] {
            for (offset, size, number) in [
                (24, 33, 8),
                (24, 34, 8),
                (24, 31, 8),
                (3, u32::MAX, 8),
                (0, 2, 6),
                (23, 2, 6),
                (25, 2, 17),
                (81, 2, 17),
                (52, 30, 7),
                (0xFFFF_FFFC, 8, 7),
            ] {
                let payload = with(&good, &[(field, offset), (field + 4, size)]);
                assert_eq!(by_choice(&payload), refused(number, field), "{offset} {size}");
            }
            let payload = with(&good, &[(field, 48), (field + 4, 32)]);
            assert!(by_choice(&payload).iter().all(Result::is_ok));
        }
    }

    #[test]
    fn a_text_of_size_0_reads_as_beside_offset_0() {
        let good = written(&record());
        for field in [8, 16] {
            let absent = with(&good, &[(field, 0), (field + 4, 0)]);
            let shown = read_set(&absent);
            assert_eq!(by_choice(&absent), [shown; 2]);
            for offset in [1, 4, 23, 24, 25, 4096, u32::MAX] {
                let stray = with(&absent, &[(field, offset)]);
                assert_eq!(by_choice(&stray), [shown, Err(Refusal::new(18, field))]);
            }
        }
    }

    #[test]
    fn the_writer_judges_fields_and_room_last() {
        let text = [1; 40];
        let sizes =
            |pin, new_pin| SetPin { pin: &text[..pin], new_pin: &text[..new_pin], ..record() };
        let far = SetPin { pin_type: 18, pin_operation: 4, ..sizes(33, 33) };
        assert_eq!(write_set(&far, &mut []), Err(Refusal::new(9, 0)));
        let far = SetPin { pin_operation: 4, ..sizes(33, 33) };
        assert_eq!(write_set(&far, &mut []), Err(Refusal::new(9, 4)));
        for (pin, new_pin, place) in [(33, 33, 8), (34, 0, 8), (1, 0, 8), (32, 34, 16), (0, 31, 16)]
        {
            let refused = Err(Refusal::new(8, place));
            assert_eq!(write_set(&sizes(pin, new_pin), &mut [0; 100]), refused);
        }
        assert_eq!(write_set(&sizes(32, 32), &mut [0; 87]), Err(Refusal::new(11, 88)));
        assert_eq!(write_set(&sizes(0, 0), &mut [0; 23]), Err(Refusal::new(11, 24)));
        let payload = written(&sizes(0, 30));
        assert_eq!(payload.len(), 56);
        assert_eq!(payload[8..24], [0, 0, 0, 0, 0, 0, 0, 0, 24, 0, 0, 0, 30, 0, 0, 0]);
    }

    #[test]
    fn infos_have_one_length_and_two_tables() {
        let good = [2, 0, 0, 0, 1, 0, 0, 0, 3, 0, 0, 0];
        let info = PinInfo { pin_type: 2, pin_state: LOCKED, remaining_attempts: 3 };
        assert_eq!(read_info(&good), Ok(info));
        assert_eq!(read_info(&good[..11]), Err(Refusal::new(1, 11)));
        assert_eq!(read_info(&[0xFF; 13]), Err(Refusal::new(2, 13)));
        assert_eq!(read_info(&[0; 5000]), Err(Refusal::new(2, 5000)));
        let read = |changes: &[(usize, u32)]| read_info(&with(&good, changes));
        assert_eq!(read(&[(0, 18), (4, 2)]), Err(Refusal::new(9, 0)));
        assert_eq!(read(&[(0, 17), (4, 2)]), Err(Refusal::new(9, 4)));
        assert!(read(&[(0, 0), (8, u32::MAX)]).is_ok());
        assert!(read(&[(4, UNLOCKED)]).is_ok());
    }

    #[test]
    fn infos_are_written_as_they_are_read() {
        let good = PinInfo { pin_type: 17, pin_state: LOCKED, remaining_attempts: u32::MAX };
        let mut out = [7; 14];
        assert_eq!(write_info(&good, &mut out), Ok(12));
        assert_eq!(read_info(&out[..12]), Ok(good));
        assert_eq!(out[12..], [7, 7]);
        assert_eq!(write_info(&good, &mut out[..11]), Err(Refusal::new(11, 12)));
        let far = PinInfo { pin_state: 2, ..good };
        assert_eq!(write_info(&far, &mut []), Err(Refusal::new(9, 4)));
        let far = PinInfo { pin_type: 18, ..far };
        assert_eq!(write_info(&far, &mut []), Err(Refusal::new(9, 0)));
    }
}
