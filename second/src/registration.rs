//! The REGISTER_STATE payload: eight or nine numbers and three texts.
//! Texts are not checked as UTF-16.

use crate::bytes::{put_word, word};
use crate::data_class;
use crate::pair::{judge_text, lay, put_pair, put_text, Bounds, ZeroSize};
use crate::refusal::{
    require, Refusal, FIELDS_CONTRADICT, INFORMATION_TOO_LONG, OUTPUT_TOO_SMALL, OUTSIDE_TABLE,
    TOO_SHORT,
};
use crate::version::Version;
use crate::MAX_INFORMATION;

pub use crate::pair::Range;

/// Fixed part at 1.00.
pub const FIXED_V1: usize = 48;
/// Fixed part at 2.00.
pub const FIXED_V2: usize = 52;

pub const PROVIDER_ID_LIMIT: u32 = 12;
pub const PROVIDER_NAME_LIMIT: u32 = 40;
pub const ROAMING_TEXT_LIMIT: u32 = 126;

const NW_ERROR: usize = 0;
const REGISTER_STATE: usize = 4;
const REGISTER_MODE: usize = 8;
const AVAILABLE_DATA_CLASS: usize = 12;
const CELLULAR_CLASS: usize = 16;
const PROVIDER_ID: usize = 20;
const PROVIDER_NAME: usize = 28;
const ROAMING_TEXT: usize = 36;
const REGISTRATION_FLAG: usize = 44;
const PREFERRED_DATA_CLASS: usize = 48;

const REGISTER_STATE_MAX: u32 = 6;
const REGISTER_MODE_MAX: u32 = 2;
const CELLULAR_CLASS_MASK: u32 = 3;
const REGISTRATION_FLAG_MASK: u32 = 3;
const HOME: u32 = 3;
const PARTNER: u32 = 5;

/// A registration record. A reader shows texts as ranges of the payload;
/// a writer takes them as bytes. PreferredDataClass is there exactly at 2.00.
#[derive(Clone, Copy, Debug, PartialEq, Eq)]
pub struct Registration<T> {
    pub nw_error: u32,
    pub register_state: u32,
    pub register_mode: u32,
    pub available_data_class: u32,
    pub cellular_class: u32,
    pub provider_id: T,
    pub provider_name: T,
    pub roaming_text: T,
    pub registration_flag: u32,
    pub preferred_data_class: Option<u32>,
}

impl<T> Registration<T> {
    /// The form of the record.
    #[inline]
    pub fn version(&self) -> Version {
        match self.preferred_data_class {
            None => Version::V1,
            Some(_) => Version::V2,
        }
    }
}

/// Length of the fixed part.
#[inline]
pub const fn fixed_part(version: Version) -> usize {
    match version {
        Version::V1 => FIXED_V1,
        Version::V2 => FIXED_V2,
    }
}

/// Reads a payload in the form of this version. A text of size 0 is absent.
#[inline]
pub fn read(version: Version, payload: &[u8]) -> Result<Registration<Range>, Refusal> {
    read_with(version, ZeroSize::default(), payload)
}

/// Reads a payload as `read` does, but by this choice where a text has size 0.
#[inline]
pub fn read_with(
    version: Version,
    zero_size: ZeroSize,
    payload: &[u8],
) -> Result<Registration<Range>, Refusal> {
    let bounds = Bounds { fixed: fixed_part(version), length: payload.len() };
    require(payload.len() >= bounds.fixed, TOO_SHORT, payload.len())?;
    require(payload.len() <= MAX_INFORMATION, INFORMATION_TOO_LONG, 0)?;
    let record = fields(version, payload);
    judge(&record, zero_size, bounds)?;
    Ok(Registration {
        provider_id: record.provider_id.shown(),
        provider_name: record.provider_name.shown(),
        roaming_text: record.roaming_text.shown(),
        ..record
    })
}

/// Writes a record and gives the length written: the reader's rules, then 11.
/// The longest record is far below 4,096 bytes, so 5 cannot come.
#[inline]
pub fn write(record: &Registration<&[u8]>, out: &mut [u8]) -> Result<usize, Refusal> {
    let fixed = fixed_part(record.version());
    let mut length = fixed;
    let laid = Registration {
        nw_error: record.nw_error,
        register_state: record.register_state,
        register_mode: record.register_mode,
        available_data_class: record.available_data_class,
        cellular_class: record.cellular_class,
        provider_id: lay(record.provider_id, &mut length),
        provider_name: lay(record.provider_name, &mut length),
        roaming_text: lay(record.roaming_text, &mut length),
        registration_flag: record.registration_flag,
        preferred_data_class: record.preferred_data_class,
    };
    judge(&laid, ZeroSize::Strict, Bounds { fixed, length })?;
    let room = out.get_mut(..length).ok_or(Refusal::new(OUTPUT_TOO_SMALL, length))?;
    put_fields(&laid, room);
    put_text(record.provider_id, laid.provider_id, room);
    put_text(record.provider_name, laid.provider_name, room);
    put_text(record.roaming_text, laid.roaming_text, room);
    Ok(length)
}

#[inline(always)]
fn fields(version: Version, payload: &[u8]) -> Registration<Range> {
    Registration {
        nw_error: word(payload, NW_ERROR),
        register_state: word(payload, REGISTER_STATE),
        register_mode: word(payload, REGISTER_MODE),
        available_data_class: word(payload, AVAILABLE_DATA_CLASS),
        cellular_class: word(payload, CELLULAR_CLASS),
        provider_id: Range::at(payload, PROVIDER_ID),
        provider_name: Range::at(payload, PROVIDER_NAME),
        roaming_text: Range::at(payload, ROAMING_TEXT),
        registration_flag: word(payload, REGISTRATION_FLAG),
        preferred_data_class: match version {
            Version::V1 => None,
            Version::V2 => Some(word(payload, PREFERRED_DATA_CLASS)),
        },
    }
}

/// The rules of the fields, in the order of their places, then the contradiction.
#[inline(always)]
fn judge(record: &Registration<Range>, zero_size: ZeroSize, bounds: Bounds) -> Result<(), Refusal> {
    judge_numbers(record)?;
    let text = |pair, field, limit| judge_text(pair, field, limit, zero_size, bounds);
    text(record.provider_id, PROVIDER_ID, PROVIDER_ID_LIMIT)?;
    text(record.provider_name, PROVIDER_NAME, PROVIDER_NAME_LIMIT)?;
    text(record.roaming_text, ROAMING_TEXT, ROAMING_TEXT_LIMIT)?;
    let in_flags = record.registration_flag & !REGISTRATION_FLAG_MASK == 0;
    require(in_flags, OUTSIDE_TABLE, REGISTRATION_FLAG)?;
    let preferred = record.preferred_data_class.unwrap_or(0);
    let in_classes = data_class::is_subset(record.version(), preferred);
    require(in_classes, OUTSIDE_TABLE, PREFERRED_DATA_CLASS)?;
    let registered = (HOME..=PARTNER).contains(&record.register_state);
    let fits = registered || record.available_data_class == 0;
    require(fits, FIELDS_CONTRADICT, AVAILABLE_DATA_CLASS)
}

/// The numbers before the texts.
#[inline(always)]
fn judge_numbers(record: &Registration<Range>) -> Result<(), Refusal> {
    let in_states = record.register_state <= REGISTER_STATE_MAX;
    require(in_states, OUTSIDE_TABLE, REGISTER_STATE)?;
    let in_modes = record.register_mode <= REGISTER_MODE_MAX;
    require(in_modes, OUTSIDE_TABLE, REGISTER_MODE)?;
    let in_classes = data_class::is_subset(record.version(), record.available_data_class);
    require(in_classes, OUTSIDE_TABLE, AVAILABLE_DATA_CLASS)?;
    let in_cellular = record.cellular_class & !CELLULAR_CLASS_MASK == 0;
    require(in_cellular, OUTSIDE_TABLE, CELLULAR_CLASS)
}

#[inline(always)]
fn put_fields(laid: &Registration<Range>, out: &mut [u8]) {
    put_word(out, NW_ERROR, laid.nw_error);
    put_word(out, REGISTER_STATE, laid.register_state);
    put_word(out, REGISTER_MODE, laid.register_mode);
    put_word(out, AVAILABLE_DATA_CLASS, laid.available_data_class);
    put_word(out, CELLULAR_CLASS, laid.cellular_class);
    put_pair(laid.provider_id, PROVIDER_ID, out);
    put_pair(laid.provider_name, PROVIDER_NAME, out);
    put_pair(laid.roaming_text, ROAMING_TEXT, out);
    put_word(out, REGISTRATION_FLAG, laid.registration_flag);
    if let Some(preferred) = laid.preferred_data_class {
        put_word(out, PREFERRED_DATA_CLASS, preferred);
    }
}

#[cfg(test)]
mod tests {
    use super::*;

    const ID: &[u8] = b"0\x000\x001\x000\x001\0";

    fn record(preferred: Option<u32>) -> Registration<&'static [u8]> {
        Registration {
            nw_error: 0,
            register_state: 3,
            register_mode: 1,
            available_data_class: 0x20,
            cellular_class: 1,
            provider_id: ID,
            provider_name: &[],
            roaming_text: &[],
            registration_flag: 0,
            preferred_data_class: preferred,
        }
    }

    fn written(record: &Registration<&[u8]>) -> Vec<u8> {
        let mut out = [0xEE; 300];
        let length = write(record, &mut out).unwrap();
        assert!(out[length..].iter().all(|byte| *byte == 0xEE));
        out[..length].to_vec()
    }

    fn with(mut payload: Vec<u8>, place: usize, value: u32) -> Vec<u8> {
        payload[place..place + 4].copy_from_slice(&value.to_le_bytes());
        payload
    }

    #[test]
    fn the_worked_case_at_both_versions() {
        let payload = written(&record(Some(0)));
        assert_eq!(payload.len(), 64);
        let second = read(Version::V2, &payload).unwrap();
        assert_eq!(second.provider_id, Range { offset: 52, size: 10 });
        assert_eq!(second.provider_id.of(&payload), ID);
        assert_eq!(&payload[62..], &[0, 0]);
        let first = read(Version::V1, &payload).unwrap();
        assert_eq!(first, Registration { preferred_data_class: None, ..second });
    }

    #[test]
    fn a_5g_bit_is_outside_the_table_of_1_00() {
        let payload = with(written(&record(Some(0))), 12, 0x60);
        assert_eq!(read(Version::V1, &payload), Err(Refusal::new(9, 12)));
        assert!(read(Version::V2, &payload).is_ok());
    }

    #[test]
    fn the_1_00_form_read_at_2_00_has_its_text_in_the_fixed_part() {
        let payload = written(&record(None));
        assert_eq!(payload.len(), 60);
        assert_eq!(read(Version::V2, &payload), Err(Refusal::new(6, 20)));
    }

    /// The answers by the choices, absent and strict.
    fn by_choice(version: Version, payload: &[u8]) -> [Result<Registration<Range>, Refusal>; 2] {
        let [absent, strict] = [ZeroSize::Absent, ZeroSize::Strict]
            .map(|zero_size| read_with(version, zero_size, payload));
        assert_eq!(read(version, payload), absent);
        [absent, strict]
    }

    #[test]
    fn pairs_of_the_worked_cases() {
        let payload = written(&record(Some(0)));
        let far = with(with(payload.clone(), 20, 0xFFFF_FFFC), 24, 8);
        assert_eq!(by_choice(Version::V2, &far), [Err(Refusal::new(7, 20)); 2]);
        let empty = with(payload, 24, 0);
        let [absent, strict] = by_choice(Version::V2, &empty);
        assert_eq!(absent.unwrap().provider_id, Range::default());
        assert_eq!(strict, Err(Refusal::new(18, 20)));
    }

    #[test]
    fn each_pair_tells_its_offset_faults_apart() {
        let good = written(&record(Some(0)));
        for field in [20, 28, 36] {
            for (offset, size, number) in [(51, 2, 6), (53, 2, 17), (64, 2, 7)] {
                let payload = with(with(good.clone(), field, offset), field + 4, size);
                let refused = Err(Refusal::new(number, field));
                assert_eq!(by_choice(Version::V2, &payload), [refused; 2]);
            }
        }
    }

    #[test]
    fn a_text_of_size_0_reads_as_beside_offset_0() {
        for (version, preferred) in [(Version::V1, None), (Version::V2, Some(0))] {
            let good = written(&record(preferred));
            for field in [20, 28, 36] {
                let absent = with(with(good.clone(), field, 0), field + 4, 0);
                let shown = read(version, &absent);
                assert_eq!(by_choice(version, &absent), [shown; 2]);
                for offset in [1, 3, 4, 20, 48, 52, 53, 4096, 0xFFFF_FFFC, u32::MAX] {
                    let stray = with(absent.clone(), field, offset);
                    let strict = Err(Refusal::new(18, field));
                    assert_eq!(by_choice(version, &stray), [shown, strict]);
                }
            }
        }
    }

    #[test]
    fn a_stray_offset_has_its_place_in_the_order() {
        let stray = with(with(written(&record(Some(0))), 20, 53), 24, 0);
        let bad = |place, value| by_choice(Version::V2, &with(stray.clone(), place, value));
        let refused = |number, place| Err(Refusal::new(number, place));
        assert_eq!(bad(4, 7), [refused(9, 4); 2]);
        assert_eq!(bad(16, 4), [refused(9, 16); 2]);
        assert_eq!(bad(24, 1), [refused(8, 20); 2]);
        assert_eq!(bad(32, 2), [refused(6, 28), refused(18, 20)]);
        assert_eq!(bad(28, 53), [read(Version::V2, &stray), refused(18, 20)]);
        assert_eq!(bad(40, 127), [refused(8, 36), refused(18, 20)]);
        assert_eq!(bad(44, 4), [refused(9, 44), refused(18, 20)]);
        assert_eq!(bad(4, 2), [refused(10, 12), refused(18, 20)]);
    }

    #[test]
    fn lengths() {
        assert_eq!(read(Version::V2, &[]), Err(Refusal::new(1, 0)));
        assert_eq!(read(Version::V1, &[0xFF; 47]), Err(Refusal::new(1, 47)));
        assert_eq!(read(Version::V2, &[0xFF; 51]), Err(Refusal::new(1, 51)));
        assert_eq!(read(Version::V2, &[0xFF; 4097]), Err(Refusal::new(5, 0)));
        assert!(read(Version::V1, &[0; 4096]).is_ok());
    }

    #[test]
    fn every_field_at_its_limit() {
        let payload = written(&record(Some(0)));
        let cases = [(4, 6, 9), (8, 2, 9), (16, 3, 9), (44, 3, 9), (48, 0x807F_00FF, 9)];
        for (place, limit, number) in cases {
            let over = with(payload.clone(), place, limit + 1);
            assert_eq!(read(Version::V2, &over), Err(Refusal::new(number, place)));
            let at = with(with(payload.clone(), 12, 0), place, limit);
            assert!(read(Version::V2, &at).is_ok());
        }
    }

    #[test]
    fn classes_of_several_bits_are_taken() {
        for class in [data_class::HSPA, 0x28] {
            let first = Registration { available_data_class: class, ..record(None) };
            let shown = read(Version::V1, &written(&first)).unwrap();
            assert_eq!(shown.available_data_class, class);
            for (available, preferred) in [(class, 0), (0, class), (class, class)] {
                let second =
                    Registration { available_data_class: available, ..record(Some(preferred)) };
                let shown = read(Version::V2, &written(&second)).unwrap();
                assert_eq!(shown.available_data_class, available);
                assert_eq!(shown.preferred_data_class, Some(preferred));
            }
        }
    }

    #[test]
    fn a_class_without_registration_contradicts_last() {
        let mut searching = record(Some(0));
        searching.register_state = 2;
        assert_eq!(write(&searching, &mut []), Err(Refusal::new(10, 12)));
        searching.preferred_data_class = Some(0x100);
        assert_eq!(write(&searching, &mut []), Err(Refusal::new(9, 48)));
    }

    #[test]
    fn the_writer_judges_sizes_at_the_pairs_and_room_last() {
        let text = [1; 128];
        let sizes = |id, name, roaming| Registration {
            provider_id: &text[..id],
            provider_name: &text[..name],
            roaming_text: &text[..roaming],
            ..record(Some(1))
        };
        assert_eq!(write(&sizes(14, 42, 128), &mut []), Err(Refusal::new(8, 20)));
        assert_eq!(write(&sizes(11, 0, 0), &mut []), Err(Refusal::new(8, 20)));
        assert_eq!(write(&sizes(12, 42, 128), &mut []), Err(Refusal::new(8, 28)));
        assert_eq!(write(&sizes(12, 40, 128), &mut []), Err(Refusal::new(8, 36)));
        assert_eq!(write(&sizes(12, 40, 126), &mut [0; 231]), Err(Refusal::new(11, 232)));
        let payload = written(&sizes(12, 40, 126));
        assert_eq!(payload.len(), 52 + 12 + 40 + 128);
        let shown = read(Version::V2, &payload).unwrap();
        assert_eq!(shown.roaming_text, Range { offset: 104, size: 126 });
        assert_eq!(shown.roaming_text.of(&payload), &text[..126]);
    }
}
