//! The SIGNAL_STATE payload: five numbers, and at 2.00 a list of RSRP and SNR entries.

use crate::bytes::{put_word, word};
use crate::data_class;
use crate::pair::{judge_list, Bounds, Range, ZeroSize};
use crate::refusal::{
    require, Refusal, COUNT_OVER_LIMIT, FIELDS_CONTRADICT, INFORMATION_TOO_LONG, LENGTH_DISAGREES,
    OUTPUT_TOO_SMALL, OUTSIDE_TABLE, SIZE_WRONG, TOO_SHORT,
};
use crate::version::Version;
use crate::MAX_INFORMATION;

/// Length at 1.00.
pub const LENGTH_V1: usize = 20;
/// Fixed part at 2.00.
pub const FIXED_V2: usize = 28;
/// Most entries of a list.
pub const MAX_ENTRIES: usize = 16;
/// Length of one entry.
pub const ENTRY: usize = 20;

/// Codes that say: not known.
pub const RSSI_UNKNOWN: u32 = 99;
pub const ERROR_RATE_UNKNOWN: u32 = 99;
pub const RSRP_UNKNOWN: u32 = 127;
pub const SNR_UNKNOWN: u32 = 128;

pub(crate) const RSSI_MAX: u32 = 31;
const ERROR_RATE_MAX: u32 = 7;

const RSSI: usize = 0;
const ERROR_RATE: usize = 4;
const SIGNAL_STRENGTH_INTERVAL: usize = 8;
const RSSI_THRESHOLD: usize = 12;
const ERROR_RATE_THRESHOLD: usize = 16;
const RSRP_SNR: usize = 20;

const COUNT: usize = 4;
const SIZE_LIMIT: u32 = (COUNT + ENTRY * MAX_ENTRIES) as u32;

const RSRP: usize = 0;
const SNR: usize = 4;
const RSRP_THRESHOLD: usize = 8;
const SNR_THRESHOLD: usize = 12;
const SYSTEM_TYPE: usize = 16;

/// A signal record. A reader shows the entries as an `Entries` view, a writer
/// takes them as a slice. They are there exactly at 2.00, where none is the pair (0, 0).
#[derive(Clone, Copy, Debug, PartialEq, Eq)]
pub struct SignalState<L> {
    pub rssi: u32,
    pub error_rate: u32,
    pub signal_strength_interval: u32,
    pub rssi_threshold: u32,
    pub error_rate_threshold: u32,
    pub rsrp_snr: Option<L>,
}

/// One entry of the list.
#[derive(Clone, Copy, Debug, Default, PartialEq, Eq)]
pub struct RsrpSnr {
    pub rsrp: u32,
    pub snr: u32,
    pub rsrp_threshold: u32,
    pub snr_threshold: u32,
    pub system_type: u32,
}

/// The entries of an accepted payload.
#[derive(Clone, Copy, Debug, PartialEq, Eq)]
pub struct Entries<'a> {
    bytes: &'a [u8],
}

impl<'a> Entries<'a> {
    #[inline]
    pub fn count(&self) -> usize {
        self.bytes.len() / ENTRY
    }

    /// The entry of this number, from 0.
    #[inline]
    pub fn get(&self, number: usize) -> Option<RsrpSnr> {
        self.iter().nth(number)
    }

    #[inline]
    pub fn iter(&self) -> impl Iterator<Item = RsrpSnr> + 'a {
        self.bytes.chunks_exact(ENTRY).map(entry)
    }
}

/// Reads a payload in the form of this version. A list of size 0 is absent: no entries.
#[inline]
pub fn read(version: Version, payload: &[u8]) -> Result<SignalState<Entries<'_>>, Refusal> {
    read_with(version, ZeroSize::default(), payload)
}

/// Reads a payload as `read` does, but by this choice where the list has size 0.
#[inline]
pub fn read_with(
    version: Version,
    zero_size: ZeroSize,
    payload: &[u8],
) -> Result<SignalState<Entries<'_>>, Refusal> {
    judge_length(version, payload.len())?;
    let rssi = word(payload, RSSI);
    let error_rate = word(payload, ERROR_RATE);
    judge_numbers(rssi, error_rate)?;
    let rsrp_snr = match version {
        Version::V1 => None,
        Version::V2 => Some(read_list(payload, zero_size, rssi)?),
    };
    Ok(SignalState {
        rssi,
        error_rate,
        signal_strength_interval: word(payload, SIGNAL_STRENGTH_INTERVAL),
        rssi_threshold: word(payload, RSSI_THRESHOLD),
        error_rate_threshold: word(payload, ERROR_RATE_THRESHOLD),
        rsrp_snr,
    })
}

/// Writes a record and gives the length written: the reader's rules, then 11.
/// The longest record is far below 4,096 bytes, so 5 cannot come.
#[inline]
pub fn write(record: &SignalState<&[RsrpSnr]>, out: &mut [u8]) -> Result<usize, Refusal> {
    judge_numbers(record.rssi, record.error_rate)?;
    let size = match record.rsrp_snr {
        None | Some([]) => 0,
        Some(entries) => judge_entries(entries, record.rssi)?,
    };
    let fixed = if record.rsrp_snr.is_some() { FIXED_V2 } else { LENGTH_V1 };
    let length = fixed + size;
    let room = out.get_mut(..length).ok_or(Refusal::new(OUTPUT_TOO_SMALL, length))?;
    put_word(room, RSSI, record.rssi);
    put_word(room, ERROR_RATE, record.error_rate);
    put_word(room, SIGNAL_STRENGTH_INTERVAL, record.signal_strength_interval);
    put_word(room, RSSI_THRESHOLD, record.rssi_threshold);
    put_word(room, ERROR_RATE_THRESHOLD, record.error_rate_threshold);
    if let Some(entries) = record.rsrp_snr {
        put_list(entries, size, room);
    }
    Ok(length)
}

#[inline(always)]
fn judge_length(version: Version, length: usize) -> Result<(), Refusal> {
    match version {
        Version::V1 => {
            require(length >= LENGTH_V1, TOO_SHORT, length)?;
            require(length == LENGTH_V1, LENGTH_DISAGREES, length)
        }
        Version::V2 => {
            require(length >= FIXED_V2, TOO_SHORT, length)?;
            require(length <= MAX_INFORMATION, INFORMATION_TOO_LONG, 0)
        }
    }
}

#[inline(always)]
fn judge_numbers(rssi: u32, error_rate: u32) -> Result<(), Refusal> {
    require(rssi <= RSSI_MAX || rssi == RSSI_UNKNOWN, OUTSIDE_TABLE, RSSI)?;
    let in_rates = error_rate <= ERROR_RATE_MAX || error_rate == ERROR_RATE_UNKNOWN;
    require(in_rates, OUTSIDE_TABLE, ERROR_RATE)
}

/// The pair, its list, and last Rssi beside it.
#[inline(always)]
fn read_list(payload: &[u8], zero_size: ZeroSize, rssi: u32) -> Result<Entries<'_>, Refusal> {
    let pair = Range::at(payload, RSRP_SNR);
    let bounds = Bounds { fixed: FIXED_V2, length: payload.len() };
    judge_list(pair, RSRP_SNR, SIZE_LIMIT, zero_size, bounds)?;
    if pair.size == 0 {
        return Ok(Entries { bytes: &[] });
    }
    let offset = pair.offset as usize;
    require(pair.size as usize >= COUNT, SIZE_WRONG, RSRP_SNR)?;
    let count = word(payload, offset) as usize;
    require((1..=MAX_ENTRIES).contains(&count), COUNT_OVER_LIMIT, offset)?;
    require(pair.size as usize == COUNT + ENTRY * count, SIZE_WRONG, RSRP_SNR)?;
    let bytes = pair.of(payload).get(COUNT..).unwrap_or_default();
    let entries = Entries { bytes };
    judge_known(entries.iter(), offset + COUNT, rssi)?;
    Ok(entries)
}

/// The writer's list: its limit, its entries, and Rssi beside it. Gives its size.
#[inline(always)]
fn judge_entries(entries: &[RsrpSnr], rssi: u32) -> Result<usize, Refusal> {
    require(entries.len() <= MAX_ENTRIES, SIZE_WRONG, RSRP_SNR)?;
    judge_known(entries.iter().copied(), FIXED_V2 + COUNT, rssi)?;
    Ok(COUNT + ENTRY * entries.len())
}

/// Each entry by its tables; then, if any code is known, Rssi must be unknown.
#[inline(always)]
fn judge_known(
    entries: impl Iterator<Item = RsrpSnr>,
    first: usize,
    rssi: u32,
) -> Result<(), Refusal> {
    let mut place = first;
    let mut any_known = false;
    for entry in entries {
        judge_entry(&entry, place)?;
        any_known |= entry.rsrp != RSRP_UNKNOWN || entry.snr != SNR_UNKNOWN;
        place += ENTRY;
    }
    require(!any_known || rssi == RSSI_UNKNOWN, FIELDS_CONTRADICT, RSSI)
}

#[inline(always)]
fn judge_entry(entry: &RsrpSnr, place: usize) -> Result<(), Refusal> {
    require(entry.rsrp <= RSRP_UNKNOWN, OUTSIDE_TABLE, place + RSRP)?;
    require(entry.snr <= SNR_UNKNOWN, OUTSIDE_TABLE, place + SNR)?;
    let one_class = data_class::is_exactly_one(Version::V2, entry.system_type);
    require(one_class, OUTSIDE_TABLE, place + SYSTEM_TYPE)
}

#[inline(always)]
fn entry(bytes: &[u8]) -> RsrpSnr {
    RsrpSnr {
        rsrp: word(bytes, RSRP),
        snr: word(bytes, SNR),
        rsrp_threshold: word(bytes, RSRP_THRESHOLD),
        snr_threshold: word(bytes, SNR_THRESHOLD),
        system_type: word(bytes, SYSTEM_TYPE),
    }
}

/// The pair, and the list straight after the fixed part.
#[inline(always)]
fn put_list(entries: &[RsrpSnr], size: usize, out: &mut [u8]) {
    let offset = if size == 0 { 0 } else { FIXED_V2 };
    put_word(out, RSRP_SNR, offset as u32);
    put_word(out, RSRP_SNR + 4, size as u32);
    let list = out.get_mut(FIXED_V2..).unwrap_or_default();
    put_word(list, 0, entries.len() as u32);
    let places = list.get_mut(COUNT..).unwrap_or_default();
    for (bytes, entry) in places.chunks_exact_mut(ENTRY).zip(entries) {
        put_word(bytes, RSRP, entry.rsrp);
        put_word(bytes, SNR, entry.snr);
        put_word(bytes, RSRP_THRESHOLD, entry.rsrp_threshold);
        put_word(bytes, SNR_THRESHOLD, entry.snr_threshold);
        put_word(bytes, SYSTEM_TYPE, entry.system_type);
    }
}

#[cfg(test)]
mod tests {
    use super::*;

    const LTE: u32 = 0x20;

    fn known(rsrp: u32, snr: u32) -> RsrpSnr {
        RsrpSnr { rsrp, snr, rsrp_threshold: 5, snr_threshold: 6, system_type: LTE }
    }

    fn record(rssi: u32, rsrp_snr: Option<&[RsrpSnr]>) -> SignalState<&[RsrpSnr]> {
        SignalState {
            rssi,
            error_rate: 99,
            signal_strength_interval: 5,
            rssi_threshold: u32::MAX,
            error_rate_threshold: 1,
            rsrp_snr,
        }
    }

    fn written(record: &SignalState<&[RsrpSnr]>) -> Vec<u8> {
        let mut out = [0xEE; 400];
        let length = write(record, &mut out).unwrap();
        assert!(out[length..].iter().all(|byte| *byte == 0xEE));
        out[..length].to_vec()
    }

    fn with(payload: &[u8], place: usize, value: u32) -> Vec<u8> {
        let mut payload = payload.to_vec();
        payload[place..place + 4].copy_from_slice(&value.to_le_bytes());
        payload
    }

    #[test]
    fn both_forms_are_read_as_written() {
        let first = written(&record(31, None));
        assert_eq!(first.len(), 20);
        assert_eq!(read(Version::V1, &first).unwrap().rssi_threshold, u32::MAX);
        assert_eq!(read(Version::V2, &first), Err(Refusal::new(1, 20)));
        for count in 1..=16 {
            let entries = vec![known(0, 128); count];
            let payload = written(&record(99, Some(&entries)));
            assert_eq!(payload.len(), 32 + 20 * count);
            let shown = read(Version::V2, &payload).unwrap().rsrp_snr.unwrap();
            assert_eq!(shown.count(), count);
            assert_eq!(shown.iter().collect::<Vec<_>>(), entries);
            assert_eq!(shown.get(count), None);
            assert_eq!(read(Version::V1, &payload), Err(Refusal::new(2, payload.len())));
        }
    }

    #[test]
    fn no_entries_are_the_pair_of_zeros() {
        let payload = written(&record(31, Some(&[])));
        assert_eq!(payload.len(), 28);
        assert_eq!(&payload[20..], &[0; 8]);
        assert_eq!(read(Version::V2, &payload).unwrap().rsrp_snr.unwrap().count(), 0);
    }

    #[test]
    fn the_list_is_judged_in_its_order() {
        let payload = written(&record(99, Some(&[known(126, 127), known(127, 128)])));
        let read = |payload: &[u8]| read(Version::V2, payload).map(|_| ());
        assert_eq!(read(&with(&payload, 24, 325)), Err(Refusal::new(8, 20)));
        assert_eq!(read(&with(&payload, 20, 24)), Err(Refusal::new(6, 20)));
        assert_eq!(read(&with(&payload, 20, 27)), Err(Refusal::new(6, 20)));
        assert_eq!(read(&with(&payload, 20, 29)), Err(Refusal::new(17, 20)));
        assert_eq!(read(&with(&with(&payload, 20, 29), 24, 3)), Err(Refusal::new(17, 20)));
        assert_eq!(read(&with(&payload, 24, 45)), Err(Refusal::new(7, 20)));
        assert_eq!(read(&with(&payload, 24, 3)), Err(Refusal::new(8, 20)));
        assert_eq!(read(&with(&with(&payload, 24, 4), 28, 0)), Err(Refusal::new(15, 28)));
        assert_eq!(read(&with(&payload, 28, 17)), Err(Refusal::new(15, 28)));
        assert_eq!(read(&with(&payload, 28, 1)), Err(Refusal::new(8, 20)));
        assert_eq!(read(&with(&payload, 32, 128)), Err(Refusal::new(9, 32)));
        assert_eq!(read(&with(&payload, 36, 129)), Err(Refusal::new(9, 36)));
        assert_eq!(read(&with(&payload, 48, 0)), Err(Refusal::new(9, 48)));
        assert_eq!(read(&with(&payload, 68, 0xC0)), Err(Refusal::new(9, 68)));
        assert_eq!(read(&with(&payload, 0, 31)), Err(Refusal::new(10, 0)));
    }

    #[test]
    fn a_list_of_size_0_is_no_entries_or_18() {
        let known = written(&record(99, Some(&[known(126, 127)])));
        for rssi in [31, 99] {
            let good = with(&with(&known, 0, rssi), 24, 0);
            for payload in [&good[..], &good[..28]] {
                let absent = with(payload, 20, 0);
                let shown = read(Version::V2, &absent).unwrap();
                assert_eq!((shown.rssi, shown.rsrp_snr.unwrap().count()), (rssi, 0));
                assert_eq!(read_with(Version::V2, ZeroSize::Strict, &absent), Ok(shown));
                for offset in [1, 3, 4, 20, 27, 28, 29, 4096, 0xFFFF_FFFC, u32::MAX] {
                    let stray = with(payload, 20, offset);
                    let by = |zero_size| read_with(Version::V2, zero_size, &stray);
                    assert_eq!(read(Version::V2, &stray), Ok(shown));
                    assert_eq!(by(ZeroSize::Absent), Ok(shown));
                    assert_eq!(by(ZeroSize::Strict), Err(Refusal::new(18, 20)));
                }
            }
        }
    }

    #[test]
    fn a_stray_offset_comes_after_the_numbers() {
        let stray = with(&written(&record(99, Some(&[]))), 20, 28);
        for zero_size in [ZeroSize::Absent, ZeroSize::Strict] {
            let read = |payload: &[u8]| read_with(Version::V2, zero_size, payload).map(|_| ());
            assert_eq!(read(&with(&stray, 0, 32)), Err(Refusal::new(9, 0)));
            assert_eq!(read(&with(&stray, 4, 8)), Err(Refusal::new(9, 4)));
            assert_eq!(read(&stray[..27]), Err(Refusal::new(1, 27)));
            let first = written(&record(31, None));
            assert!(read_with(Version::V1, zero_size, &first).is_ok());
            assert_eq!(read_with(Version::V1, zero_size, &stray), Err(Refusal::new(2, 28)));
        }
    }

    #[test]
    fn the_system_type_has_one_bit_so_hspa_is_refused() {
        let good = [known(1, 1), known(127, 128)];
        let payload = written(&record(99, Some(&good)));
        for (number, place) in [(0, 48), (1, 68)] {
            for class in [data_class::HSPA, 0x28] {
                let refusal = Refusal::new(9, place);
                assert_eq!(read(Version::V2, &with(&payload, place, class)), Err(refusal));
                let mut entries = good;
                entries[number].system_type = class;
                assert_eq!(write(&record(99, Some(&entries)), &mut []), Err(refusal));
            }
            for class in [data_class::HSDPA, data_class::HSUPA] {
                assert!(read(Version::V2, &with(&payload, place, class)).is_ok());
            }
        }
    }

    #[test]
    fn unknown_codes_leave_rssi_free() {
        let unknown = [known(127, 128)];
        assert!(read(Version::V2, &written(&record(17, Some(&unknown)))).is_ok());
        let zero = [known(127, 128), known(127, 0)];
        assert_eq!(write(&record(17, Some(&zero)), &mut []), Err(Refusal::new(10, 0)));
    }

    #[test]
    fn the_writer_has_the_readers_order() {
        let many = [known(200, 200); 17];
        assert_eq!(write(&record(32, Some(&many)), &mut []), Err(Refusal::new(9, 0)));
        assert_eq!(write(&record(99, Some(&many)), &mut []), Err(Refusal::new(8, 20)));
        assert_eq!(write(&record(99, Some(&many[1..])), &mut []), Err(Refusal::new(9, 32)));
        let one = [known(1, 1)];
        assert_eq!(write(&record(99, Some(&one)), &mut [0; 51]), Err(Refusal::new(11, 52)));
        assert_eq!(write(&record(99, None), &mut [0; 19]), Err(Refusal::new(11, 20)));
    }

    #[test]
    fn lengths_and_numbers() {
        assert_eq!(read(Version::V1, &[]), Err(Refusal::new(1, 0)));
        assert_eq!(read(Version::V1, &[0xFF; 21]), Err(Refusal::new(2, 21)));
        assert_eq!(read(Version::V2, &[0xFF; 27]), Err(Refusal::new(1, 27)));
        assert_eq!(read(Version::V2, &[0xFF; 4097]), Err(Refusal::new(5, 0)));
        assert_eq!(read(Version::V1, &[0xFF; 20]), Err(Refusal::new(9, 0)));
        let payload = written(&record(99, None));
        assert_eq!(read(Version::V1, &with(&payload, 4, 8)), Err(Refusal::new(9, 4)));
        assert_eq!(read(Version::V1, &with(&payload, 0, 98)), Err(Refusal::new(9, 0)));
    }
}
