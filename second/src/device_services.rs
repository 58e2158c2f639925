//! The DEVICE_SERVICES payload: a list of elements, each a service with its CIDs.
//! The whole list is judged before anything of it is shown; only `ask` goes from element to
//! element and stops at what it looks for.

use crate::bytes::{put, put_word, service, word};
use crate::pair::{judge_list, Bounds, Range, ZeroSize};
use crate::refusal::{
    require, Refusal, COUNT_OVER_LIMIT, FIELDS_CONTRADICT, INFORMATION_TOO_LONG, OUTPUT_TOO_SMALL,
    SIZE_WRONG, TOO_SHORT,
};
use crate::{ServiceId, MAX_INFORMATION};

/// Most elements of a list.
pub const MAX_ELEMENTS: usize = 32;
/// The numbers of an element besides its CIDs.
const FIELDS: usize = 7;
/// Most CIDs of an element.
pub const MAX_CIDS: usize = 128;

const DEVICE_SERVICES_COUNT: usize = 0;
const MAX_DSS_SESSIONS: usize = 4;
const PAIRS: usize = 8;
const PAIR: usize = 8;

const DEVICE_SERVICE_ID: usize = 0;
const DSS_PAYLOAD: usize = 16;
const MAX_DSS_INSTANCES: usize = 20;
const CID_COUNT: usize = 24;
const CID_LIST: usize = 28;
const CID: usize = 4;
const SIZE_LIMIT: u32 = (CID_LIST + CID * MAX_CIDS) as u32;

/// An element to write.
#[derive(Clone, Copy, Debug, PartialEq, Eq)]
pub struct Element<'a> {
    pub device_service_id: ServiceId,
    pub dss_payload: u32,
    pub max_dss_instances: u32,
    pub cids: &'a [u32],
}

/// An element shown beside its CIDs, which stand in the caller's list.
#[derive(Clone, Copy, Debug, PartialEq, Eq)]
pub struct Shown {
    pub device_service_id: ServiceId,
    pub dss_payload: u32,
    pub max_dss_instances: u32,
    pub cid_count: usize,
}

/// Where a CID stands: the number of its element and its own number in that, both from 0.
#[derive(Clone, Copy, Debug, PartialEq, Eq)]
pub struct Position {
    pub element: usize,
    pub cid: usize,
}

/// An accepted payload.
#[derive(Clone, Copy, Debug, PartialEq, Eq)]
pub struct DeviceServices<'a> {
    payload: &'a [u8],
    count: usize,
}

/// Reads a payload. An element of size 0 is absent, which is 8.
#[inline]
pub fn read(payload: &[u8]) -> Result<DeviceServices<'_>, Refusal> {
    read_with(ZeroSize::default(), payload)
}

/// Reads a payload as `read` does, but by this choice where an element has size 0.
#[inline]
pub fn read_with(zero_size: ZeroSize, payload: &[u8]) -> Result<DeviceServices<'_>, Refusal> {
    let (count, bounds) = judge_head(payload)?;
    for number in 0..count {
        judge_element(payload, PAIRS + PAIR * number, zero_size, bounds)?;
    }
    Ok(DeviceServices { payload, count })
}

/// The element of this number, from 0, its CIDs put into the list.
/// No such element: `None`.
#[inline]
pub fn element(payload: &[u8], number: u32, list: &mut [u32]) -> Result<Option<Shown>, Refusal> {
    element_with(ZeroSize::default(), payload, number, list)
}

/// Answers as `element` does, but by this choice where an element has size 0.
#[inline]
pub fn element_with(
    zero_size: ZeroSize,
    payload: &[u8],
    number: u32,
    list: &mut [u32],
) -> Result<Option<Shown>, Refusal> {
    match read_with(zero_size, payload)?.element(number as usize) {
        None => Ok(None),
        Some(bytes) => show(bytes, list).map(Some),
    }
}

/// The first element of this service, its CIDs put into the list.
/// No such element: `None`.
#[inline]
pub fn first_of_service(
    payload: &[u8],
    service_id: &ServiceId,
    list: &mut [u32],
) -> Result<Option<Shown>, Refusal> {
    first_of_service_with(ZeroSize::default(), payload, service_id, list)
}

/// Answers as `first_of_service` does, but by this choice where an element has size 0.
#[inline]
pub fn first_of_service_with(
    zero_size: ZeroSize,
    payload: &[u8],
    service_id: &ServiceId,
    list: &mut [u32],
) -> Result<Option<Shown>, Refusal> {
    let services = read_with(zero_size, payload)?;
    let mut elements = services.elements();
    match elements.find(|bytes| service(bytes, DEVICE_SERVICE_ID) == *service_id) {
        None => Ok(None),
        Some(bytes) => show(bytes, list).map(Some),
    }
}

/// All elements, each as its seven numbers, and all CIDs, element by element, put into the lists: how
/// many of each. A list too small is 11, the elements' before the CIDs'.
#[inline]
pub fn all(
    payload: &[u8],
    fields: &mut [u32],
    list: &mut [u32],
) -> Result<(usize, usize), Refusal> {
    all_with(ZeroSize::default(), payload, fields, list)
}

/// Answers as `all` does, but by this choice where an element has size 0.
#[inline]
pub fn all_with(
    zero_size: ZeroSize,
    payload: &[u8],
    fields: &mut [u32],
    list: &mut [u32],
) -> Result<(usize, usize), Refusal> {
    let services = read_with(zero_size, payload)?;
    let total = services.elements().map(|bytes| word(bytes, CID_COUNT) as usize).sum();
    let needed = Refusal::new(OUTPUT_TOO_SMALL, CID_LIST * services.count);
    let rows = fields.get_mut(..FIELDS * services.count).ok_or(needed)?;
    let needed = Refusal::new(OUTPUT_TOO_SMALL, CID * total);
    let room = list.get_mut(..total).ok_or(needed)?;
    for (row, bytes) in rows.chunks_exact_mut(FIELDS).zip(services.elements()) {
        for (place, number) in row.iter_mut().enumerate() {
            *number = word(bytes, 4 * place);
        }
    }
    for (place, cid) in room.iter_mut().zip(services.elements().flat_map(cids)) {
        *place = cid;
    }
    Ok((services.count, total))
}

/// Whether any element holds both this service and this CID.
#[inline]
pub fn listed(payload: &[u8], service_id: &ServiceId, cid: u32) -> Result<bool, Refusal> {
    listed_with(ZeroSize::default(), payload, service_id, cid)
}

/// Answers as `listed` does, but by this choice where an element has size 0.
#[inline]
pub fn listed_with(
    zero_size: ZeroSize,
    payload: &[u8],
    service_id: &ServiceId,
    cid: u32,
) -> Result<bool, Refusal> {
    Ok(read_with(zero_size, payload)?.lists(service_id, cid))
}

/// Where this service and this CID stand first, in listed order; `None` where no element holds
/// both. Elements are judged one by one, each in full before its CIDs count, and those after
/// the match not at all: a list that `read` refuses may have an answer.
#[inline]
pub fn ask(payload: &[u8], service_id: &ServiceId, cid: u32) -> Result<Option<Position>, Refusal> {
    ask_with(ZeroSize::default(), payload, service_id, cid)
}

/// Answers as `ask` does, but by this choice where an element has size 0.
#[inline]
pub fn ask_with(
    zero_size: ZeroSize,
    payload: &[u8],
    service_id: &ServiceId,
    cid: u32,
) -> Result<Option<Position>, Refusal> {
    let (count, bounds) = judge_head(payload)?;
    for number in 0..count {
        let field = PAIRS + PAIR * number;
        judge_element(payload, field, zero_size, bounds)?;
        let bytes = Range::at(payload, field).of(payload);
        if service(bytes, DEVICE_SERVICE_ID) != *service_id {
            continue;
        }
        if let Some(place) = cids(bytes).position(|listed| listed == cid) {
            return Ok(Some(Position { element: number, cid: place }));
        }
    }
    Ok(None)
}

impl<'a> DeviceServices<'a> {
    #[inline]
    pub fn count(&self) -> usize {
        self.count
    }

    #[inline]
    pub fn max_dss_sessions(&self) -> u32 {
        word(self.payload, MAX_DSS_SESSIONS)
    }

    /// Whether any element holds both this service and this CID.
    #[inline]
    pub fn lists(&self, service_id: &ServiceId, cid: u32) -> bool {
        let of_service = |bytes: &&[u8]| service(bytes, DEVICE_SERVICE_ID) == *service_id;
        let mut elements = self.elements().filter(of_service);
        elements.any(|bytes| cids(bytes).any(|listed| listed == cid))
    }

    #[inline]
    fn element(&self, number: usize) -> Option<&'a [u8]> {
        let show = || Range::at(self.payload, PAIRS + PAIR * number).of(self.payload);
        (number < self.count).then(show)
    }

    #[inline]
    fn elements(&self) -> impl Iterator<Item = &'a [u8]> {
        let payload = self.payload;
        (0..self.count).map(move |number| Range::at(payload, PAIRS + PAIR * number).of(payload))
    }
}

/// Writes a list and gives the length written: 15, then each element's size, then 5 and 11.
#[inline]
pub fn write(
    max_dss_sessions: u32,
    elements: &[Element],
    out: &mut [u8],
) -> Result<usize, Refusal> {
    require(elements.len() <= MAX_ELEMENTS, COUNT_OVER_LIMIT, DEVICE_SERVICES_COUNT)?;
    let fixed = PAIRS + PAIR * elements.len();
    let length = judge_sizes(elements, fixed)?;
    require(length <= MAX_INFORMATION, INFORMATION_TOO_LONG, 0)?;
    let room = out.get_mut(..length).ok_or(Refusal::new(OUTPUT_TOO_SMALL, length))?;
    put_word(room, DEVICE_SERVICES_COUNT, elements.len() as u32);
    put_word(room, MAX_DSS_SESSIONS, max_dss_sessions);
    let mut offset = fixed;
    for (number, element) in elements.iter().enumerate() {
        let size = size(element);
        put_word(room, PAIRS + PAIR * number, offset as u32);
        put_word(room, PAIRS + PAIR * number + 4, size as u32);
        put_element(element, room.get_mut(offset..).unwrap_or_default());
        offset += size;
    }
    Ok(length)
}

/// Writes what `all` shows and gives the length written. Numbers that are no whole elements are 15; then
/// as `write` judges, but counts that are not those of the CIDs given are 10, before 11.
#[inline]
pub fn write_all(
    max_dss_sessions: u32,
    fields: &[u32],
    list: &[u32],
    out: &mut [u8],
) -> Result<usize, Refusal> {
    let rows = fields.chunks_exact(FIELDS);
    require(rows.remainder().is_empty(), COUNT_OVER_LIMIT, DEVICE_SERVICES_COUNT)?;
    require(rows.len() <= MAX_ELEMENTS, COUNT_OVER_LIMIT, DEVICE_SERVICES_COUNT)?;
    let fixed = PAIRS + PAIR * rows.len();
    let mut total = 0;
    for (number, row) in rows.clone().enumerate() {
        let fits = counted(row) <= MAX_CIDS;
        require(fits, SIZE_WRONG, PAIRS + PAIR * number)?;
        total += counted(row);
    }
    let length = fixed + CID_LIST * rows.len() + CID * total;
    require(length <= MAX_INFORMATION, INFORMATION_TOO_LONG, 0)?;
    require(total == list.len(), FIELDS_CONTRADICT, 0)?;
    let room = out.get_mut(..length).ok_or(Refusal::new(OUTPUT_TOO_SMALL, length))?;
    let (pairs, mut elements) = room.split_at_mut(fixed);
    put_word(pairs, DEVICE_SERVICES_COUNT, rows.len() as u32);
    put_word(pairs, MAX_DSS_SESSIONS, max_dss_sessions);
    let (mut offset, mut cids) = (fixed, list);
    for (number, row) in rows.enumerate() {
        let (own, later) = cids.split_at_checked(counted(row)).unwrap_or_default();
        let size = CID_LIST + CID * own.len();
        put_word(pairs, PAIRS + PAIR * number, offset as u32);
        put_word(pairs, PAIRS + PAIR * number + 4, size as u32);
        let (element, rest) = elements.split_at_mut_checked(size).unwrap_or_default();
        put_words(element, row);
        put_words(element.get_mut(CID_LIST..).unwrap_or_default(), own);
        (offset, cids, elements) = (offset + size, later, rest);
    }
    Ok(length)
}

/// What comes before the elements: length, count, pairs missing, and the 4,096. Gives the count
/// and what pairs are judged by.
#[inline(always)]
fn judge_head(payload: &[u8]) -> Result<(usize, Bounds), Refusal> {
    let length = payload.len();
    require(length >= PAIRS, TOO_SHORT, length)?;
    let count = word(payload, DEVICE_SERVICES_COUNT) as usize;
    require(count <= MAX_ELEMENTS, COUNT_OVER_LIMIT, DEVICE_SERVICES_COUNT)?;
    let bounds = Bounds { fixed: PAIRS + PAIR * count, length };
    require(length >= bounds.fixed, TOO_SHORT, length)?;
    require(length <= MAX_INFORMATION, INFORMATION_TOO_LONG, 0)?;
    Ok((count, bounds))
}

/// The pair's rules, then its element: size, count, size against count.
#[inline(always)]
fn judge_element(
    payload: &[u8],
    field: usize,
    zero_size: ZeroSize,
    bounds: Bounds,
) -> Result<(), Refusal> {
    let pair = Range::at(payload, field);
    judge_list(pair, field, SIZE_LIMIT, zero_size, bounds)?;
    let size = pair.size as usize;
    require(size >= CID_LIST, SIZE_WRONG, field)?;
    let place = pair.offset as usize + CID_COUNT;
    let count = word(payload, place) as usize;
    require(count <= MAX_CIDS, COUNT_OVER_LIMIT, place)?;
    require(size == CID_LIST + CID * count, SIZE_WRONG, field)
}

/// The CIDs of an accepted element.
#[inline]
fn cids(element: &[u8]) -> impl Iterator<Item = u32> + '_ {
    let list = element.get(CID_LIST..).unwrap_or_default();
    list.chunks_exact(CID).map(|bytes| word(bytes, 0))
}

/// Fills the caller's list; too small is 11, and leaves it as it was.
#[inline]
fn show(element: &[u8], list: &mut [u32]) -> Result<Shown, Refusal> {
    let cid_count = word(element, CID_COUNT) as usize;
    let needed = Refusal::new(OUTPUT_TOO_SMALL, CID * cid_count);
    let room = list.get_mut(..cid_count).ok_or(needed)?;
    for (place, cid) in room.iter_mut().zip(cids(element)) {
        *place = cid;
    }
    Ok(Shown {
        device_service_id: service(element, DEVICE_SERVICE_ID),
        dss_payload: word(element, DSS_PAYLOAD),
        max_dss_instances: word(element, MAX_DSS_INSTANCES),
        cid_count,
    })
}

#[inline(always)]
fn size(element: &Element) -> usize {
    CID_LIST + CID * element.cids.len()
}

/// Each element's size by its limit; gives the length of the whole payload.
#[inline(always)]
fn judge_sizes(elements: &[Element], fixed: usize) -> Result<usize, Refusal> {
    let mut length = fixed;
    for (number, element) in elements.iter().enumerate() {
        let fits = element.cids.len() <= MAX_CIDS;
        require(fits, SIZE_WRONG, PAIRS + PAIR * number)?;
        length += size(element);
    }
    Ok(length)
}

/// The CIDs that an element's numbers count.
#[inline(always)]
fn counted(row: &[u32]) -> usize {
    row.last().map_or(0, |count| *count as usize)
}

#[inline(always)]
fn put_words(out: &mut [u8], words: &[u32]) {
    for (bytes, value) in out.chunks_exact_mut(4).zip(words) {
        put_word(bytes, 0, *value);
    }
}

#[inline(always)]
fn put_element(element: &Element, out: &mut [u8]) {
    put(out, DEVICE_SERVICE_ID, &element.device_service_id);
    put_word(out, DSS_PAYLOAD, element.dss_payload);
    put_word(out, MAX_DSS_INSTANCES, element.max_dss_instances);
    put_word(out, CID_COUNT, element.cids.len() as u32);
    put_words(out.get_mut(CID_LIST..).unwrap_or_default(), element.cids);
}

#[cfg(test)]
mod tests {
    use super::*;

    const A: ServiceId = [0xA; 16];
    const B: ServiceId = [0xB; 16];
    const CHOICES: [ZeroSize; 2] = [ZeroSize::Absent, ZeroSize::Strict];

    fn of(device_service_id: ServiceId, cids: &[u32]) -> Element<'_> {
        Element { device_service_id, dss_payload: 1, max_dss_instances: 2, cids }
    }

    fn written(elements: &[Element]) -> Vec<u8> {
        let mut out = [0xEE; 5000];
        let length = write(7, elements, &mut out).unwrap();
        assert!(out[length..].iter().all(|byte| *byte == 0xEE));
        out[..length].to_vec()
    }

    fn with(payload: &[u8], place: usize, value: u32) -> Vec<u8> {
        let mut payload = payload.to_vec();
        payload[place..place + 4].copy_from_slice(&value.to_le_bytes());
        payload
    }

    #[test]
    fn a_list_is_read_as_written() {
        let payload = written(&[of(A, &[1, 2]), of(B, &[]), of(A, &[3])]);
        assert_eq!(payload.len(), 8 + 24 + 36 + 28 + 32);
        let services = read(&payload).unwrap();
        assert_eq!((services.count(), services.max_dss_sessions()), (3, 7));
        let mut list = [99; 4];
        let shown = first_of_service(&payload, &A, &mut list).unwrap().unwrap();
        assert_eq!((shown.cid_count, list), (2, [1, 2, 99, 99]));
        let shown = element(&payload, 2, &mut list).unwrap().unwrap();
        assert_eq!((shown.device_service_id, shown.cid_count), (A, 1));
        assert_eq!(list, [3, 2, 99, 99]);
        assert_eq!(element(&payload, 3, &mut list), Ok(None));
        assert_eq!(element(&payload, u32::MAX, &mut []), Ok(None));
        assert_eq!(first_of_service(&payload, &[0; 16], &mut []), Ok(None));
    }

    #[test]
    fn any_element_with_both_is_listed() {
        let payload = written(&[of(A, &[1, 2]), of(B, &[]), of(A, &[3])]);
        assert_eq!(listed(&payload, &A, 3), Ok(true));
        assert_eq!(listed(&payload, &B, 3), Ok(false));
        assert_eq!(listed(&payload, &A, 4), Ok(false));
        assert_eq!(listed(&[], &A, 4), Err(Refusal::new(1, 0)));
    }

    #[test]
    fn a_small_list_is_11_in_bytes_and_untouched() {
        let payload = written(&[of(A, &[1, 2])]);
        let mut list = [99; 1];
        let refused = Err(Refusal::new(11, 8));
        assert_eq!(first_of_service(&payload, &A, &mut list), refused);
        assert_eq!(element(&payload, 0, &mut list), refused);
        assert_eq!(list, [99]);
    }

    #[test]
    fn lengths_and_count_in_their_order() {
        let read = |payload: &[u8]| read(payload).map(|services| services.count());
        assert_eq!(read(&[]), Err(Refusal::new(1, 0)));
        assert_eq!(read(&[0xFF; 7]), Err(Refusal::new(1, 7)));
        assert_eq!(read(&with(&[0; 8], 0, 33)), Err(Refusal::new(15, 0)));
        assert_eq!(read(&with(&[0; 8], 0, u32::MAX)), Err(Refusal::new(15, 0)));
        assert_eq!(read(&with(&[0; 263], 0, 32)), Err(Refusal::new(1, 263)));
        assert_eq!(read(&with(&[0; 4097], 0, 32)), Err(Refusal::new(5, 0)));
        assert_eq!(read(&[0; 4096]), Ok(0));
        assert_eq!(read(&with(&[0; 264], 0, 32)), Err(Refusal::new(8, 8)));
    }

    #[test]
    fn pairs_and_elements_in_their_order() {
        let payload = written(&[of(A, &[1]), of(B, &[2, 3])]);
        let read = |payload: &[u8]| read(payload).map(|services| services.count());
        assert_eq!(read(&with(&payload, 20, 541)), Err(Refusal::new(8, 16)));
        assert_eq!(read(&with(&payload, 20, 0)), Err(Refusal::new(8, 16)));
        assert_eq!(read(&with(&payload, 16, 20)), Err(Refusal::new(6, 16)));
        assert_eq!(read(&with(&payload, 16, 0xFFFF_FFFC)), Err(Refusal::new(7, 16)));
        assert_eq!(read(&with(&payload, 20, 27)), Err(Refusal::new(8, 16)));
        assert_eq!(read(&with(&payload, 24 + 24, 129)), Err(Refusal::new(15, 48)));
        assert_eq!(read(&with(&payload, 24 + 24, 2)), Err(Refusal::new(8, 8)));
        assert_eq!(read(&with(&payload, 12, 31)), Err(Refusal::new(8, 8)));
    }

    /// That whatever is asked, and by either choice, the list is refused with these numbers at 16.
    fn assert_refused(payload: &[u8], absent: u32, strict: u32) {
        let plain = Refusal::new(absent, 16);
        assert_eq!(read(payload), Err(plain));
        assert_eq!(element(payload, 0, &mut []), Err(plain));
        assert_eq!(first_of_service(payload, &A, &mut []), Err(plain));
        assert_eq!(all(payload, &mut [], &mut []), Err(plain));
        assert_eq!(listed(payload, &A, 1), Err(plain));
        for (zero_size, number) in [(ZeroSize::Absent, absent), (ZeroSize::Strict, strict)] {
            let refusal = Refusal::new(number, 16);
            assert_eq!(read_with(zero_size, payload), Err(refusal));
            assert_eq!(element_with(zero_size, payload, 0, &mut []), Err(refusal));
            assert_eq!(first_of_service_with(zero_size, payload, &A, &mut []), Err(refusal));
            assert_eq!(all_with(zero_size, payload, &mut [], &mut []), Err(refusal));
            assert_eq!(listed_with(zero_size, payload, &A, 1), Err(refusal));
        }
    }

    #[test]
    fn offset_faults_are_told_apart_wherever_the_list_is_read() {
        let payload = written(&[of(A, &[1]), of(B, &[2, 3])]);
        for (offset, size, number) in [(23, 28, 6), (57, 27, 17), (u32::MAX, 28, 17), (56, 37, 7)] {
            let payload = with(&with(&payload, 16, offset), 20, size);
            assert_refused(&payload, number, number);
        }
    }

    #[test]
    fn an_element_of_size_0_is_8_or_18() {
        let payload = with(&written(&[of(A, &[1]), of(B, &[2, 3])]), 20, 0);
        assert_refused(&with(&payload, 16, 0), 8, 8);
        for offset in [1, 3, 4, 23, 24, 52, 53, 56, 92, 4096, 0xFFFF_FFFC, u32::MAX] {
            assert_refused(&with(&payload, 16, offset), 8, 18);
        }
    }

    #[test]
    fn a_good_list_answers_alike_by_either_choice() {
        let payload = written(&[of(A, &[1, 2]), of(B, &[3])]);
        for zero_size in CHOICES {
            assert_eq!(read_with(zero_size, &payload), read(&payload));
            assert_eq!(listed_with(zero_size, &payload, &B, 3), Ok(true));
            assert_eq!(listed_with(zero_size, &payload, &A, 3), Ok(false));
            let mut list = [0; 2];
            let shown = element_with(zero_size, &payload, 1, &mut list).unwrap().unwrap();
            assert_eq!((shown.device_service_id, list), (B, [3, 0]));
            let shown = first_of_service_with(zero_size, &payload, &A, &mut list);
            assert_eq!((shown.unwrap().unwrap().cid_count, list), (2, [1, 2]));
            assert_eq!(all_with(zero_size, &payload, &mut [0; 14], &mut [0; 3]), Ok((2, 3)));
        }
    }

    /// That by either choice the CID of A stands here.
    fn assert_found(payload: &[u8], cid: u32, element: usize, place: usize) {
        let found = Ok(Some(Position { element, cid: place }));
        assert_eq!(ask(payload, &A, cid), found);
        for zero_size in CHOICES {
            assert_eq!(ask_with(zero_size, payload, &A, cid), found);
        }
    }

    /// That by either choice the question and the full reader refuse alike.
    fn assert_ask_refused(payload: &[u8], cid: u32, number: u32, place: usize) {
        let refusal = Refusal::new(number, place);
        assert_eq!(ask(payload, &A, cid), Err(refusal));
        for zero_size in CHOICES {
            assert_eq!(ask_with(zero_size, payload, &A, cid), Err(refusal));
            assert_eq!(read_with(zero_size, payload), Err(refusal));
        }
    }

    /// A:[1, 2], A:[3] and B:[3], with a fault of each kind in the element of this number: the
    /// payload, and its refusal by either choice.
    fn faults(element: usize) -> Vec<(Vec<u8>, u32, usize)> {
        let good = written(&[of(A, &[1, 2]), of(A, &[3]), of(B, &[3])]);
        let pair = 8 + 8 * element;
        let offset = word(&good, pair);
        let count = offset as usize + 24;
        let pairs = [(0, 28, 6), (33, 28, 17), (132, 28, 7), (32, 541, 8), (32, 27, 8), (0, 0, 8)];
        let pair_with = |at, size| with(&with(&good, pair, at), pair + 4, size);
        let mut all = pairs.map(|(at, size, number)| (pair_with(at, size), number, pair)).to_vec();
        all.push((with(&good, count, 129), 15, count));
        all.push((with(&good, count, 0), 8, pair));
        all.push((with(&good, count, 9), 8, pair));
        all.push((with(&good, pair + 4, word(&good, pair + 4) - 1), 8, pair));
        all
    }

    #[test]
    fn a_match_before_the_first_fault_is_found() {
        for (payload, number, place) in faults(2) {
            assert_found(&payload, 1, 0, 0);
            assert_found(&payload, 2, 0, 1);
            assert_found(&payload, 3, 1, 0);
            assert_ask_refused(&payload, 4, number, place);
            assert_eq!(ask(&payload, &B, 3), Err(Refusal::new(number, place)));
            assert_eq!(listed(&payload, &A, 1), Err(Refusal::new(number, place)));
        }
    }

    #[test]
    fn a_match_inside_a_faulty_element_or_behind_one_is_none() {
        for (payload, number, place) in faults(1) {
            assert_found(&payload, 2, 0, 1);
            assert_ask_refused(&payload, 3, number, place);
            assert_eq!(ask(&payload, &B, 3), Err(Refusal::new(number, place)));
        }
        for (payload, number, place) in faults(0) {
            for cid in [1, 2, 3, 4] {
                assert_ask_refused(&payload, cid, number, place);
            }
        }
    }

    #[test]
    fn of_two_faults_the_first_counts() {
        let good = written(&[of(A, &[1]), of(A, &[2]), of(A, &[3])]);
        let both = with(&with(&good, 8, 33), 24, 0);
        assert_ask_refused(&both, 2, 17, 8);
        let behind = with(&with(&good, 16, 33), 24, 0);
        assert_found(&behind, 1, 0, 0);
        assert_ask_refused(&behind, 3, 17, 16);
    }

    #[test]
    fn the_first_match_in_listed_order_is_shown() {
        let payload = written(&[of(B, &[5]), of(A, &[]), of(A, &[4, 5, 5]), of(A, &[5, 6, 4])]);
        assert_found(&payload, 4, 2, 0);
        assert_found(&payload, 5, 2, 1);
        assert_found(&payload, 6, 3, 1);
        assert_eq!(ask(&payload, &B, 5), Ok(Some(Position { element: 0, cid: 0 })));
        assert_eq!(ask(&payload, &B, 4), Ok(None));
        let cids: Vec<u32> = (0..128).collect();
        assert_found(&written(&[of(B, &cids), of(A, &cids)]), 127, 1, 127);
        assert_found(&written(&[[of(B, &[1]); 31].as_slice(), &[of(A, &[1])]].concat()), 1, 31, 0);
    }

    #[test]
    fn listed_order_is_that_of_the_pairs() {
        let good = written(&[of(A, &[1]), of(A, &[2, 1])]);
        let swapped = [&good[..8], &good[16..24], &good[8..16], &good[24..]].concat();
        assert_found(&swapped, 1, 0, 1);
        let same = [&good[..8], &good[16..24], &good[16..]].concat();
        assert_found(&same, 1, 0, 1);
    }

    #[test]
    fn length_and_count_come_before_a_match() {
        let good = written(&[of(A, &[1]), of(A, &[2])]);
        assert_found(&good, 1, 0, 0);
        for length in [0, 1, 7, 8, 15, 16, 23] {
            assert_ask_refused(&good[..length], 1, 1, length);
        }
        assert_ask_refused(&with(&good, 0, 33), 1, 15, 0);
        assert_ask_refused(&with(&good, 0, u32::MAX), 1, 15, 0);
        assert_ask_refused(&with(&good, 0, 32), 1, 1, good.len());
        assert_ask_refused(&with(&good, 0, 3), 1, 6, 8);
        let mut long = good.clone();
        long.resize(4096, 0);
        assert_found(&long, 2, 1, 0);
        long.push(0);
        assert_ask_refused(&long, 2, 5, 0);
        assert_eq!(ask(&with(&good, 0, 0), &A, 1), Ok(None));
        assert_eq!(ask(&with(&good, 0, 1), &A, 2), Ok(None));
    }

    #[test]
    fn an_accepted_list_answers_as_the_full_question() {
        for elements in [
            &[][..],
            &[of(A, &[])],
            &[of(A, &[1, 2]), of(B, &[]), of(A, &[3, 1])],
            &[of(B, &[2, 2]), of(B, &[1]), of(A, &[0, u32::MAX])],
        ] {
            let payload = written(elements);
            for service_id in [A, B, [0; 16]] {
                for cid in [0, 1, 2, 3, 4, 0x101, u32::MAX] {
                    let full = listed(&payload, &service_id, cid);
                    let asked = ask(&payload, &service_id, cid).map(|found| found.is_some());
                    assert_eq!(asked, full);
                }
            }
        }
    }

    #[test]
    fn an_element_of_size_0_is_asked_by_choice() {
        let good = written(&[of(A, &[1]), of(B, &[1]), of(A, &[2])]);
        for offset in [1, 3, 4, 32, 52, 4096, 0xFFFF_FFFC, u32::MAX] {
            let payload = with(&with(&good, 16, offset), 20, 0);
            assert_found(&payload, 1, 0, 0);
            for cid in [2, 3] {
                let [absent, strict] = [8, 18].map(|number| Err(Refusal::new(number, 16)));
                assert_eq!(ask(&payload, &A, cid), absent);
                assert_eq!(ask_with(ZeroSize::Absent, &payload, &A, cid), absent);
                assert_eq!(ask_with(ZeroSize::Strict, &payload, &A, cid), strict);
            }
        }
    }

    #[test]
    fn the_writer_judges_15_8_5_11() {
        let cids = [5; 129];
        let many = [of(A, &cids); 33];
        assert_eq!(write(0, &many, &mut []), Err(Refusal::new(15, 0)));
        assert_eq!(write(0, &many[..32], &mut []), Err(Refusal::new(8, 8)));
        let long = [of(A, &cids[..128]); 8];
        assert_eq!(write(0, &long, &mut []), Err(Refusal::new(5, 0)));
        let fits = 8 + 7 * (8 + 540);
        assert_eq!(write(0, &long[..7], &mut [0; 100]), Err(Refusal::new(11, fits)));
        assert_eq!(written(&long[..7]).len(), fits);
        assert_eq!(written(&[]), [0, 0, 0, 0, 7, 0, 0, 0]);
    }

    #[test]
    fn lists_are_written_as_shown() {
        let payload = written(&[of(A, &[1, 2]), of(B, &[]), of(A, &[3])]);
        let (mut fields, mut cids) = ([0; 21], [0; 3]);
        assert_eq!(all(&payload, &mut fields, &mut cids), Ok((3, 3)));
        let mut out = [0xEE; 200];
        assert_eq!(write_all(7, &fields, &cids, &mut out), Ok(payload.len()));
        assert_eq!(out[..payload.len()], payload);
        assert!(out[payload.len()..].iter().all(|byte| *byte == 0xEE));
    }

    #[test]
    fn lists_are_judged_15_8_5_10_11() {
        let write = |fields: &[u32], cids: &[u32]| write_all(0, fields, cids, &mut []);
        let rows = |cid_count: u32, count: usize| [1, 2, 3, 4, 5, 6, cid_count].repeat(count);
        assert_eq!(write(&rows(129, 33)[1..], &[]), Err(Refusal::new(15, 0)));
        assert_eq!(write(&rows(129, 33), &[]), Err(Refusal::new(15, 0)));
        assert_eq!(write(&rows(129, 32)[1..], &[]), Err(Refusal::new(15, 0)));
        assert_eq!(write(&rows(129, 32), &[]), Err(Refusal::new(8, 8)));
        assert_eq!(write(&[rows(1, 1), rows(u32::MAX, 1)].concat(), &[]), Err(Refusal::new(8, 16)));
        assert_eq!(write(&rows(128, 8), &[]), Err(Refusal::new(5, 0)));
        assert_eq!(write(&rows(2, 2), &[9; 3]), Err(Refusal::new(10, 0)));
        assert_eq!(write(&rows(2, 2), &[9; 5]), Err(Refusal::new(10, 0)));
        assert_eq!(write(&rows(2, 2), &[9; 4]), Err(Refusal::new(11, 8 + 2 * (8 + 36))));
        assert_eq!(write(&[], &[]), Err(Refusal::new(11, 8)));
    }
}
