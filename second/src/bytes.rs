//! Little-endian numbers in byte slices. Bytes that are not there read as 0
//! and are not written; callers judge lengths first.

#[inline(always)]
pub fn half(bytes: &[u8], place: usize) -> u16 {
    match bytes.get(place..).and_then(|rest| rest.first_chunk::<2>()) {
        Some(chunk) => u16::from_le_bytes(*chunk),
        None => 0,
    }
}

#[inline(always)]
pub fn word(bytes: &[u8], place: usize) -> u32 {
    match bytes.get(place..).and_then(|rest| rest.first_chunk::<4>()) {
        Some(chunk) => u32::from_le_bytes(*chunk),
        None => 0,
    }
}

#[inline(always)]
pub fn long(bytes: &[u8], place: usize) -> u64 {
    match bytes.get(place..).and_then(|rest| rest.first_chunk::<8>()) {
        Some(chunk) => u64::from_le_bytes(*chunk),
        None => 0,
    }
}

#[inline(always)]
pub fn service(bytes: &[u8], place: usize) -> crate::ServiceId {
    match bytes.get(place..).and_then(|rest| rest.first_chunk::<16>()) {
        Some(chunk) => *chunk,
        None => [0; 16],
    }
}

#[inline(always)]
pub fn put(out: &mut [u8], place: usize, bytes: &[u8]) {
    let rest = out.get_mut(place..).unwrap_or_default();
    if let Some(target) = rest.get_mut(..bytes.len()) {
        target.copy_from_slice(bytes);
    }
}

#[inline(always)]
pub fn put_word(out: &mut [u8], place: usize, value: u32) {
    put(out, place, &value.to_le_bytes());
}

#[inline(always)]
pub fn put_long(out: &mut [u8], place: usize, value: u64) {
    put(out, place, &value.to_le_bytes());
}

/// The next multiple of 4.
#[inline(always)]
pub fn padded(length: usize) -> usize {
    length.saturating_add(3) & !3
}

#[cfg(test)]
mod tests {
    use super::*;

    #[test]
    fn numbers_are_little_endian() {
        let bytes = [1, 2, 3, 4, 5, 6, 7, 8, 9];
        assert_eq!(half(&bytes, 1), 0x0302);
        assert_eq!(word(&bytes, 1), 0x0504_0302);
        assert_eq!(long(&bytes, 1), 0x0908_0706_0504_0302);
    }

    #[test]
    fn places_outside_read_zero_and_stay_unwritten() {
        let mut bytes = [7; 5];
        assert_eq!(word(&bytes, 2), 0);
        assert_eq!(word(&bytes, usize::MAX), 0);
        assert_eq!(service(&bytes, 0), [0; 16]);
        put_word(&mut bytes, 2, 0);
        put_word(&mut bytes, usize::MAX, 0);
        assert_eq!(bytes, [7; 5]);
    }

    #[test]
    fn padding_goes_to_a_multiple_of_four() {
        assert_eq!([0, 1, 4, 5, 126].map(padded), [0, 4, 4, 8, 128]);
    }
}
