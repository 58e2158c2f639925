//! Data class bits of both versions.

use crate::version::Version;

/// Bits 0 to 5, 16 to 22 and 31.
pub const MASK_V1: u32 = 0x807F_003F;
/// The same and the two 5G bits.
pub const MASK_V2: u32 = 0x807F_00FF;
pub const HSDPA: u32 = 0x8;
pub const HSUPA: u32 = 0x10;
/// HSPA is both: the only class of two bits.
pub const HSPA: u32 = HSDPA | HSUPA;
/// 5G, not standalone.
pub const FIVE_G_NSA: u32 = 0x40;
/// 5G, standalone.
pub const FIVE_G_SA: u32 = 0x80;

#[inline]
pub const fn mask(version: Version) -> u32 {
    match version {
        Version::V1 => MASK_V1,
        Version::V2 => MASK_V2,
    }
}

/// No bit outside the table.
#[inline]
pub const fn is_subset(version: Version, class: u32) -> bool {
    class & !mask(version) == 0
}

/// A subset with at most one bit.
#[inline]
pub const fn is_at_most_one(version: Version, class: u32) -> bool {
    is_subset(version, class) && class.count_ones() <= 1
}

/// A class of the packet service: a subset with at most one bit, or HSPA.
#[inline]
pub const fn is_packet_class(version: Version, class: u32) -> bool {
    is_at_most_one(version, class) || class == HSPA
}

/// A subset with exactly one bit.
#[inline]
pub const fn is_exactly_one(version: Version, class: u32) -> bool {
    is_subset(version, class) && class.count_ones() == 1
}

#[inline]
pub const fn is_five_g(class: u32) -> bool {
    class == FIVE_G_NSA || class == FIVE_G_SA
}

#[cfg(test)]
mod tests {
    use super::*;

    #[test]
    fn masks_have_the_listed_bits() {
        let bits = |bit: u32| bit <= 5 || (16..=22).contains(&bit) || bit == 31;
        for bit in 0..32 {
            assert_eq!(is_subset(Version::V1, 1 << bit), bits(bit));
            assert_eq!(is_subset(Version::V2, 1 << bit), bits(bit) || bit == 6 || bit == 7);
        }
    }

    #[test]
    fn counts_of_bits() {
        assert!(is_at_most_one(Version::V1, 0) && !is_exactly_one(Version::V1, 0));
        assert!(is_exactly_one(Version::V2, 0x40) && !is_at_most_one(Version::V1, 0x40));
        assert!(!is_at_most_one(Version::V2, 0xC0) && is_subset(Version::V2, 0xC0));
        assert!(is_five_g(0x40) && is_five_g(0x80) && !is_five_g(0xC0) && !is_five_g(0));
    }

    #[test]
    fn hspa_is_the_only_packet_class_of_several_bits() {
        assert_eq!(HSPA, 0x18);
        for version in [Version::V1, Version::V2] {
            for class in 0..0x1_0000 {
                let is_one = class == 0 || is_exactly_one(version, class);
                assert_eq!(is_packet_class(version, class), is_one || class == 0x18);
            }
            assert!(is_subset(version, HSPA));
            assert!(!is_at_most_one(version, HSPA) && !is_exactly_one(version, HSPA));
        }
        assert!(!is_five_g(HSPA));
    }
}
