//! Numbers in bytes, and classes of addresses. Little-endian reads are one load: they serve where bytes are only compared,
//! masked or carried over, and a number's own order plays no part.

/// N bytes where they lie.
#[inline(always)]
pub fn part<const N: usize>(bytes: &[u8], at: usize) -> &[u8; N] {
    bytes[at..at + N].try_into().expect("N bytes")
}

/// The first N bytes, to be written.
#[inline(always)]
pub fn part_mut<const N: usize>(bytes: &mut [u8]) -> &mut [u8; N] {
    bytes.first_chunk_mut().expect("N bytes")
}

/// N bytes by value.
#[inline(always)]
pub fn field<const N: usize>(bytes: &[u8], at: usize) -> [u8; N] {
    *part(bytes, at)
}

#[inline(always)]
pub fn be16(bytes: &[u8], at: usize) -> u16 {
    u16::from_be_bytes(field(bytes, at))
}

#[inline(always)]
pub fn be32(bytes: &[u8], at: usize) -> u32 {
    u32::from_be_bytes(field(bytes, at))
}

#[inline(always)]
pub fn be64(bytes: &[u8], at: usize) -> u64 {
    u64::from_be_bytes(field(bytes, at))
}

#[inline(always)]
pub fn le16(bytes: &[u8], at: usize) -> u16 {
    u16::from_le_bytes(field(bytes, at))
}

#[inline(always)]
pub fn le32(bytes: &[u8], at: usize) -> u32 {
    u32::from_le_bytes(field(bytes, at))
}

#[inline(always)]
pub fn le64(bytes: &[u8], at: usize) -> u64 {
    u64::from_le_bytes(field(bytes, at))
}

/// Writes a field at its place.
#[inline(always)]
pub fn put<const N: usize>(bytes: &mut [u8], at: usize, field: [u8; N]) {
    bytes[at..at + N].copy_from_slice(&field);
}

/// No group, no source, or an upstream that is not known: all ones, in either order.
pub const ALL_ONES: u32 = u32::MAX;

/// What an address is by its first octet. A table, since it is asked of every entry of a sheet.
#[derive(Clone, Copy, PartialEq, Eq)]
pub enum Class {
    /// First octet 1 to 223, not 127.
    Unicast,
    /// First octet 0 or 255, as 0 and all ones have.
    Edge,
    Other,
}

static CLASSES: [Class; 256] = {
    let mut classes = [Class::Other; 256];
    let mut octet = 1;
    while octet < 224 {
        classes[octet] = Class::Unicast;
        octet += 1;
    }
    classes[127] = Class::Other;
    (classes[0], classes[255]) = (Class::Edge, Class::Edge);
    classes
};

#[inline(always)]
pub fn class(first_octet: u8) -> Class {
    CLASSES[usize::from(first_octet)]
}

#[inline(always)]
pub fn is_unicast(first_octet: u8) -> bool {
    class(first_octet) == Class::Unicast
}

/// First octet 224 to 239.
#[inline(always)]
pub fn is_multicast(first_octet: u8) -> bool {
    first_octet & 0xf0 == 0xe0
}

/// In 224.0.0.0/24.
#[inline(always)]
pub fn is_link_scoped(address: u32) -> bool {
    address >> 8 == 0x00e0_0000
}

/// Whether two addresses agree in so many bits, at most 32: their difference, moved up by as many, stays below 2^32. On plain
/// x86-64 that is less than counting its leading zeros, which has no instruction that is right for 0.
#[inline(always)]
pub fn agree(one: u32, other: u32, bits: u8) -> bool {
    u64::from(one ^ other) << bits <= u64::from(u32::MAX)
}

/// Whether all these 8-byte words are 0: an OR of eight a turn without an early end, then what is left of them one by one.
#[inline(always)]
pub fn all_zero(words: &[u8]) -> bool {
    let eights = words.chunks_exact(64);
    for word in eights.remainder().chunks_exact(8) {
        if le64(word, 0) != 0 {
            return false;
        }
    }
    let mut bits = [0; 8];
    for eight in eights {
        for (bits, word) in bits.iter_mut().zip(eight.chunks_exact(8)) {
            *bits |= le64(word, 0);
        }
    }
    bits.iter().fold(0, |all, bits| all | bits) == 0
}

#[cfg(test)]
mod tests {
    use super::*;

    #[test]
    fn classes_at_their_edges() {
        let octets = |class: fn(u8) -> bool| (0..=255).filter(|octet| class(*octet)).collect::<Vec<u8>>();
        assert_eq!(octets(is_unicast), (1..127).chain(128..224).collect::<Vec<_>>());
        assert_eq!(octets(is_multicast), (224..240).collect::<Vec<_>>());
        assert_eq!(octets(|octet| class(octet) == Class::Edge), [0, 255]);
    }

    #[test]
    fn prefixes() {
        assert!(agree(0, ALL_ONES, 0) && !agree(0, 1 << 31, 1));
        assert!(agree(2, 3, 31) && !agree(2, 3, 32) && agree(3, 3, 32));
    }

    #[test]
    fn every_byte_of_words_counts() {
        let mut words = [0; 200];
        for (at, length) in (0..200).flat_map(|at| [(at, 200), (at, 128), (at, 64)]) {
            words[at] = 1;
            assert_eq!(all_zero(&words[..length]), at >= length);
            words[at] = 0;
        }
    }
}
