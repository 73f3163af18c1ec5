//! Big-endian numbers in bytes, and classes of addresses.

/// All ones: no group, no source, or an upstream that is not known.
pub const ALL_ONES: u32 = 0xffff_ffff;

fn field<const N: usize>(bytes: &[u8], at: usize) -> [u8; N] {
    let mut field = [0; N];
    field.copy_from_slice(&bytes[at..at + N]);
    field
}

pub fn be16(bytes: &[u8], at: usize) -> u16 {
    u16::from_be_bytes(field(bytes, at))
}

pub fn be32(bytes: &[u8], at: usize) -> u32 {
    u32::from_be_bytes(field(bytes, at))
}

pub fn be64(bytes: &[u8], at: usize) -> u64 {
    u64::from_be_bytes(field(bytes, at))
}

pub fn all_zero(bytes: &[u8]) -> bool {
    bytes.iter().all(|byte| *byte == 0)
}

fn first_octet(address: u32) -> u32 {
    address >> 24
}

/// First octet 1 to 223, not 127.
pub fn is_unicast(address: u32) -> bool {
    (1..=223).contains(&first_octet(address)) && first_octet(address) != 127
}

/// First octet 224 to 239.
pub fn is_multicast(address: u32) -> bool {
    (224..=239).contains(&first_octet(address))
}

/// In 224.0.0.0/24.
pub fn is_link_scoped(address: u32) -> bool {
    in_prefix(address, 0xe000_0000, 24)
}

/// In 239.0.0.0/8.
pub fn is_admin_scoped(address: u32) -> bool {
    first_octet(address) == 239
}

/// The bits of an address that a prefix of this length speaks of.
pub fn mask(length: u8) -> u32 {
    match length {
        0 => 0,
        length => u32::MAX << (32 - u32::from(length)),
    }
}

/// Whether an address has the first `length` bits of `prefix`.
pub fn in_prefix(address: u32, prefix: u32, length: u8) -> bool {
    address & mask(length) == prefix & mask(length)
}

#[cfg(test)]
mod tests {
    use super::*;

    #[test]
    fn classes_at_their_edges() {
        let octets = |class: fn(u32) -> bool| (0..256).filter(|o| class(o << 24)).collect::<Vec<u32>>();
        assert_eq!(octets(is_unicast), (1..127).chain(128..224).collect::<Vec<_>>());
        assert_eq!(octets(is_multicast), (224..240).collect::<Vec<_>>());
        assert!(is_link_scoped(0xe000_00ff) && !is_link_scoped(0xe000_0100) && !is_link_scoped(0xdfff_ffff));
    }

    #[test]
    fn prefixes() {
        assert!(in_prefix(7, ALL_ONES, 0));
        assert!(in_prefix(0x0a00_0001, 0x0a00_0000, 31) && !in_prefix(0x0a00_0001, 0x0a00_0000, 32));
    }
}
