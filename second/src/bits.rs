//! "Payloads, first bit highest in its byte": bytes and numbers as lists of bits.

/// "Bits beyond the given count are ignored."
/// The first `count` bits of the slice, or all of them where it is shorter.
pub fn from_bytes(bytes: &[u8], count: usize) -> Vec<bool> {
    let mut bits = Vec::new();
    for &byte in bytes {
        for place in 0..8 {
            if bits.len() == count {
                return bits;
            }
            bits.push((byte >> (7 - place)) & 1 == 1);
        }
    }
    bits
}

/// The last byte is filled up with zeros.
pub fn to_bytes(bits: &[bool]) -> Vec<u8> {
    let mut bytes = vec![0u8; bits.len().div_ceil(8)];
    for (i, &bit) in bits.iter().enumerate() {
        if bit {
            bytes[i / 8] |= 1 << (7 - i % 8);
        }
    }
    bytes
}

/// The lowest `count` bits of the number, highest first; `count` is at most 64.
pub fn from_number(number: u64, count: usize) -> Vec<bool> {
    (0..count).map(|i| (number >> (count - 1 - i)) & 1 == 1).collect()
}

/// The first bit is the highest; at most 64 bits.
pub fn to_number(bits: &[bool]) -> u64 {
    bits.iter().fold(0, |number, &bit| (number << 1) | bit as u64)
}

/// The number in bits `from .. from + count`; a bit that is not there reads as 0.
pub fn field(bits: &[bool], from: usize, count: usize) -> u64 {
    let found: Vec<bool> =
        (from..from + count).map(|i| bits.get(i).copied().unwrap_or(false)).collect();
    to_number(&found)
}

/// "bit count beyond the lent slice"
pub fn beyond(slice: &[u8], count: usize) -> bool {
    count.div_ceil(8) > slice.len()
}

#[cfg(test)]
mod tests {
    use super::*;

    #[test]
    fn first_bit_is_highest() {
        assert!(from_bytes(&[0x80], 8)[0]);
        assert!(from_bytes(&[0x01], 8)[7]);
        assert_eq!(to_bytes(&[true]), vec![0x80]);
        assert_eq!(to_number(&from_number(0x2345, 16)), 0x2345);
        assert_eq!(field(&from_bytes(&[0x12, 0x34], 16), 4, 8), 0x23);
        assert_eq!(field(&[true], 0, 2), 2);
    }

    #[test]
    fn counts_and_slices() {
        assert_eq!(from_bytes(&[0xFF, 0xFF], 9).len(), 9);
        assert_eq!(from_bytes(&[0xFF], 90).len(), 8);
        assert_eq!(from_bytes(&[0xFF], 0).len(), 0);
        assert!(!beyond(&[0], 8) && beyond(&[0], 9) && !beyond(&[], 0) && beyond(&[], 1));
        assert!(beyond(&[0; 300], usize::MAX));
    }
}
