//! "A book record is a KeyID and a 16-byte key; an empty book is sound."

pub const RECORD_BYTES: usize = 17;
pub const MOST_RECORDS: usize = 16;

/// Refusal 1: "book not whole 17-byte records, over 16, or KeyIDs not rising".
pub fn sound(book: &[u8]) -> bool {
    if !book.len().is_multiple_of(RECORD_BYTES) {
        return false;
    }
    if book.len() / RECORD_BYTES > MOST_RECORDS {
        return false;
    }
    let keyids: Vec<u8> = book.chunks(RECORD_BYTES).map(|record| record[0]).collect();
    keyids.windows(2).all(|two| two[0] < two[1])
}

/// The key that stands under the KeyID.
pub fn search(book: &[u8], keyid: u8) -> Option<[u8; 16]> {
    for record in book.chunks_exact(RECORD_BYTES) {
        if record[0] == keyid {
            let mut key = [0; 16];
            key.copy_from_slice(&record[1..]);
            return Some(key);
        }
    }
    None
}

#[cfg(test)]
mod tests {
    use super::*;

    fn book(keyids: &[u8]) -> Vec<u8> {
        let mut book = Vec::new();
        for &keyid in keyids {
            book.push(keyid);
            book.extend([keyid ^ 0x5A; 16]);
        }
        book
    }

    #[test]
    fn soundness() {
        let rising: Vec<u8> = (0..17).collect();
        assert!(sound(&[]));
        assert!(sound(&book(&[0])));
        assert!(sound(&book(&[255])));
        assert!(sound(&book(&rising[..16])));
        assert!(!sound(&book(&rising)));
        assert!(!sound(&book(&[1, 1])));
        assert!(!sound(&book(&[2, 1])));
        assert!(!sound(&book(&[1, 3, 2])));
        for cut in 1..17 {
            assert!(!sound(&book(&[1, 2])[..34 - cut]));
        }
    }

    #[test]
    fn searching() {
        let keys = book(&[0, 3, 9, 255]);
        for keyid in 0..=255u8 {
            let there = [0, 3, 9, 255].contains(&keyid);
            assert_eq!(search(&keys, keyid), there.then_some([keyid ^ 0x5A; 16]));
        }
        assert_eq!(search(&[], 0), None);
    }
}
