//! The key book: records of a KeyID and a key of 16 bytes.

use crate::{sys, Reply, UNWRITTEN};

/// Whether it is a book that no call refuses with 1.
pub fn sound(book: &[u8]) -> bool {
    // SAFETY: pointer and length are the borrow's own.
    unsafe { sys::kusarehyon_book_sound(book.as_ptr(), book.len()) }
}

/// The key under a KeyID, as a reply of 128 bits. Refused with 2, 1 or 5, in this order.
pub fn find(book: &[u8], keyid: u8, reply: &mut [u8]) -> Reply {
    let mut bits = UNWRITTEN;
    // SAFETY: every pointer and length is a borrow's own.
    let answer = unsafe {
        sys::kusarehyon_book_find(
            book.as_ptr(),
            book.len(),
            keyid,
            reply.as_mut_ptr(),
            reply.len(),
            &mut bits,
        )
    };
    Reply { answer, bits }
}
