//! The functions of `include/kusarehyon.h`, as the header declares them.
//!
//! The header's rules of the boundary are: a pointer and a length are those of one slice; a pointer
//! to a number is not null; what a call may write overlaps nothing else that it is given. A call
//! made from borrows alone keeps them.

/// A reset: the block, the reply buffer, the bit count.
pub type Reset = unsafe extern "C" fn(*mut u8, usize, *mut u8, usize, *mut usize) -> u8;

/// A call on a message: the block, the kind, the bytes and their bit count, the reply buffer, the
/// reply's bit count.
pub type Message = unsafe extern "C" fn(
    *mut u8,
    usize,
    u8,
    *const u8,
    usize,
    usize,
    *mut u8,
    usize,
    *mut usize,
) -> u8;

// SAFETY: each function is declared as the header declares it, and the archive defines it so.
unsafe extern "C" {
    pub fn kusarehyon_tag_reset(
        state: *mut u8,
        state_len: usize,
        reply: *mut u8,
        reply_len: usize,
        bits: *mut usize,
    ) -> u8;

    pub fn kusarehyon_tag_command(
        state: *mut u8,
        state_len: usize,
        kind: u8,
        payload: *const u8,
        payload_len: usize,
        count: usize,
        features: u8,
        book: *const u8,
        book_len: usize,
        number: u64,
        reply: *mut u8,
        reply_len: usize,
        bits: *mut usize,
    ) -> u8;

    pub fn kusarehyon_tag_response(
        state: *mut u8,
        state_len: usize,
        kind: u8,
        data: *const u8,
        data_len: usize,
        count: usize,
        reply: *mut u8,
        reply_len: usize,
        bits: *mut usize,
    ) -> u8;

    pub fn kusarehyon_tag_close(state: *mut u8, state_len: usize) -> u8;

    pub fn kusarehyon_tag_error_type(state: *const u8, state_len: usize) -> u8;

    pub fn kusarehyon_reader_reset(
        state: *mut u8,
        state_len: usize,
        reply: *mut u8,
        reply_len: usize,
        bits: *mut usize,
    ) -> u8;

    pub fn kusarehyon_reader_begin(
        state: *mut u8,
        state_len: usize,
        method: u8,
        options: u8,
        keyid: u8,
        number: u64,
        book: *const u8,
        book_len: usize,
        reply: *mut u8,
        reply_len: usize,
        bits: *mut usize,
    ) -> u8;

    pub fn kusarehyon_reader_replied(
        state: *mut u8,
        state_len: usize,
        payload: *const u8,
        payload_len: usize,
        count: usize,
        reply: *mut u8,
        reply_len: usize,
        bits: *mut usize,
    ) -> u8;

    pub fn kusarehyon_reader_send(
        state: *mut u8,
        state_len: usize,
        kind: u8,
        data: *const u8,
        data_len: usize,
        count: usize,
        reply: *mut u8,
        reply_len: usize,
        bits: *mut usize,
    ) -> u8;

    pub fn kusarehyon_reader_receive(
        state: *mut u8,
        state_len: usize,
        kind: u8,
        payload: *const u8,
        payload_len: usize,
        count: usize,
        reply: *mut u8,
        reply_len: usize,
        bits: *mut usize,
    ) -> u8;

    pub fn kusarehyon_book_sound(book: *const u8, book_len: usize) -> bool;

    pub fn kusarehyon_book_find(
        book: *const u8,
        book_len: usize,
        keyid: u8,
        reply: *mut u8,
        reply_len: usize,
        bits: *mut usize,
    ) -> u8;

    pub fn kusarehyon_frame_scan(
        s: *const u8,
        s_len: usize,
        kind: *mut u8,
        count: *mut usize,
        start: *mut usize,
        end: *mut usize,
    ) -> u8;

    pub fn kusarehyon_frame_write(
        out: *mut u8,
        out_len: usize,
        at: usize,
        kind: u8,
        count: usize,
        payload: *const u8,
        payload_len: usize,
        next: *mut usize,
    ) -> u8;
}
