//! The calls over a reader's block.

use crate::{alike, sys, Begin, Reply, UNWRITTEN};

/// The state after a reset. Refused only for the block's length.
pub fn reset(state: &mut [u8], reply: &mut [u8]) -> Reply {
    alike::reset(sys::kusarehyon_reader_reset, state, reply)
}

/// Begins an authentication. The reply is the step 0 command.
pub fn begin(state: &mut [u8], begin: &Begin, reply: &mut [u8]) -> Reply {
    let mut bits = UNWRITTEN;
    // SAFETY: every pointer and length is a borrow's own.
    let answer = unsafe {
        sys::kusarehyon_reader_begin(
            state.as_mut_ptr(),
            state.len(),
            begin.method,
            begin.options,
            begin.keyid,
            begin.number,
            begin.book.as_ptr(),
            begin.book.len(),
            reply.as_mut_ptr(),
            reply.len(),
            &mut bits,
        )
    };
    Reply { answer, bits }
}

/// The tag's authentication response, the first `count` bits of the payload. The reply is the
/// step 1 command, or nothing where the session is open.
///
/// Step 0's response begins with the tag's features, bit 0 TA, 1 IA, 2 MAC32, 3 MAC64, 4 secure
/// messages: TA needs bit 0, IA bit 1, MA none, and the options theirs, else the answer is 4 and
/// the reader is closed.
pub fn replied(state: &mut [u8], payload: &[u8], count: usize, reply: &mut [u8]) -> Reply {
    let mut bits = UNWRITTEN;
    // SAFETY: every pointer and length is a borrow's own.
    let answer = unsafe {
        sys::kusarehyon_reader_replied(
            state.as_mut_ptr(),
            state.len(),
            payload.as_ptr(),
            payload.len(),
            count,
            reply.as_mut_ptr(),
            reply.len(),
            &mut bits,
        )
    };
    Reply { answer, bits }
}

/// A message to the tag: kind 1 comm, 2 secure; the first `count` bits of the data, 2,048 at
/// most. The reply is the message.
pub fn send(state: &mut [u8], kind: u8, data: &[u8], count: usize, reply: &mut [u8]) -> Reply {
    alike::message(sys::kusarehyon_reader_send, state, kind, data, count, reply)
}

/// A message of the tag's: kind 1 comm, 2 secure; the first `count` bits of the payload. The
/// reply is its data.
pub fn receive(
    state: &mut [u8],
    kind: u8,
    payload: &[u8],
    count: usize,
    reply: &mut [u8],
) -> Reply {
    alike::message(
        sys::kusarehyon_reader_receive,
        state,
        kind,
        payload,
        count,
        reply,
    )
}
