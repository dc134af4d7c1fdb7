//! The calls over a tag's block.

use crate::{alike, sys, Command, Reply, UNWRITTEN};

/// The state after a reset. Refused only for the block's length.
pub fn reset(state: &mut [u8], reply: &mut [u8]) -> Reply {
    alike::reset(sys::kusarehyon_tag_reset, state, reply)
}

/// A command from the reader.
pub fn command(state: &mut [u8], command: &Command, reply: &mut [u8]) -> Reply {
    let mut bits = UNWRITTEN;
    // SAFETY: every pointer and length is a borrow's own.
    let answer = unsafe {
        sys::kusarehyon_tag_command(
            state.as_mut_ptr(),
            state.len(),
            command.kind,
            command.payload.as_ptr(),
            command.payload.len(),
            command.count,
            command.features,
            command.book.as_ptr(),
            command.book.len(),
            command.number,
            reply.as_mut_ptr(),
            reply.len(),
            &mut bits,
        )
    };
    Reply { answer, bits }
}

/// A response that the host wants: kind 4 comm, 5 secure; the first `count` bits of the data,
/// 2,048 at most.
pub fn response(state: &mut [u8], kind: u8, data: &[u8], count: usize, reply: &mut [u8]) -> Reply {
    alike::message(
        sys::kusarehyon_tag_response,
        state,
        kind,
        data,
        count,
        reply,
    )
}

/// The tag closed, whatever its state: only a reset opens it. Answers 0, or 8.
pub fn close(state: &mut [u8]) -> u8 {
    // SAFETY: pointer and length are the borrow's own.
    unsafe { sys::kusarehyon_tag_close(state.as_mut_ptr(), state.len()) }
}

/// The error type of Annex B's table: 1, 2 or 3; 0 where there is no error, or the block spells
/// a state against the rules. A block that spells none is answered 8.
pub fn error_type(state: &[u8]) -> u8 {
    // SAFETY: pointer and length are the borrow's own.
    unsafe { sys::kusarehyon_tag_error_type(state.as_ptr(), state.len()) }
}
