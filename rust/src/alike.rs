//! Calls that both machines have in one form.

use crate::{sys, Reply, UNWRITTEN};

/// A machine's reset.
pub fn reset(machine: sys::Reset, state: &mut [u8], reply: &mut [u8]) -> Reply {
    let mut bits = UNWRITTEN;
    // SAFETY: the header declares every `sys::Reset`, and every pointer and length is a borrow's
    // own.
    let answer = unsafe {
        machine(
            state.as_mut_ptr(),
            state.len(),
            reply.as_mut_ptr(),
            reply.len(),
            &mut bits,
        )
    };
    Reply { answer, bits }
}

/// A message or its data: the first `count` bits of `bytes`.
pub fn message(
    machine: sys::Message,
    state: &mut [u8],
    kind: u8,
    bytes: &[u8],
    count: usize,
    reply: &mut [u8],
) -> Reply {
    let mut bits = UNWRITTEN;
    // SAFETY: the header declares every `sys::Message`, and every pointer and length is a borrow's
    // own.
    let answer = unsafe {
        machine(
            state.as_mut_ptr(),
            state.len(),
            kind,
            bytes.as_ptr(),
            bytes.len(),
            count,
            reply.as_mut_ptr(),
            reply.len(),
            &mut bits,
        )
    };
    Reply { answer, bits }
}
