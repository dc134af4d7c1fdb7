//! Host frames.

use crate::{sys, UNWRITTEN};

/// A frame that a slice begins with: where its payload starts, and where it ends and the next
/// frame begins.
#[derive(Clone, Copy, Debug, PartialEq, Eq)]
pub struct Frame {
    pub kind: u8,
    pub count: usize,
    pub start: usize,
    pub end: usize,
}

impl Frame {
    /// The payload, of the slice that was scanned. Panics on a slice that ends before it.
    pub fn payload<'a>(&self, s: &'a [u8]) -> &'a [u8] {
        &s[self.start..self.end]
    }
}

/// The frame that the slice begins with, or the refusal: 20 to 23.
pub fn scan(s: &[u8]) -> Result<Frame, u8> {
    or_refusal(scan_numbers(s))
}

/// The same as the header has it: the answer, and the numbers, which a refusal leaves 0.
pub fn scan_numbers(s: &[u8]) -> (u8, Frame) {
    let mut frame = Frame {
        kind: u8::MAX,
        count: UNWRITTEN,
        start: UNWRITTEN,
        end: UNWRITTEN,
    };
    // SAFETY: every pointer and length is a borrow's own.
    let answer = unsafe {
        sys::kusarehyon_frame_scan(
            s.as_ptr(),
            s.len(),
            &mut frame.kind,
            &mut frame.count,
            &mut frame.start,
            &mut frame.end,
        )
    };
    (answer, frame)
}

/// Writes a frame from `at` on. The place behind it, or the refusal, 20 to 24: then `out` is as
/// it was.
pub fn write(
    out: &mut [u8],
    at: usize,
    kind: u8,
    count: usize,
    payload: &[u8],
) -> Result<usize, u8> {
    or_refusal(write_numbers(out, at, kind, count, payload))
}

/// The same as the header has it: the answer, and the place, which a refusal leaves 0.
pub fn write_numbers(
    out: &mut [u8],
    at: usize,
    kind: u8,
    count: usize,
    payload: &[u8],
) -> (u8, usize) {
    let mut next = UNWRITTEN;
    // SAFETY: every pointer and length is a borrow's own.
    let answer = unsafe {
        sys::kusarehyon_frame_write(
            out.as_mut_ptr(),
            out.len(),
            at,
            kind,
            count,
            payload.as_ptr(),
            payload.len(),
            &mut next,
        )
    };
    (answer, next)
}

fn or_refusal<T>((answer, given): (u8, T)) -> Result<T, u8> {
    if answer == 0 {
        Ok(given)
    } else {
        Err(answer)
    }
}
