//! Work that each contender does on the same inputs.

use compare::call::{Bits, Side, TagCall, What};
use kusarehyon::{READER_BYTES, REPLY_BYTES, TAG_BYTES};
use second::frames::RESET;
use second::tag::{COMM_RESPONSE, NAMES, SECURE_RESPONSE};
use second::tagrun::{BOOK, FEATURES, NUMBER};

/// The lent blocks of a tag and a reader. Zeros are the state after a reset of both.
#[derive(Clone, Copy)]
pub struct Blocks {
    pub tag: [u8; TAG_BYTES],
    pub reader: [u8; READER_BYTES],
}

impl Blocks {
    pub const RESET: Blocks = Blocks {
        tag: [0; TAG_BYTES],
        reader: [0; READER_BYTES],
    };

    pub fn call<S: Side>(&mut self, what: &What, reply: &mut [u8]) -> (u8, usize) {
        match what {
            What::Tag(call) => S::tag(call, &mut self.tag, reply),
            What::Reader(call) => S::reader(call, &mut self.reader, reply),
            What::Free(call) => {
                let (answer, numbers) = S::free(call, reply);
                (answer, numbers[0])
            }
        }
    }
}

/// The call that a host frame of this kind asks of the tag of `tagrun`.
pub fn tag_call(kind: u8, bits: Bits) -> TagCall {
    match kind {
        COMM_RESPONSE | SECURE_RESPONSE => TagCall::Response { kind, data: bits },
        RESET => TagCall::Reset,
        _ => TagCall::Command {
            kind,
            payload: bits,
            features: FEATURES,
            book: BOOK.to_vec(),
            number: NUMBER,
        },
    }
}

pub enum Work {
    /// Calls one after another, each time from the same blocks.
    Calls { blocks: Blocks, calls: Vec<What> },
    /// What `tagrun` does with an input.
    Frames { input: Vec<u8> },
}

impl Work {
    /// Does the work once, and shows all that it gives, piece by piece.
    pub fn run<S: Side>(&self, mut show: impl FnMut(&[u8])) {
        match self {
            Work::Calls { blocks, calls } => {
                let mut blocks = *blocks;
                let mut reply = [0; REPLY_BYTES];
                for what in calls {
                    let (answer, count) = blocks.call::<S>(what, &mut reply);
                    show(&[answer]);
                    show(&count.to_be_bytes());
                    show(&reply);
                }
                show(&blocks.tag);
                show(&blocks.reader);
            }
            Work::Frames { input } => show(&lines::<S>(input)),
        }
    }

    /// All that the work gives.
    pub fn given<S: Side>(&self) -> Vec<u8> {
        let mut given = Vec::new();
        self.run::<S>(|piece| given.extend(piece));
        given
    }
}

/// The text that `tagrun` prints for an input that is not too long.
fn lines<S: Side>(input: &[u8]) -> Vec<u8> {
    let mut block = Blocks::RESET.tag;
    let mut reply = [0; REPLY_BYTES];
    let mut text = Vec::new();
    let mut rest = input;
    let mut number = 0;
    while !rest.is_empty() {
        number += 1;
        let (refusal, [kind, count, start, end]) = S::scan(rest);
        if refusal != 0 {
            text.extend(format!("{number} {refusal}\n").into_bytes());
            return text;
        }
        let bytes = rest[start..end].to_vec();
        let call = tag_call(kind as u8, Bits { bytes, count });
        let (answer, count) = S::tag(&call, &mut block, &mut reply);
        let state = NAMES[block[0] as usize].text();
        text.extend(format!("{number} {answer} {state} {count} ").into_bytes());
        put_hex(&mut text, &reply[..count.div_ceil(8)]);
        rest = &rest[end..];
    }
    text
}

/// "reply in hex or `-`", and the line's end.
fn put_hex(text: &mut Vec<u8>, reply: &[u8]) {
    const DIGITS: &[u8; 16] = b"0123456789ABCDEF";
    if reply.is_empty() {
        text.push(b'-');
    }
    for byte in reply {
        let digits = [byte >> 4, byte & 0x0F].map(|digit| DIGITS[digit as usize]);
        text.extend(digits);
    }
    text.push(b'\n');
}
