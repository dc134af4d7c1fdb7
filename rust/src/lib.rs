//! The tag and the reader of ISO/IEC 29167-13 (Grain-128A), the key book and host frames: safe
//! functions over the archive that `include/kusarehyon.h` describes.
//!
//! [`tag`], [`reader`], [`book`] and [`frames`] are the header's calls over lent slices. Borrows
//! keep the header's rules of the boundary, so no call can break one. Any bytes, any numbers and any
//! lengths get an answer, and the header lists the answers by number. [`Tag`] and [`Reader`] own
//! their blocks, for a host that has no place of its own for them.
//!
//! A tag that takes three host frames, and the lines which `tagrun` prints for them:
//!
//! ```
//! use kusarehyon::{frames, Command, Reply, Tag, REPLY_BYTES};
//!
//! const BOOK: [u8; 17] = *b"\x05\x01\x23\x45\x67\x89\xAB\xCD\xEF\xFE\xDC\xBA\x98\x76\x54\x32\x10";
//! const NAMES: [&str; 6] = ["CS-Reset", "TA.1", "IA.1", "IA.2", "MA.1", "MA.2"];
//! let input = b"\x00\x40\x80\x05\x11\x22\x33\x44\x55\x66\
//!     \x00\x50\x92\x05\x3E\x77\x5C\x19\x4D\x6D\x4F\xD8\
//!     \x02\x50\x45\x87\xE6\x27\xC4\x00\xD4\x95\x79\x9A";
//!
//! let mut tag = Tag::new();
//! let mut reply = [0; REPLY_BYTES];
//! let mut lines = Vec::new();
//! let mut rest = &input[..];
//! while !rest.is_empty() {
//!     let frame = frames::scan(rest).expect("a sound frame");
//!     let command = Command {
//!         kind: frame.kind,
//!         payload: frame.payload(rest),
//!         count: frame.count,
//!         features: 0x1F,
//!         book: &BOOK,
//!         number: 0x778899AABBCC,
//!     };
//!     let got @ Reply { answer, bits } = tag.command(&command, &mut reply);
//!     let hex: String = got.bytes(&reply).iter().map(|byte| format!("{byte:02X}")).collect();
//!     let name = NAMES[tag.block()[0] as usize];
//!     lines.push(format!("{} {answer} {name} {bits} {hex}", lines.len() + 1));
//!     rest = &rest[frame.end..];
//! }
//! assert_eq!(lines, [
//!     "1 0 MA.1 56 1F778899AABBCC",
//!     "2 0 MA.2 65 44A7C41906EC4CC880",
//!     "3 0 MA.2 40 12345678AB",
//! ]);
//! ```

mod alike;
pub mod book;
pub mod frames;
pub mod reader;
mod sys;
pub mod tag;

/// The length of a tag's block.
pub const TAG_BYTES: usize = 56;
/// The length of a reader's block.
pub const READER_BYTES: usize = 64;
/// The length of the reply area: a shorter buffer is refused with 2.
pub const REPLY_BYTES: usize = 265;

/// What a number holds before the call that writes it. No call leaves it there.
const UNWRITTEN: usize = usize::MAX;

/// The answer to a call, and the bit count of the reply that it wrote.
#[derive(Clone, Copy, Debug, PartialEq, Eq)]
pub struct Reply {
    pub answer: u8,
    pub bits: usize,
}

impl Reply {
    /// The bytes with the reply's bits, of the buffer that the call was given. Panics on a buffer
    /// that is shorter than the reply.
    pub fn bytes<'a>(&self, reply: &'a [u8]) -> &'a [u8] {
        &reply[..self.bits.div_ceil(8)]
    }
}

/// A command to the tag: kind 0 authentication, 1 comm, 2 secure, 3 key update; the first `count`
/// bits of the payload; the tag's features, its key book and its number, below 2^48.
#[derive(Clone, Copy)]
pub struct Command<'a> {
    pub kind: u8,
    pub payload: &'a [u8],
    pub count: usize,
    pub features: u8,
    pub book: &'a [u8],
    pub number: u64,
}

/// What the reader begins an authentication with: method 0 tag, 1 interrogator, 2 mutual; options 1
/// for MAC64 and 2 for secure messages, or their sum; the KeyID; the reader's number, below 2^48;
/// its book.
#[derive(Clone, Copy)]
pub struct Begin<'a> {
    pub method: u8,
    pub options: u8,
    pub keyid: u8,
    pub number: u64,
    pub book: &'a [u8],
}

/// A tag with a block of its own.
#[derive(Clone)]
pub struct Tag {
    block: [u8; TAG_BYTES],
}

impl Tag {
    /// The state after a reset: CS-Reset, everything false and zero.
    pub fn new() -> Self {
        Self::from_block([0; TAG_BYTES])
    }

    /// A stored state. Any bytes will do: a block that spells no state is answered 8.
    pub fn from_block(block: [u8; TAG_BYTES]) -> Self {
        Tag { block }
    }

    pub fn block(&self) -> &[u8; TAG_BYTES] {
        &self.block
    }

    /// See [`tag::reset`].
    pub fn reset(&mut self, reply: &mut [u8]) -> Reply {
        tag::reset(&mut self.block, reply)
    }

    /// See [`tag::command`].
    pub fn command(&mut self, command: &Command, reply: &mut [u8]) -> Reply {
        tag::command(&mut self.block, command, reply)
    }

    /// See [`tag::response`].
    pub fn response(&mut self, kind: u8, data: &[u8], count: usize, reply: &mut [u8]) -> Reply {
        tag::response(&mut self.block, kind, data, count, reply)
    }

    /// See [`tag::close`].
    pub fn close(&mut self) -> u8 {
        tag::close(&mut self.block)
    }

    /// See [`tag::error_type`].
    pub fn error_type(&self) -> u8 {
        tag::error_type(&self.block)
    }
}

impl Default for Tag {
    fn default() -> Self {
        Self::new()
    }
}

/// A reader with a block of its own.
#[derive(Clone)]
pub struct Reader {
    block: [u8; READER_BYTES],
}

impl Reader {
    /// The state after a reset: idle.
    pub fn new() -> Self {
        Self::from_block([0; READER_BYTES])
    }

    /// A stored state. Any bytes will do: a block that spells no state is answered 8.
    pub fn from_block(block: [u8; READER_BYTES]) -> Self {
        Reader { block }
    }

    pub fn block(&self) -> &[u8; READER_BYTES] {
        &self.block
    }

    /// See [`reader::reset`].
    pub fn reset(&mut self, reply: &mut [u8]) -> Reply {
        reader::reset(&mut self.block, reply)
    }

    /// See [`reader::begin`].
    pub fn begin(&mut self, begin: &Begin, reply: &mut [u8]) -> Reply {
        reader::begin(&mut self.block, begin, reply)
    }

    /// See [`reader::replied`].
    pub fn replied(&mut self, payload: &[u8], count: usize, reply: &mut [u8]) -> Reply {
        reader::replied(&mut self.block, payload, count, reply)
    }

    /// See [`reader::send`].
    pub fn send(&mut self, kind: u8, data: &[u8], count: usize, reply: &mut [u8]) -> Reply {
        reader::send(&mut self.block, kind, data, count, reply)
    }

    /// See [`reader::receive`].
    pub fn receive(&mut self, kind: u8, payload: &[u8], count: usize, reply: &mut [u8]) -> Reply {
        reader::receive(&mut self.block, kind, payload, count, reply)
    }
}

impl Default for Reader {
    fn default() -> Self {
        Self::new()
    }
}
