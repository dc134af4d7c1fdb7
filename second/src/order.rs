//! "Replies and refusals": the order of the refusals, what they do to the
//! state, and the reply area.

use crate::bits;

pub const REPLY_BYTES: usize = 265;

/// What a call finds against itself, in the order of document 01. A call leaves
/// false what it has nothing to check with. The comparison (10) comes after all
/// of these, in the work itself.
#[derive(Clone, Copy, Debug, Default)]
pub struct Found {
    /// 8: "a stored state against the rules below"
    pub state: bool,
    /// 2: "buffer under 265 bytes"
    pub buffer: bool,
    /// 11: "bit count beyond the lent slice, number at or above 2^48, kind above
    /// 3 (...), data to send over 2,048 bits"
    pub input: bool,
    /// 1: "book not whole 17-byte records, over 16, or KeyIDs not rising"
    pub book: bool,
    /// 7: "ERROR already set (tag)"
    pub error: bool,
    /// 9: "no work in this state"
    pub work: bool,
    /// 3: "kind ... not for this state"
    pub kind: bool,
    /// 6: "length wrong, or the eight bits not zero"
    pub length: bool,
    /// 3: "method or step not for this state"
    pub step: bool,
    /// 5: "KeyID not in the book (step 0, begin), or not step 0's (step 1)"
    pub keyid: bool,
    /// 4: "method unsupported, or options not as the payload rules ask"; document
    /// 02, Req 01: "the reader's 4 also covers the method, in its old place"
    pub support: bool,
}

impl Found {
    /// "Order: 8, 2, 11, 1, 7, 9, kind (3), length and zero bits (6), method and
    /// step (3), KeyID (5), method and options support (4), comparison (10)."
    pub fn refusal(&self) -> Option<u8> {
        let order = [
            (self.state, 8),
            (self.buffer, 2),
            (self.input, 11),
            (self.book, 1),
            (self.error, 7),
            (self.work, 9),
            (self.kind, 3),
            (self.length, 6),
            (self.step, 3),
            (self.keyid, 5),
            (self.support, 4),
        ];
        order.iter().find(|check| check.0).map(|check| check.1)
    }
}

/// The column "State" of the table: closed after 3, 4, 5, 6 and 10, else kept.
/// (At begin 4 and 5 are kept, too.)
pub fn closes(refusal: u8) -> bool {
    matches!(refusal, 3 | 4 | 5 | 6 | 10)
}

/// "The reply area is the first 265 bytes of the lent buffer, or all of it if
/// shorter. Every call writes all of it: the reply's bits, then zeros. Bytes
/// beyond stay as found." Gives the answer and the reply's bit count.
pub fn hand_back(reply: &mut [u8], answer: u8, bits: &[bool]) -> (u8, usize) {
    let area = reply.len().min(REPLY_BYTES);
    let bytes = bits::to_bytes(bits);
    for (i, place) in reply[..area].iter_mut().enumerate() {
        *place = bytes.get(i).copied().unwrap_or(0);
    }
    (answer, bits.len())
}
