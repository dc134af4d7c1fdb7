//! The lent block of `include/kusarehyon.h`, and the header's calls over it: "A BLOCK holds a
//! machine's whole state: eight bytes, then numbers of eight bytes each, the highest byte first."

use crate::bits;
use crate::book;
use crate::cipher::Cipher;
use crate::frames;
use crate::order::{hand_back, Found, REPLY_BYTES};
use crate::reader::Reader;
use crate::tag::Tag;

pub const TAG_BYTES: usize = 56;
pub const READER_BYTES: usize = 64;

/// "the state's block has another length, spells no state, or spells one against the rules"
const BAD_STATE: u8 = 8;

/// The bytes at the start of a block that are a number each.
const HEAD: usize = 8;

/// The `N` numbers of a block, or nothing where it has another length.
fn numbers<const N: usize>(block: &[u8]) -> Option<[u64; N]> {
    if block.len() != HEAD + 8 * (N - HEAD) {
        return None;
    }
    let (head, rest) = block.split_at(HEAD);
    let mut numbers = [0; N];
    for (number, &byte) in numbers.iter_mut().zip(head) {
        *number = byte as u64;
    }
    for (number, eight) in numbers[HEAD..].iter_mut().zip(rest.chunks(8)) {
        *number = eight.iter().fold(0, |high, &low| high << 8 | low as u64);
    }
    Some(numbers)
}

/// The block of these numbers.
fn spelled(numbers: &[u64]) -> Vec<u8> {
    let (head, rest) = numbers.split_at(HEAD);
    let mut block: Vec<u8> = head.iter().map(|&number| number as u8).collect();
    for number in rest {
        block.extend(number.to_be_bytes());
    }
    block
}

/// A machine whose state a block holds.
pub trait Machine: Sized {
    const BYTES: usize;

    /// The state after a reset.
    fn fresh() -> Self;

    /// The state that a block spells: nothing for "a block of another length, one with another
    /// first byte than these, or one whose 0s and 1s are something else".
    fn read(block: &[u8]) -> Option<Self>;

    /// The block that spells the state.
    fn block(&self) -> Vec<u8>;
}

impl<C: Cipher> Machine for Tag<C> {
    const BYTES: usize = TAG_BYTES;

    fn fresh() -> Self {
        Tag::fresh()
    }

    fn read(block: &[u8]) -> Option<Self> {
        Tag::from_numbers(&numbers(block)?)
    }

    fn block(&self) -> Vec<u8> {
        spelled(&self.numbers())
    }
}

/// Where each number of a reader's state, in the order of its `FIELDS`, stands in the block.
const READER_PLACES: [usize; 12] = [0, 1, 2, 3, 14, 4, 8, 9, 10, 11, 12, 13];

impl<C: Cipher> Machine for Reader<C> {
    const BYTES: usize = READER_BYTES;

    fn fresh() -> Self {
        Reader::fresh()
    }

    fn read(block: &[u8]) -> Option<Self> {
        let found: [u64; 15] = numbers(block)?;
        if found[5..8] != [0; 3] {
            return None;
        }
        Reader::from_numbers(&READER_PLACES.map(|place| found[place]))
    }

    fn block(&self) -> Vec<u8> {
        let mut placed = [0; 15];
        for (place, number) in READER_PLACES.into_iter().zip(self.numbers()) {
            placed[place] = number;
        }
        spelled(&placed)
    }
}

/// "a reset fills it, and is refused only for the block's length"
pub fn reset<M: Machine>(block: &mut [u8], reply: &mut [u8]) -> (u8, usize) {
    if block.len() != M::BYTES {
        return hand_back(reply, BAD_STATE, &[]);
    }
    block.copy_from_slice(&M::fresh().block());
    hand_back(reply, 0, &[])
}

/// A call of the machine that a block spells. One that spells none "is answered 8 and kept".
pub fn call<M: Machine>(
    block: &mut [u8],
    reply: &mut [u8],
    call: impl FnOnce(&mut M, &mut [u8]) -> (u8, usize),
) -> (u8, usize) {
    let Some(mut machine) = M::read(block) else {
        return hand_back(reply, BAD_STATE, &[]);
    };
    let answered = call(&mut machine, reply);
    block.copy_from_slice(&machine.block());
    answered
}

/// "The tag closed, whatever its state: only a reset opens it. Answers 0, or 8."
pub fn tag_close<C: Cipher>(block: &mut [u8]) -> u8 {
    let Some(mut tag) = Tag::<C>::read(block) else {
        return BAD_STATE;
    };
    tag.close();
    block.copy_from_slice(&tag.block());
    0
}

/// "The error type of Annex B's table"; "A block that spells none is answered 8."
pub fn tag_error_type<C: Cipher>(block: &[u8]) -> u8 {
    Tag::<C>::read(block).map_or(BAD_STATE, |tag| tag.error_type())
}

/// "The key under a KeyID, as a reply of 128 bits. Refused with 2, 1 or 5, in this order."
pub fn book_find(book: &[u8], keyid: u8, reply: &mut [u8]) -> (u8, usize) {
    let key = book::search(book, keyid);
    let found = Found {
        buffer: reply.len() < REPLY_BYTES,
        book: !book::sound(book),
        keyid: key.is_none(),
        ..Found::default()
    };
    match (found.refusal(), key) {
        (None, Some(key)) => hand_back(reply, 0, &bits::from_bytes(&key, 128)),
        (refusal, _) => hand_back(reply, refusal.expect("refused with 5"), &[]),
    }
}

/// "*next is the place behind it. Refused with 20 to 24: then out is as it was, and *next is 0."
pub fn frame_write(
    out: &mut [u8],
    at: usize,
    kind: u8,
    count: usize,
    payload: &[u8],
) -> (u8, usize) {
    match frames::write(kind, count, payload, out, at) {
        Ok(next) => (0, next),
        Err(refusal) => (refusal, 0),
    }
}
