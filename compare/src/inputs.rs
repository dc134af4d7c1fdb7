//! Inputs of calls: sound ones, and every other kind.

use std::collections::BTreeSet;
use std::ops::Range;

use kusarehyon::{REPLY_BYTES, TAG_BYTES};

use crate::call::{Bits, ReaderCall, TagCall, What};
use crate::random::Random;

/// A number of tag or reader is below this.
const NUMBER_LIMIT: u64 = 1 << 48;

/// A KeyID and a key of 16 bytes.
const RECORD_BYTES: usize = 17;

fn records(random: &mut Random, keyids: impl IntoIterator<Item = u8>) -> Vec<u8> {
    let mut book = Vec::new();
    for keyid in keyids {
        book.push(keyid);
        book.extend(random.bytes(RECORD_BYTES - 1));
    }
    book
}

/// A sound book of 1 to 16 records, the KeyID among them.
pub fn sound_book(random: &mut Random, keyid: u8) -> Vec<u8> {
    let size = 1 + random.below(16);
    let mut keyids = BTreeSet::new();
    keyids.insert(keyid);
    while keyids.len() < size {
        keyids.insert(random.byte());
    }
    records(random, keyids)
}

/// A book that is empty, lacks the KeyID, is unsound in each of the ways there are, or is anything.
pub fn other_book(random: &mut Random, sound: &[u8]) -> Vec<u8> {
    let mut book = sound.to_vec();
    match random.below(8) {
        0 => book.clear(),
        1 => book.truncate(sound.len().saturating_sub(1)),
        2 => book.push(random.byte()),
        3 => book.extend_from_within(..RECORD_BYTES.min(sound.len())),
        4 => book = records(random, 0..17),
        5 => {
            let keyid = random.byte();
            book = records(random, [keyid]);
        }
        6 => {
            let size = random.below(20);
            book = random.bytes(RECORD_BYTES * size);
        }
        _ => {
            let length = random.below(300);
            book = random.bytes(length);
        }
    }
    book
}

pub fn sound_number(random: &mut Random) -> u64 {
    let number = random.number() % NUMBER_LIMIT;
    random.pick(&[0, NUMBER_LIMIT - 1, number, number, number])
}

pub fn high_number(random: &mut Random) -> u64 {
    let number = random.number();
    random.pick(&[
        NUMBER_LIMIT,
        u64::MAX,
        number | NUMBER_LIMIT,
        number | 1 << 63,
    ])
}

/// Data to send, 0 to 2,048 bits, with any bits behind them.
pub fn data(random: &mut Random) -> Bits {
    let most = random.pick(&[0, 1, 8, 33, 64, 200, 2047, 2048]);
    let least = random.pick(&[0, 0, 0, most]);
    let count = least + random.below(most - least + 1);
    let more = random.below(3);
    let bytes = random.bytes(count.div_ceil(8) + more);
    Bits { bytes, count }
}

/// Other bits in a field: one of them flipped, or all of them drawn anew.
pub fn damage(random: &mut Random, bits: &mut Bits, field: &Range<usize>) {
    if field.is_empty() {
        return;
    }
    let one = field.start + random.below(field.len());
    let anew = random.one_in(2);
    for place in field.clone() {
        if place == one || (anew && random.one_in(2)) {
            bits.bytes[place / 8] ^= 0x80 >> (place % 8);
        }
    }
}

/// Fewer bits, more of them, a count beyond the slice, a huge one, or other bits behind the count.
pub fn recount(random: &mut Random, bits: &mut Bits) {
    let held = 8 * bits.bytes.len();
    match random.below(8) {
        0 => bits.count = bits.count.saturating_sub(1 + random.below(9)),
        1 => {
            bits.bytes.extend(random.bytes(3));
            bits.count += 1 + random.below(16);
        }
        2 => bits.count = held + 1 + random.below(9),
        3 => bits.bytes.truncate(held / 8 - random.below(held / 8 + 1)),
        4 => {
            let huge = [1 << 61, (1 << 61) - 1, (1 << 61) + bits.count, 1 << 63];
            let highest = [usize::MAX, usize::MAX - 6, usize::MAX - 7];
            bits.count = random.pick(&[&huge[..], &highest[..]].concat());
        }
        5 => {
            let filling = random.pick(&[0, 0xFF]);
            bits.bytes.resize(400, filling);
            bits.count = random.pick(&[2048, 2049, 2088, 2089, 2120, 2121, 3200]);
        }
        6 => bits.count = random.below(2),
        _ => set_unused(random, bits),
    }
}

/// "Bits beyond the given count are ignored."
fn set_unused(random: &mut Random, bits: &mut Bits) {
    if !bits.count.is_multiple_of(8) {
        bits.bytes[bits.count / 8] |= 0xFF >> (bits.count % 8);
    }
    bits.bytes.extend(random.bytes(2));
}

/// The bits behind the count in its last byte zero, as a frame has them.
pub fn clear_unused(bits: &mut Bits) {
    if !bits.count.is_multiple_of(8) {
        bits.bytes[bits.count / 8] &= !(0xFF >> (bits.count % 8));
    }
}

/// A kind of any call, or none.
pub fn kind(random: &mut Random) -> u8 {
    let near = random.below(8) as u8;
    let any = random.byte();
    random.pick(&[near, near, near, any])
}

/// Changes one input beside the bits, where the call has one.
pub fn disturb(random: &mut Random, what: &mut What) {
    match what {
        What::Tag(TagCall::Command {
            kind,
            features,
            book,
            number,
            ..
        }) => match random.below(4) {
            0 => *kind = self::kind(random),
            1 => *features = random.byte(),
            2 => *book = other_book(random, book),
            _ => *number = high_number(random),
        },
        What::Reader(ReaderCall::Begin {
            method,
            options,
            keyid,
            number,
            book,
        }) => match random.below(5) {
            0 => *method = self::kind(random),
            1 => *options = self::kind(random),
            2 => *keyid = random.byte(),
            3 => *book = other_book(random, book),
            _ => *number = high_number(random),
        },
        What::Tag(TagCall::Response { kind, .. })
        | What::Reader(ReaderCall::Send { kind, .. } | ReaderCall::Receive { kind, .. }) => {
            *kind = self::kind(random);
        }
        _ => {}
    }
}

/// A buffer with room for the whole area, any bytes in it.
pub fn buffer(random: &mut Random) -> Vec<u8> {
    let beyond = random.pick(&[0, 0, 1, 7, 40]);
    random.bytes(REPLY_BYTES + beyond)
}

/// One in four has no room for the whole area.
pub fn any_buffer(random: &mut Random) -> Vec<u8> {
    if !random.one_in(4) {
        return buffer(random);
    }
    let room = random.below(REPLY_BYTES);
    let room = random.pick(&[0, REPLY_BYTES - 1, room, room, room, room]);
    random.bytes(room)
}

/// The bytes of a block before its numbers of eight bytes each.
const HEAD: usize = 8;

/// A head that spells a state, against the rules or not.
fn head(random: &mut Random, of_tag: bool) -> [u8; HEAD] {
    let any = random.byte();
    let keyid = random.pick(&[0, 0, any]);
    let options = random.pick(&[0, 0, 0, 1, 2, 3, 4]);
    let width = random.pick(&[0, 0, 0, 32, 64, any]);
    if of_tag {
        let [init, ta, ia, error] = [(); 4].map(|_| random.below(2) as u8);
        let name = random.below(6) as u8;
        [name, init, ta, ia, error, keyid, options, width]
    } else {
        let stage = random.below(5) as u8;
        let method = random.pick(&[0, 0, 1, 2, 3]);
        [stage, method, options, keyid, width, 0, 0, 0]
    }
}

/// A stored block: one byte of the head or one number changed, a head drawn anew over the block's
/// own numbers, over zeros or over any, any bytes, or another length.
pub fn other_block(random: &mut Random, block: &[u8]) -> Vec<u8> {
    let mut block = block.to_vec();
    let length = block.len();
    let drawn = head(random, length == TAG_BYTES);
    match random.below(12) {
        0..=2 => {
            let byte = random.pick(&[0, 1, 2, 3, 4, 5, 6, 32, 64, 255]);
            block[random.below(HEAD)] = byte;
        }
        3..=5 => {
            let at = HEAD * (1 + random.below(length / HEAD - 1));
            let number = other_number(random);
            block[at..at + 8].copy_from_slice(&number.to_be_bytes());
        }
        6 => block[..HEAD].copy_from_slice(&drawn),
        7 | 8 => block = [&drawn[..], &vec![0; length - HEAD]].concat(),
        9 => block = [&drawn[..], &random.bytes(length - HEAD)].concat(),
        10 => block = random.bytes(length),
        _ => block.resize(random.below(length + 20), 0),
    }
    block
}

/// The block of the machine closed.
pub fn closed_block(block: &[u8]) -> Vec<u8> {
    let mut closed = vec![0; block.len()];
    if block.len() == TAG_BYTES {
        closed[..4].copy_from_slice(&block[..4]);
        closed[4] = 1;
    } else {
        closed[0] = 4;
    }
    closed
}

/// The limits of widths and numbers, and any number.
fn other_number(random: &mut Random) -> u64 {
    let any = random.number();
    let limits = [0, 1, (1 << 32) - 1, 1 << 32, NUMBER_LIMIT - 1, NUMBER_LIMIT];
    random.pick(&[&limits[..], &[any, any, any >> 32]].concat())
}
