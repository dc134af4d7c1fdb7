//! The lent block of `include/kusarehyon.h`, byte by byte, and the calls over it.

mod common;

use common::*;
use second::blocks::{self, Machine, READER_BYTES, TAG_BYTES};
use second::cipher::{Cipher, Mac};
use second::fast::Fast;
use second::frames::{scan, Scan};
use second::grain::Grain;
use second::reader::{Reader, Stage, STAGES};
use second::tag::{Name, Tag, NAMES};

type T = Tag<Fast>;
type R = Reader<Fast>;

const B: [u64; 2] = [0x0102_0304_0506_0708, 0x090A_0B0C_0D0E_0F10];
const S: [u64; 2] = [0x1112_1314_1516_1718, 0x191A_1B1C_1D1E_1F20];

/// Every byte of both blocks from offset 8 to 55 is its own number less 7, above 32 with the high
/// bit set.
fn session_bytes() -> Vec<u8> {
    (1..=48).map(|n| if n > 32 { n | 0x80 } else { n }).collect()
}

const MAC: Mac =
    Mac { width: 64, accumulator: 0xA1A2_A3A4_A5A6_A7A8, register: 0xA9AA_ABAC_ADAE_AFB0 };

#[test]
fn the_layout_of_a_tag() {
    let tag = Tag::<Grain> {
        name: Name::Ma2,
        init: true,
        ta: false,
        ia: true,
        error: false,
        keyid: 0x5A,
        options: 3,
        mac: MAC,
        cipher: Cipher::from_halves(B, S),
    };
    let mut block = vec![5, 1, 0, 1, 0, 0x5A, 3, 64];
    block.extend(session_bytes());
    assert_eq!(tag.block(), block);
    assert_eq!(Tag::read(&block), Some(tag));
}

#[test]
fn the_layout_of_a_reader() {
    let reader = Reader::<Grain> {
        stage: Stage::Open,
        method: 2,
        options: 3,
        keyid: 0x5A,
        number: 0xC1C2_C3C4_C5C6_C7C8,
        mac: MAC,
        cipher: Cipher::from_halves(B, S),
    };
    let mut block = vec![3, 2, 3, 0x5A, 64, 0, 0, 0];
    block.extend(session_bytes());
    block.extend(0xC1..=0xC8);
    assert_eq!(reader.block(), block);
    assert_eq!(Reader::read(&block), Some(reader));
}

#[test]
fn names_and_stages_by_number() {
    for first in 0..=255u8 {
        let mut block = [0; READER_BYTES];
        block[0] = first;
        let name = T::read(&block[..TAG_BYTES]).map(|tag| tag.name);
        assert_eq!(name, NAMES.get(first as usize).copied());
        let stage = R::read(&block).map(|reader| reader.stage);
        assert_eq!(stage, STAGES.get(first as usize).copied());
    }
    assert_eq!((NAMES.len(), STAGES.len()), (6, 5));
}

/// A call that is answered 8: the block is kept, the area is zeros.
fn refused<M: Machine>(block: &[u8]) {
    assert!(M::read(block).is_none());
    let mut kept = block.to_vec();
    let mut reply = buffer();
    let got = blocks::call(&mut kept, &mut reply, |_: &mut M, _| panic!("no state"));
    assert_eq!((got, &kept[..]), ((8, 0), block));
    assert_area(&reply, 0);
}

#[test]
fn blocks_that_spell_no_state() {
    for place in 1..8 {
        for value in 0..=255u8 {
            let mut block = [0; READER_BYTES];
            block[place] = value;
            if place > 4 && value > 0 {
                refused::<R>(&block);
            } else {
                assert_eq!(R::read(&block).expect("a reader").block(), block);
            }
            let block = &block[..TAG_BYTES];
            if place < 5 && value > 1 {
                refused::<T>(block);
                assert_eq!(blocks::tag_error_type::<Fast>(block), 8);
                assert_eq!(blocks::tag_close::<Fast>(&mut block.to_vec()), 8);
            } else {
                assert_eq!(T::read(block).expect("a tag").block(), block);
            }
        }
    }
}

#[test]
fn blocks_of_another_length() {
    for length in (0..80).filter(|&length| length != TAG_BYTES) {
        refused::<T>(&vec![0; length]);
        let mut block = vec![0xA5; length];
        let mut reply = buffer();
        assert_eq!(blocks::reset::<T>(&mut block, &mut reply), (8, 0));
        assert_eq!(block, vec![0xA5; length]);
        assert_area(&reply, 0);
    }
    for length in (0..80).filter(|&length| length != READER_BYTES) {
        refused::<R>(&vec![0; length]);
    }
}

#[test]
fn resets_fill_any_block() {
    for room in [0, 3, AREA, AREA + 7] {
        let mut reply = vec![0xA5; room];
        let mut block = [0xA5; READER_BYTES];
        assert_eq!(blocks::reset::<T>(&mut block[..TAG_BYTES], &mut reply), (0, 0));
        assert_eq!(block[..TAG_BYTES], [0; TAG_BYTES]);
        assert_eq!(blocks::reset::<R>(&mut block, &mut reply), (0, 0));
        assert_eq!(block, [0; READER_BYTES]);
        assert_area(&reply, 0);
    }
}

#[test]
fn calls_change_the_block_as_they_change_the_state() {
    let (mut reader, mut tag) = opened::<Fast>(2, 3);
    let (mut reader_block, mut tag_block) = (reader.block(), tag.block());
    let sent = send(&mut reader, 2, b"words", 40);
    let mut reply = buffer();
    let got = blocks::call(&mut reader_block, &mut reply, |reader: &mut R, reply| {
        reader.send(2, b"words", 40, reply)
    });
    assert_eq!(got, (0, sent.count));
    assert_eq!(reply[..sent.bytes.len()], sent.bytes);
    assert_eq!(reader_block, reader.block());
    tag.close();
    assert_eq!(blocks::tag_close::<Grain>(&mut tag_block), 0);
    assert_eq!(tag_block, tag.block());
    assert_eq!(blocks::tag_error_type::<Grain>(&tag_block), 3);
}

#[test]
fn a_state_against_the_rules_is_kept() {
    let mut block = [0; TAG_BYTES];
    block[5] = 1;
    let mut reply = buffer();
    let got =
        blocks::call(&mut block, &mut reply, |tag: &mut T, reply| tag.response(4, &[], 0, reply));
    assert_eq!((got, block[5]), ((8, 0), 1));
    assert_area(&reply, 0);
    assert_eq!(blocks::tag_error_type::<Fast>(&block), 0);
    assert_eq!(blocks::tag_close::<Fast>(&mut block), 0);
    assert_eq!(block[..6], [0, 0, 0, 0, 1, 0]);
}

#[test]
fn finding_a_key() {
    let find = |book: &[u8], keyid: u8, room: usize| {
        let mut reply = vec![0xA5; room];
        let got = blocks::book_find(book, keyid, &mut reply);
        assert_area(&reply, got.1);
        (got, reply)
    };
    let (got, reply) = find(&book(), 5, AREA + 7);
    assert_eq!(got, (0, 128));
    assert_eq!(reply[..16], hex("0123456789ABCDEFFEDCBA9876543210"));
    assert_eq!(find(&book()[1..], 7, AREA - 1).0, (2, 0));
    assert_eq!(find(&book()[1..], 7, AREA).0, (1, 0));
    assert_eq!(find(&book(), 7, AREA).0, (5, 0));
}

#[test]
fn numbers_of_refused_frames() {
    let refused = Scan { refusal: 22, ..Scan::default() };
    assert_eq!(scan(&[0, 1, 1]), refused);
    let mut out = [0xEE; 4];
    assert_eq!(blocks::frame_write(&mut out, 3, 6, 0, &[]), (24, 0));
    assert_eq!(out, [0xEE; 4]);
    assert_eq!(blocks::frame_write(&mut out, 1, 1, 1, &[0x80]), (0, 4));
    assert_eq!(out, [0xEE, 1, 1, 0x80]);
}
