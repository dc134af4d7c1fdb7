//! Honest exchanges: TA, IA and MA, MAC32 and MAC64, secure messages on and off,
//! with messages both ways.

mod common;

use common::*;
use second::bits::{from_bytes, to_bytes};
use second::cipher::Cipher;
use second::fast::Fast;
use second::grain::Grain;
use second::reader::{Reader, Stage};
use second::tag::{Name, Tag};

const LENGTHS: [usize; 8] = [0, 1, 7, 8, 9, 40, 2047, 2048];

/// Both ends hold the same cipher, accumulator and register.
fn assert_together<C: Cipher>(reader: &Reader<C>, tag: &Tag<C>) {
    assert_eq!(reader.cipher, tag.cipher);
    assert_eq!(reader.mac, tag.mac);
    assert!(!reader.earns_8() && !tag.earns_8());
}

/// Data with ones beyond its count, and the bytes it comes back as.
fn message(random: &mut Xorshift, count: usize) -> (Vec<u8>, Vec<u8>) {
    let data = random.bytes(count.div_ceil(8) + 1);
    let clean = to_bytes(&from_bytes(&data, count));
    (data, clean)
}

fn to_tag<C: Cipher>(
    reader: &mut Reader<C>,
    tag: &mut Tag<C>,
    kind: u8,
    random: &mut Xorshift,
    count: usize,
) {
    let (data, clean) = message(random, count);
    let width = tag.mac.width as usize;
    let sent = done(send(reader, kind, &data, count), count + 8 + width);
    if kind == 1 {
        assert_eq!(to_bytes(&from_bytes(&sent.bytes, count)), clean);
    }
    let got = done(command(tag, kind, &sent.bytes, sent.count, 0x1F), count);
    assert_eq!(got.bytes, clean);
    assert_together(reader, tag);
}

fn to_reader<C: Cipher>(
    reader: &mut Reader<C>,
    tag: &mut Tag<C>,
    kind: u8,
    random: &mut Xorshift,
    count: usize,
) {
    let (data, clean) = message(random, count);
    let width = tag.mac.width as usize;
    let sent = done(response(tag, kind + 3, &data, count), count + 8 + width);
    if kind == 1 {
        assert_eq!(to_bytes(&from_bytes(&sent.bytes, count)), clean);
    }
    let got = done(receive(reader, kind, &sent.bytes, sent.count), count);
    assert_eq!(got.bytes, clean);
    assert_together(reader, tag);
}

fn exchange<C: Cipher>(method: u8, options: u8, seed: u64) {
    println!("method {method} options {options} seed {seed:X}");
    let mut random = Xorshift(seed);
    let (mut reader, mut tag) = opened::<C>(method, options);
    assert_together(&reader, &tag);
    let name = [Name::Ta1, Name::Ia2, Name::Ma2][method as usize];
    assert_eq!((tag.name, tag.init, tag.error), (name, true, false));
    assert_eq!((tag.ta, tag.ia), (method != 1, method != 0));
    assert_eq!((tag.keyid, tag.options), (KEYID, options));
    assert_eq!(tag.mac.width, if options & 1 == 1 { 64 } else { 32 });
    assert_eq!((reader.stage, reader.method, reader.options), (Stage::Open, method, options));
    assert_eq!((reader.keyid, reader.number), (KEYID, READER_NUMBER));
    let secret = method == 2 && options & 2 == 2;
    for count in LENGTHS {
        for kind in if secret { 1..=2 } else { 1..=1 } {
            if method != 0 {
                to_tag(&mut reader, &mut tag, kind, &mut random, count);
            }
            if method != 1 {
                to_reader(&mut reader, &mut tag, kind, &mut random, count);
            }
        }
    }
    // What the machines do not allow each other is 9 or 3.
    if method == 0 {
        assert_eq!(send(&mut reader, 1, &[], 0).number, 9);
        assert_eq!(command(&mut tag, 1, &[], 0, 0x1F).number, 9);
    }
    if method == 1 {
        assert_eq!(receive(&mut reader, 1, &[], 0).number, 9);
        assert_eq!(response(&mut tag, 4, &[], 0).number, 9);
    }
    if !secret {
        let before = reader.clone();
        assert_eq!(send(&mut reader, 2, &[], 0).number, 9);
        assert_eq!(receive(&mut reader, 2, &[], 0).number, 9);
        assert_eq!(reader, before);
        assert_eq!(command(&mut tag, 2, &[], 0, 0x1F).number, 3);
        assert!(tag.error);
    }
    let mut reply = buffer();
    assert_eq!(reader.reset(&mut reply), (0, 0));
    assert_area(&reply, 0);
    assert_eq!(reader, Reader::fresh());
    assert_eq!(tag.reset(&mut reply[..3]), (0, 0));
    assert_eq!(tag, Tag::fresh());
}

#[test]
fn all_methods_and_options() {
    for method in 0..3 {
        for options in 0..4 {
            let seed = 0x9E37_79B9_7F4A_7C15 ^ ((method as u64) << 8) ^ options as u64;
            exchange::<Grain>(method, options, seed);
            exchange::<Fast>(method, options, seed);
        }
    }
}

/// "The MAC is the accumulator. It is not started again: the next message goes on
/// from it." The same message twice has different MACs, also over other messages
/// between and in both directions.
#[test]
fn macs_go_on() {
    let (mut reader, mut tag) = opened::<Fast>(2, 0);
    let first = send(&mut reader, 1, &[0x12, 0x34], 16);
    let second = send(&mut reader, 1, &[0x12, 0x34], 16);
    assert_ne!(first.bytes, second.bytes);
    done(command(&mut tag, 1, &first.bytes, first.count, 0x1F), 16);
    done(command(&mut tag, 1, &second.bytes, second.count, 0x1F), 16);
    let (mut reader, mut tag) = opened::<Fast>(2, 0);
    let first = send(&mut reader, 1, &[0x12, 0x34], 16);
    assert_eq!(done(command(&mut tag, 1, &first.bytes, first.count, 0x1F), 16).count, 16);
    assert_eq!(command(&mut tag, 1, &first.bytes, first.count, 0x1F).number, 10);
}

/// Set 5: the encrypted message and its MAC, through both machines.
#[test]
fn set_5_through_the_machines() {
    let mut book = vec![0x42];
    book.extend([0; 16]);
    let mut reader = Reader::<Grain>::fresh();
    let mut tag = Tag::<Grain>::fresh();
    let mut reply = buffer();
    let number = 0x8000_0000_0000;
    assert_eq!(reader.begin(2, 2, 0x42, number, &book, &mut reply), (0, 64));
    assert_eq!(reply[..8], hex("8042800000000000")[..]);
    let step_0 = reply[..8].to_vec();
    assert_eq!(tag.command(0, &step_0, 64, 0xFF, &book, 0, &mut reply), (0, 56));
    assert_eq!(reply[..7], hex("FF000000000000")[..]);
    let first = reply[..7].to_vec();
    assert_eq!(reader.response(&first, 56, &mut reply), (0, 80));
    assert_eq!(reply[..10], hex("92420D2B1F2EBC83DA7E")[..]);
    let step_1 = reply[..10].to_vec();
    assert_eq!(tag.command(0, &step_1, 80, 0xFF, &book, 0, &mut reply), (0, 65));
    let mut bits = vec![false];
    bits.extend(from_bytes(&hex("6658EE3150F9EF47"), 64));
    assert_eq!(reply[..9], to_bytes(&bits)[..]);
    let second = reply[..9].to_vec();
    assert_eq!(reader.response(&second, 65, &mut reply), (0, 0));
    assert_eq!(reader.send(2, &hex("12345678AB"), 40, &mut reply), (0, 80));
    assert_eq!(reply[..10], hex("B3B86B1C7C0066789267")[..]);
}
