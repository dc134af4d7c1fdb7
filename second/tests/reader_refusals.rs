//! Every refusal of the reader, with the state kept or closed as the table says.

mod common;

use common::*;
use second::fast::Fast;
use second::reader::{Reader, Stage};

type R = Reader<Fast>;

const CLOSED: [u64; 12] = [4, 0, 0, 0, 0, 0, 0, 0, 0, 0, 0, 0];

#[track_caller]
fn kept(reader: &R, number: u8, call: impl FnOnce(&mut R) -> Answer) {
    let mut after = reader.clone();
    let got = call(&mut after);
    assert_eq!((got.number, got.count), (number, 0));
    assert_eq!(&after, reader);
}

#[track_caller]
fn closes(reader: &R, number: u8, call: impl FnOnce(&mut R) -> Answer) {
    let mut after = reader.clone();
    let got = call(&mut after);
    assert_eq!((got.number, got.count), (number, 0));
    assert_eq!(after.numbers(), CLOSED);
    assert!(!after.earns_8());
}

fn closed() -> R {
    R::from_numbers(&CLOSED).expect("a state")
}

/// A reader with step 0 sent, and the response it waits for.
fn step_0_sent(method: u8, options: u8) -> (R, Vec<u8>) {
    let ((reader, first), _) = after_step_0::<Fast>(method, options);
    (reader, first.expect("a response"))
}

/// A reader with step 1 sent, and the response it waits for.
fn step_1_sent(method: u8, options: u8) -> (R, Vec<u8>, usize) {
    let ((mut reader, first), mut tag) = after_step_0::<Fast>(method, options);
    let step_1 = done(take(&mut reader, &first.expect("a response"), 56), 80);
    let length = if method == 1 { 1 } else { 65 };
    let second = done(command(&mut tag, 0, &step_1.bytes, 80, 0x1F), length);
    (reader, second.bytes, length)
}

fn all_stages() -> Vec<R> {
    let mut all = vec![R::fresh(), closed()];
    for options in 0..4 {
        for method in 0..3 {
            all.push(step_0_sent(method, options).0);
            all.push(opened::<Fast>(method, options).0);
        }
        all.push(step_1_sent(1, options).0);
        all.push(step_1_sent(2, options).0);
    }
    assert!(all.iter().all(|reader| !reader.earns_8()));
    all
}

#[test]
fn what_step_0_stores() {
    for method in 0..3u8 {
        for options in 0..4u8 {
            let mut reader = R::fresh();
            let got = done(begin(&mut reader, method, options), 64);
            let sent = if method == 0 { options } else { 0 };
            let mut payload = vec![method << 6 | sent, KEYID];
            payload.extend(hex("112233445566"));
            assert_eq!(got.bytes, payload);
            let key = [0x0123_4567_89AB_CDEF, 0xFEDC_BA98_7654_3210];
            let numbers = [
                Stage::Step0Sent as u64,
                method as u64,
                options as u64,
                KEYID as u64,
                READER_NUMBER,
                0,
                key[0],
                key[1],
                0,
                0,
                0,
                0,
            ];
            assert_eq!(reader.numbers(), numbers);
        }
    }
}

#[test]
fn begin_refusals() {
    let call = |method: u8, options: u8, keyid: u8, number: u64, book: Vec<u8>, room: usize| {
        move |reader: &mut R| {
            let mut reply = vec![0xA5; room];
            let got = reader.begin(method, options, keyid, number, &book, &mut reply);
            assert_area(&reply, got.1);
            Answer { number: got.0, count: got.1, bytes: Vec::new() }
        }
    };
    let high = 1u64 << 48;
    let bad = vec![0; 18];
    for reader in all_stages() {
        let mut ill = reader.clone();
        ill.options = 4;
        kept(&ill, 8, call(3, 4, 7, high, bad.clone(), 0));
        kept(&reader, 2, call(3, 4, 7, high, bad.clone(), 264));
        kept(&reader, 11, call(3, 4, 7, high, bad.clone(), 265));
        kept(&reader, 1, call(3, 4, 7, high - 1, bad.clone(), 265));
        if reader.stage != Stage::Idle {
            kept(&reader, 9, call(3, 4, 7, 0, book(), 265));
            kept(&reader, 9, call(0, 0, KEYID, 0, book(), 265));
        }
    }
    let idle = R::fresh();
    kept(&idle, 5, call(3, 4, 7, 0, book(), 265));
    kept(&idle, 5, call(0, 0, 7, 0, Vec::new(), 265));
    for method in 0..=255u8 {
        for options in [0, 1, 2, 3, 4, 5, 8, 12, 15, 16, 255] {
            if method >= 3 || options >= 4 {
                kept(&idle, 4, call(method, options, KEYID, 0, book(), 265));
            }
        }
    }
    done(call(2, 3, KEYID, high - 1, book(), 265)(&mut idle.clone()), 64);
}

#[test]
fn calls_without_work_are_9() {
    for reader in all_stages() {
        let waits = matches!(reader.stage, Stage::Step0Sent | Stage::Step1Sent);
        let open = reader.stage == Stage::Open;
        if !waits {
            kept(&reader, 9, |r| take(r, &[0; 15], 120));
            kept(&reader, 9, |r| take(r, &[], 0));
        }
        for kind in 1..3 {
            let secret = reader.method == 2 && reader.options & 2 == 2;
            let kind_open = open && (kind == 1 || secret);
            if !(kind_open && reader.method != 0) {
                kept(&reader, 9, |r| send(r, kind, &[1; 8], 64));
            }
            if !(kind_open && reader.method != 1) {
                kept(&reader, 9, |r| receive(r, kind, &[1; 8], 64));
                kept(&reader, 9, |r| receive(r, kind, &[], 0));
            }
        }
    }
}

#[test]
fn refusals_8_2_11_stand_first() {
    for reader in all_stages() {
        let mut ill = reader.clone();
        ill.number = 1 << 48;
        let mut short = vec![0xA5; 264];
        for (state, number) in [(&ill, 8), (&reader, 2)] {
            let mut after = state.clone();
            short.fill(0xA5);
            assert_eq!(after.response(&[], 1, &mut short), (number, 0));
            assert_area(&short, 0);
            short.fill(0xA5);
            assert_eq!(after.send(0, &[], 1, &mut short), (number, 0));
            assert_area(&short, 0);
            short.fill(0xA5);
            assert_eq!(after.receive(0, &[], 1, &mut short), (number, 0));
            assert_area(&short, 0);
            assert_eq!(&after, state);
        }
        kept(&reader, 11, |r| take(r, &[0; 15], 121));
        for kind in [0, 3, 4, 5, 6, 255] {
            kept(&reader, 11, |r| send(r, kind, &[], 0));
            kept(&reader, 11, |r| receive(r, kind, &[], 0));
        }
        for kind in 1..3 {
            kept(&reader, 11, |r| send(r, kind, &[0; 2], 17));
            kept(&reader, 11, |r| send(r, kind, &[0; 300], 2049));
            kept(&reader, 11, |r| send(r, kind, &[0; 300], usize::MAX));
            kept(&reader, 11, |r| receive(r, kind, &[0; 300], 2401));
        }
    }
}

#[test]
fn first_response_refusals() {
    for method in 0..3u8 {
        for options in 0..4u8 {
            let (reader, first) = step_0_sent(method, options);
            let mut long = first.clone();
            long.extend([0; 20]);
            for count in [0, 1, 55, 57, 64, 65, 119, 121] {
                closes(&reader, 6, |r| take(r, &long, count));
            }
            closes(&reader, 6, |r| take(r, &long, if method == 0 { 56 } else { 120 }));
            if method == 0 {
                for bit in 8..120 {
                    let mut payload = first.clone();
                    payload[bit / 8] ^= 0x80 >> (bit % 8);
                    closes(&reader, 10, |r| take(r, &payload, 120));
                }
            }
        }
    }
}

/// 4 exactly where the method's bit or one of the options' is missing, behind a
/// wrong length's 6 and before the comparison's 10.
#[test]
fn received_features() {
    for method in 0..3u8 {
        for options in 0..4u8 {
            let (reader, first) = step_0_sent(method, options);
            let (length, reply) = if method == 0 { (120, 0) } else { (56, 80) };
            for features in 0..=255u8 {
                let bit = |place: u8| features >> place & 1 == 1;
                let own = [bit(0), bit(1), true][method as usize];
                let mac = if options & 1 == 1 { bit(3) } else { bit(2) };
                let mut payload = [&first[..], &[0xFF; 20]].concat();
                payload[0] = features;
                for count in [length - 1, length + 1] {
                    closes(&reader, 6, |r| take(r, &payload, count));
                }
                if own && mac && (options & 2 == 0 || bit(4)) {
                    done(take(&mut reader.clone(), &payload, length), reply);
                } else {
                    closes(&reader, 4, |r| take(r, &payload, length));
                    payload[length / 8 - 1] ^= 1;
                    closes(&reader, 4, |r| take(r, &payload, length));
                }
            }
        }
    }
}

/// "A lot of bought tags reported features without the TA bit, and our reader
/// authenticated them all the same."
#[test]
fn bought_tags_without_the_ta_bit() {
    for options in 0..4 {
        let (reader, mut first) = step_0_sent(0, options);
        assert_eq!(first[0], 0x1F);
        done(take(&mut reader.clone(), &first, 120), 0);
        for features in [0x1E, 0xFE] {
            first[0] = features;
            closes(&reader, 4, |r| take(r, &first, 120));
        }
    }
}

#[test]
fn second_response_refusals() {
    for options in 0..4 {
        let (reader, second, length) = step_1_sent(1, options);
        for count in [0, 2, 8, 64, 65, 80] {
            closes(&reader, 6, |r| take(r, &[0x80; 10], count));
        }
        closes(&reader, 10, |r| take(r, &[0x80], 1));
        let mut open = reader.clone();
        done(take(&mut open, &second, length), 0);
        assert_eq!(open.stage, Stage::Open);
        done(take(&mut reader.clone(), &[0x7F], 1), 0);

        let (reader, second, length) = step_1_sent(2, options);
        for count in [0, 2, 8, 64, 66, 80] {
            closes(&reader, 6, |r| take(r, &[0x80; 10], count));
        }
        closes(&reader, 6, |r| take(r, &[0x7F], 1));
        closes(&reader, 10, |r| take(r, &[0x80], 1));
        for bit in 0..65 {
            let mut payload = second.clone();
            payload[bit / 8] ^= 0x80 >> (bit % 8);
            closes(&reader, if bit == 0 { 6 } else { 10 }, |r| take(r, &payload, length));
        }
        let mut payload = second.clone();
        payload[8] |= 0x7F;
        done(take(&mut reader.clone(), &payload, length), 0);
    }
}

#[test]
fn message_refusals() {
    for (method, options, kind) in [(0u8, 0u8, 1u8), (0, 1, 1), (2, 2, 1), (2, 2, 2), (2, 3, 2)] {
        let (reader, mut tag) = opened::<Fast>(method, options);
        let width = reader.mac.width as usize;
        let sent = response(&mut tag, kind + 3, &[0x3C; 256], 21);
        let long = vec![0u8; 400];
        closes(&reader, 6, |r| receive(r, kind, &long, 0));
        closes(&reader, 6, |r| receive(r, kind, &long, 7 + width));
        closes(&reader, 10, |r| receive(r, kind, &long, 8 + width));
        closes(&reader, 10, |r| receive(r, kind, &long, 2048 + 8 + width));
        closes(&reader, 6, |r| receive(r, kind, &long, 2049 + 8 + width));
        closes(&reader, 6, |r| receive(r, kind, &long, 3200));
        for bit in 0..sent.count {
            let mut payload = sent.bytes.clone();
            payload[bit / 8] ^= 0x80 >> (bit % 8);
            let zero = (21..29).contains(&bit);
            let number = if zero { 6 } else { 10 };
            closes(&reader, number, |r| receive(r, kind, &payload, sent.count));
        }
        let got = done(receive(&mut reader.clone(), kind, &sent.bytes, sent.count), 21);
        assert_eq!(got.bytes, vec![0x3C, 0x3C, 0x38]);
    }
}
