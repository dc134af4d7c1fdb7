//! Every refusal of the tag, with the state kept or closed as the table says.

mod common;

use common::*;
use second::fast::Fast;
use second::grain::Grain;
use second::tag::{Name, Tag};

type T = Tag<Fast>;

fn state(name: Name) -> T {
    match name {
        Name::CsReset => T::fresh(),
        Name::Ta1 => opened::<Fast>(0, 2).1,
        Name::Ia1 => after_step_0::<Fast>(1, 0).1,
        Name::Ma1 => after_step_0::<Fast>(2, 0).1,
        Name::Ia2 => opened::<Fast>(1, 1).1,
        Name::Ma2 => opened::<Fast>(2, 0).1,
    }
}

const ALL: [Name; 6] = second::tag::NAMES;

fn closed(tag: &T) -> T {
    let mut closed = tag.clone();
    closed.close();
    assert!(closed.error && !closed.earns_8());
    assert_eq!(closed.numbers()[5..], [0; 9]);
    assert_eq!(closed.numbers()[..4], tag.numbers()[..4]);
    closed
}

#[track_caller]
fn kept(tag: &T, number: u8, call: impl FnOnce(&mut T) -> Answer) {
    let mut after = tag.clone();
    let got = call(&mut after);
    assert_eq!((got.number, got.count), (number, 0));
    assert_eq!(&after, tag);
}

#[track_caller]
fn closes(tag: &T, number: u8, call: impl FnOnce(&mut T) -> Answer) {
    let mut after = tag.clone();
    let got = call(&mut after);
    assert_eq!((got.number, got.count), (number, 0));
    assert_eq!(after, closed(tag));
}

fn step_0(first: u8) -> Vec<u8> {
    let mut payload = vec![first, KEYID];
    payload.extend(hex("112233445566"));
    payload
}

/// The true step 1 command of a reader of these options, for IA.1 or MA.1.
fn step_1(method: u8, options: u8) -> Vec<u8> {
    let ((mut reader, first), _) = after_step_0::<Fast>(method, options);
    done(take(&mut reader, &first.expect("a response"), 56), 80).bytes
}

#[test]
fn the_table_of_commands() {
    let data = [0u8; 30];
    for name in ALL {
        let tag = state(name);
        let auth = matches!(name, Name::CsReset | Name::Ia1 | Name::Ma1);
        let comm = matches!(name, Name::Ia2 | Name::Ma2);
        for kind in 0..4 {
            let call = |t: &mut T| command(t, kind, &data, 3, 0x1F);
            match kind {
                0 if auth => closes(&tag, 6, call),
                1 if comm => closes(&tag, 6, call),
                1 if name == Name::Ta1 => kept(&tag, 9, call),
                _ => closes(&tag, 3, call),
            }
            kept(&closed(&tag), 7, call);
        }
    }
    let secret = opened::<Fast>(2, 2).1;
    closes(&secret, 6, |t| command(t, 2, &data, 3, 0x1F));
    closes(&secret, 3, |t| command(t, 3, &data, 3, 0x1F));
    closes(&secret, 3, |t| command(t, 0, &data, 3, 0x1F));
}

#[test]
fn the_table_of_responses() {
    for name in ALL {
        let tag = state(name);
        for kind in 4..6 {
            let call = |t: &mut T| response(t, kind, &[0x55; 4], 30);
            match (name, kind) {
                (Name::Ta1 | Name::Ma2, 4) => {
                    done(call(&mut tag.clone()), 30 + 8 + 32);
                }
                (Name::Ta1 | Name::Ma2, _) => closes(&tag, 3, call),
                _ => kept(&tag, 9, call),
            }
            kept(&closed(&tag), 7, call);
        }
    }
    done(response(&mut opened::<Fast>(2, 3).1, 5, &[0x55; 4], 30), 30 + 8 + 64);
}

#[test]
fn refusals_8_2_11_1_stand_first() {
    let good = step_0(0x80);
    let bad_book = [0u8; 16];
    let high = 1u64 << 48;
    let call = |tag: &T, kind: u8, count: usize, number: u64, book: &[u8], room: usize| {
        let mut after = tag.clone();
        let mut reply = vec![0xA5; room];
        let got = after.command(kind, &good, count, 0, book, number, &mut reply);
        assert_area(&reply, 0);
        assert_eq!(&after, tag);
        assert_eq!(got.1, 0);
        got.0
    };
    for name in ALL {
        for tag in [state(name), closed(&state(name))] {
            let mut ill = tag.clone();
            ill.options = 4;
            assert_eq!(call(&ill, 9, 999, high, &bad_book, 1), 8);
            assert_eq!(call(&tag, 9, 999, high, &bad_book, 264), 2);
            assert_eq!(call(&tag, 9, 999, high, &bad_book, 0), 2);
            assert_eq!(call(&tag, 4, 0, 0, &bad_book, 265), 11);
            assert_eq!(call(&tag, 0, 65, 0, &bad_book, 265), 11);
            assert_eq!(call(&tag, 0, usize::MAX, 0, &bad_book, 265), 11);
            assert_eq!(call(&tag, 0, 64, high, &bad_book, 265), 11);
            assert_eq!(call(&tag, 0, 64, high - 1, &bad_book, 265), 1);
            assert_eq!(call(&tag, 3, 0, 0, &bad_book, 300), 1);
        }
    }
    for name in ALL {
        for tag in [state(name), closed(&state(name))] {
            let wants = |kind: u8, count: usize, room: usize| {
                let mut after = tag.clone();
                let mut reply = vec![0xA5; room];
                let got = after.response(kind, &[0xFF; 300], count, &mut reply);
                assert_area(&reply, 0);
                assert_eq!(&after, &tag);
                got.0
            };
            assert_eq!(wants(9, 9999, 264), 2);
            assert_eq!(wants(3, 0, 265), 11);
            assert_eq!(wants(6, 0, 265), 11);
            assert_eq!(wants(4, 2049, 265), 11);
            assert_eq!(wants(5, 2049, 265), 11);
            assert_eq!(wants(4, 2401, 265), 11);
            let mut ill = tag.clone();
            ill.mac.width = 200;
            kept(&ill, 8, |t| response(t, 9, &[], 9999));
        }
    }
    kept(&state(Name::Ta1), 11, |t| response(t, 4, &[0; 2], 17));
}

#[test]
fn step_0_refusals() {
    let tag = T::fresh();
    let call = |payload: Vec<u8>, count: usize, features: u8| {
        move |t: &mut T| command(t, 0, &payload, count, features)
    };
    let mut long = step_0(0x80);
    long.extend([0, 0]);
    closes(&tag, 6, call(long.clone(), 80, 0x1F));
    closes(&tag, 6, call(long.clone(), 65, 0x1F));
    closes(&tag, 6, call(step_0(0xFF), 63, 0));
    closes(&tag, 6, call(step_0(0xFF), 0, 0));
    let unknown = |first: u8| {
        let mut payload = step_0(first);
        payload[1] = 6;
        payload
    };
    for method in 0..4u8 {
        for step in 0..4u8 {
            if method == 3 || step != 0 {
                closes(&tag, 3, call(unknown(method << 6 | step << 4 | 15), 64, 0));
            }
        }
    }
    for method in 0..3u8 {
        closes(&tag, 5, call(unknown(method << 6 | 15), 64, 0));
    }
    for options in 0..16u8 {
        for features in 0..=255u8 {
            let bit = |place: u8| features >> place & 1 == 1;
            let mac = if options & 1 == 1 { bit(3) } else { bit(2) };
            let fits = options < 4 && mac && (options & 2 == 0 || bit(4));
            let allowed = [bit(0) && fits, bit(1) && options == 0, options == 0];
            for method in 0..3u8 {
                let payload = step_0(method << 6 | options);
                if !allowed[method as usize] {
                    closes(&tag, 4, call(payload, 64, features));
                } else {
                    let mut after = tag.clone();
                    let length = if method == 0 { 120 } else { 56 };
                    let got = done(command(&mut after, 0, &payload, 64, features), length);
                    assert_eq!(got.bytes[0], features);
                    assert_eq!(got.bytes[1..7], hex("778899AABBCC")[..]);
                    assert!(!after.earns_8());
                }
            }
        }
    }
    let mut extra = long;
    extra[8] = 0xFF;
    done(command(&mut tag.clone(), 0, &extra, 64, 0x1F), 56);
}

#[test]
fn step_1_refusals() {
    for (method, name) in [(1u8, Name::Ia1), (2, Name::Ma1)] {
        let tag = state(name);
        let call = |payload: Vec<u8>, count: usize, features: u8| {
            move |t: &mut T| command(t, 0, &payload, count, features)
        };
        let good = step_1(method, 0);
        let with = |first: u8, keyid: u8| {
            let mut payload = good.clone();
            payload[0] = first;
            payload[1] = keyid;
            payload
        };
        closes(&tag, 6, call(good.clone(), 64, 0x1F));
        closes(&tag, 6, call(good.clone(), 79, 0x1F));
        closes(&tag, 6, call([good.clone(), vec![0]].concat(), 81, 0x1F));
        for head in 0..16u8 {
            if head != method << 2 | 1 {
                closes(&tag, 3, call(with(head << 4 | 15, 9), 80, 0));
            }
        }
        let head = method << 6 | 1 << 4;
        closes(&tag, 5, call(with(head | 15, 9), 80, 0));
        for options in 0..16u8 {
            for features in 0..32u8 {
                let bit = |place: u8| features >> place & 1 == 1;
                let mac = if options & 1 == 1 { bit(3) } else { bit(2) };
                if options < 4 && mac && (options & 2 == 0 || bit(4)) {
                    let mut after = tag.clone();
                    let true_one = step_1(method, options);
                    assert_eq!(true_one[..2], [head | options, KEYID]);
                    let length = if method == 1 { 1 } else { 65 };
                    let got = done(command(&mut after, 0, &true_one, 80, features), length);
                    assert_eq!(got.bytes[0] >> 7, 0);
                } else {
                    closes(&tag, 4, call(with(head | options, KEYID), 80, features));
                }
            }
        }
    }
}

#[test]
fn failed_comparison_in_step_1() {
    for (method, name, next) in [(1, Name::Ia1, Name::Ia2), (2, Name::Ma1, Name::Ma2)] {
        for bit in 16..80 {
            let mut payload = step_1(method, 1);
            payload[bit / 8] ^= 0x80 >> (bit % 8);
            let mut tag = state(name);
            let got = command(&mut tag, 0, &payload, 80, 0x1F);
            assert_eq!((got.number, got.count, got.bytes), (10, 1, vec![0x80]));
            let numbers = [next as u64, 1, 0, 0, 1, 0, 0, 0, 0, 0, 0, 0, 0, 0];
            assert_eq!(tag.numbers(), numbers);
            assert!(!tag.earns_8());
            assert_eq!(tag.error_type(), 2);
            kept(&tag, 7, |t| command(t, 0, &payload, 80, 0x1F));
        }
    }
}

#[test]
fn message_refusals() {
    for (method, options, kind) in [(1u8, 0u8, 1u8), (1, 1, 1), (2, 2, 1), (2, 2, 2), (2, 3, 2)] {
        let (mut reader, tag) = opened::<Fast>(method, options);
        let width = tag.mac.width as usize;
        let sent = send(&mut reader, kind, &[0xC3; 256], 21);
        let call =
            |payload: Vec<u8>, count: usize| move |t: &mut T| command(t, kind, &payload, count, 0);
        let long = vec![0u8; 400];
        closes(&tag, 6, call(long.clone(), 0));
        closes(&tag, 6, call(long.clone(), 7 + width));
        closes(&tag, 10, call(long.clone(), 8 + width));
        closes(&tag, 10, call(long.clone(), 2048 + 8 + width));
        closes(&tag, 6, call(long.clone(), 2049 + 8 + width));
        closes(&tag, 6, call(long, 3200));
        for bit in 0..sent.count {
            let mut payload = sent.bytes.clone();
            payload[bit / 8] ^= 0x80 >> (bit % 8);
            let zero = (21..29).contains(&bit);
            closes(&tag, if zero { 6 } else { 10 }, call(payload, sent.count));
        }
        let got = done(command(&mut tag.clone(), kind, &sent.bytes, sent.count, 0), 21);
        assert_eq!(got.bytes, vec![0xC3, 0xC3, 0xC0]);
    }
}

#[test]
fn error_types() {
    let expected = [1, 3, 3, 3, 3, 3];
    for (name, expected) in ALL.into_iter().zip(expected) {
        let tag = state(name);
        assert_eq!(tag.error_type(), 0);
        assert_eq!(closed(&tag).error_type(), expected, "{name:?}");
        let mut ill = closed(&tag);
        ill.keyid = 1;
        assert_eq!(ill.error_type(), 0);
    }
}

#[test]
fn closing_is_total_and_reset_opens() {
    let mut random = Xorshift(77);
    for _ in 0..200 {
        let numbers: [u64; 14] = std::array::from_fn(|place| match place {
            0 => random.below(6),
            1..=4 => random.below(2),
            5..=7 => random.below(256),
            _ => random.next(),
        });
        let mut tag = Tag::<Grain>::from_numbers(&numbers).expect("a state");
        assert_eq!(tag.numbers(), numbers);
        tag.close();
        assert_eq!(tag.numbers()[..4], numbers[..4]);
        assert_eq!(tag.numbers()[4..], [1, 0, 0, 0, 0, 0, 0, 0, 0, 0]);
        let mut reply = buffer();
        assert_eq!(tag.reset(&mut reply), (0, 0));
        assert_area(&reply, 0);
        assert_eq!(tag.numbers(), [0; 14]);
    }
}
