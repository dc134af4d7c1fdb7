//! The plain and the fast form give the same on random exchanges: answer, reply
//! bit count, every byte of the lent buffer, and the whole state.

mod common;

use common::*;
use second::cipher::Cipher;
use second::fast::Fast;
use second::grain::Grain;
use second::reader::{Reader, Stage};
use second::tag::{Name, Tag};

#[derive(Clone, Debug)]
enum Call {
    TagReset,
    TagClose,
    Command { kind: u8, payload: Vec<u8>, count: usize, features: u8, book: Vec<u8>, number: u64 },
    Response { kind: u8, data: Vec<u8>, count: usize },
    ReaderReset,
    Begin { method: u8, options: u8, keyid: u8, number: u64, book: Vec<u8> },
    Take { payload: Vec<u8>, count: usize },
    Send { kind: u8, data: Vec<u8>, count: usize },
    Receive { kind: u8, payload: Vec<u8>, count: usize },
}

struct Pair<C: Cipher> {
    tag: Tag<C>,
    reader: Reader<C>,
}

impl<C: Cipher> Pair<C> {
    fn call(&mut self, call: &Call, reply: &mut [u8]) -> (u8, usize) {
        match call {
            Call::TagReset => self.tag.reset(reply),
            Call::TagClose => {
                self.tag.close();
                (self.tag.error_type(), 0)
            }
            Call::Command { kind, payload, count, features, book, number } => {
                self.tag.command(*kind, payload, *count, *features, book, *number, reply)
            }
            Call::Response { kind, data, count } => self.tag.response(*kind, data, *count, reply),
            Call::ReaderReset => self.reader.reset(reply),
            Call::Begin { method, options, keyid, number, book } => {
                self.reader.begin(*method, *options, *keyid, *number, book, reply)
            }
            Call::Take { payload, count } => self.reader.response(payload, *count, reply),
            Call::Send { kind, data, count } => self.reader.send(*kind, data, *count, reply),
            Call::Receive { kind, payload, count } => {
                self.reader.receive(*kind, payload, *count, reply)
            }
        }
    }
}

/// What was last said, to be handed on: bits and their count.
#[derive(Clone, Default)]
struct Said {
    bytes: Vec<u8>,
    count: usize,
    kind: u8,
}

fn some_book(random: &mut Xorshift) -> Vec<u8> {
    let mut book = book();
    match random.below(40) {
        0 => book[17] = 1,
        1 => book.push(0),
        2 => book.clear(),
        _ => {}
    }
    book
}

fn some_number(random: &mut Xorshift) -> u64 {
    let number = random.next() & 0xFFFF_FFFF_FFFF;
    if random.one_in(50) {
        number | 1 << 48
    } else {
        number
    }
}

fn some_data(random: &mut Xorshift) -> (Vec<u8>, usize) {
    let most = [0, 1, 9, 40, 200, 2048, 2060][random.below(7) as usize];
    let count = random.below(most + 1) as usize;
    let extra = random.below(2) as usize;
    let mut data = random.bytes(count.div_ceil(8) + extra);
    if random.one_in(60) {
        data.pop();
    }
    (data, count)
}

/// Mostly what was said, now and then with one bit changed, cut or made longer.
fn handed_on(random: &mut Xorshift, said: &Said) -> (Vec<u8>, usize) {
    let (mut bytes, mut count) = (said.bytes.clone(), said.count);
    match random.below(24) {
        0 if count > 0 => {
            let bit = random.below(count as u64) as usize;
            bytes[bit / 8] ^= 0x80 >> (bit % 8);
        }
        1 if count > 16 => {
            let bit = random.below(16) as usize;
            bytes[bit / 8] ^= 0x80 >> (bit % 8);
        }
        2 => count = count.saturating_sub(1 + random.below(9) as usize),
        3 => count += 1 + random.below(9) as usize,
        4 => {
            bytes.extend(random.bytes(2));
            count += random.below(17) as usize;
        }
        5 => return some_data(random),
        _ => {}
    }
    (bytes, count)
}

/// The call that follows, mostly the honest one.
fn next_call(random: &mut Xorshift, pair: &Pair<Fast>, said: &Said) -> Call {
    let features = if random.one_in(20) { random.next() as u8 } else { 0x1F };
    let kind = if random.one_in(20) { random.below(8) as u8 } else { 1 + random.below(2) as u8 };
    let method = if random.one_in(30) { 3 } else { random.below(3) as u8 };
    let options = if random.one_in(30) { random.next() as u8 } else { random.below(4) as u8 };
    let (data, length) = some_data(random);
    let (bytes, count) = handed_on(random, said);
    let number = some_number(random);
    let book = some_book(random);
    let keyid = if random.one_in(30) { random.below(8) as u8 } else { KEYID };
    let payload = bytes.clone();
    let receive = |kind| Call::Receive { kind, payload: bytes.clone(), count };
    let begin = Call::Begin { method, options, keyid, number, book: book.clone() };
    let take = Call::Take { payload: bytes.clone(), count };
    let response = Call::Response { kind: kind + 3, data: data.clone(), count: length };
    let send = Call::Send { kind, data, count: length };
    let to_tag = |kind| Call::Command {
        kind,
        payload: payload.clone(),
        count,
        features,
        book: book.clone(),
        number,
    };
    if random.one_in(30) {
        let any = [
            Call::TagReset,
            Call::TagClose,
            Call::ReaderReset,
            to_tag(kind),
            to_tag(0),
            begin,
            take,
            response,
            send,
            receive(kind),
        ];
        return any[random.below(10) as usize].clone();
    }
    let again = !random.one_in(3);
    let begun = pair.reader.stage != Stage::Idle;
    let told = pair.tag.name != Name::CsReset;
    if again && (pair.tag.error || pair.tag.earns_8() || (told && !begun)) {
        return Call::TagReset;
    }
    if again && (pair.reader.stage == Stage::Closed || pair.reader.earns_8()) {
        return Call::ReaderReset;
    }
    match (pair.reader.stage, pair.tag.name, said.kind) {
        (Stage::Idle, _, _) => begin,
        (Stage::Step0Sent, Name::CsReset, _) => to_tag(0),
        (Stage::Step1Sent, Name::Ia1 | Name::Ma1, _) => to_tag(0),
        (Stage::Step0Sent | Stage::Step1Sent, _, _) => take,
        (_, Name::CsReset, _) => Call::ReaderReset,
        (_, _, 1 | 2) => to_tag(said.kind),
        (_, _, 4 | 5) => receive(said.kind - 3),
        (_, Name::Ta1, _) => response,
        (_, Name::Ia2, _) => send,
        _ if random.one_in(2) => response,
        _ => send,
    }
}

/// Any state whatever, more often a sound one with one number changed.
fn disturb(random: &mut Xorshift, pair: &mut Pair<Fast>) {
    let mut tag = pair.tag.numbers();
    let mut reader = pair.reader.numbers();
    let place = random.below(14) as usize;
    tag[place] = match place {
        0 => random.below(6),
        1..=4 => random.below(2),
        5..=7 => random.below(256),
        _ => random.next(),
    };
    let place = random.below(12) as usize;
    reader[place] = match place {
        0 => random.below(5),
        1 | 2 => random.below(5),
        3 | 5 => random.below(256),
        _ => random.next(),
    };
    if random.one_in(2) {
        pair.tag = Tag::from_numbers(&tag).expect("a state");
    } else {
        pair.reader = Reader::from_numbers(&reader).expect("a state");
    }
}

#[derive(Debug, Default)]
struct Reached {
    tag: [u64; 12],
    reader: [u64; 12],
    accepted: u64,
}

fn exchange(seed: u64, reached: &mut Reached) {
    let mut random = Xorshift(seed);
    let mut fast = Pair::<Fast> { tag: Tag::fresh(), reader: Reader::fresh() };
    let mut said = Said::default();
    for step in 0..40 {
        if random.one_in(60) {
            disturb(&mut random, &mut fast);
        }
        let mut plain = Pair::<Grain> {
            tag: Tag::from_numbers(&fast.tag.numbers()).expect("a state"),
            reader: Reader::from_numbers(&fast.reader.numbers()).expect("a state"),
        };
        let call = next_call(&mut random, &fast, &said);
        let room = if random.one_in(40) { random.below(265) as usize } else { AREA + 4 };
        let mut fast_reply = vec![0xA5; room];
        let mut plain_reply = fast_reply.clone();
        let got = fast.call(&call, &mut fast_reply);
        let here = || format!("seed {seed:X} step {step} {call:?}");
        assert_eq!(plain.call(&call, &mut plain_reply), got, "{}", here());
        assert_eq!(plain_reply, fast_reply, "{}", here());
        assert_eq!(plain.tag.numbers(), fast.tag.numbers(), "{}", here());
        assert_eq!(plain.reader.numbers(), fast.reader.numbers(), "{}", here());
        if matches!(call, Call::TagClose) {
            continue;
        }
        assert_area(&fast_reply, got.1);
        match call {
            Call::Command { .. } | Call::Response { .. } => reached.tag[got.0 as usize] += 1,
            Call::TagReset | Call::ReaderReset => continue,
            _ => reached.reader[got.0 as usize] += 1,
        }
        if got.0 != 0 {
            continue;
        }
        let kind = match call {
            Call::Response { kind, .. } | Call::Send { kind, .. } => kind,
            Call::Command { kind: 1 | 2, .. } | Call::Receive { .. } => {
                reached.accepted += 1;
                0
            }
            _ => 0,
        };
        said = Said { bytes: fast_reply[..got.1.div_ceil(8)].to_vec(), count: got.1, kind };
    }
}

#[test]
fn both_forms_agree() {
    let mut seeds = Xorshift(0x0DDB_1A5E_5BAD_5EED);
    let mut reached = Reached::default();
    let first = seeds.0;
    for _ in 0..3000 {
        let seed = seeds.next();
        exchange(seed, &mut reached);
    }
    println!("seeds from {first:X}; {reached:?}");
    assert!(reached.accepted > 5000);
    for number in 0..12 {
        assert!(reached.tag[number] > 0, "tag {number}");
        assert_eq!(reached.reader[number] > 0, number != 3 && number != 7, "reader {number}");
    }
}

/// The cipher alone: every count of outputs and pairs, from any registers.
#[test]
fn ciphers_agree() {
    let seed = 0xC1F4_E200_51DE_0001;
    println!("seed {seed:X}");
    let mut random = Xorshift(seed);
    for round in 0..1500 {
        let b = [random.next(), random.next()];
        let s = [random.next(), random.next()];
        let mut plain = Grain::from_halves(b, s);
        let mut fast = Fast::from_halves(b, s);
        assert_eq!((plain.halves(), fast.halves()), ((b, s), (b, s)));
        let count = round % 150;
        assert_eq!(plain.outputs(count), fast.outputs(count));
        assert_eq!(plain.halves(), fast.halves());
        assert_eq!(plain.pairs(count), fast.pairs(count));
        assert_eq!(plain.keystream(count), fast.keystream(count));
        let width = [32, 64][round % 2];
        let (mut one, mut two) = (plain.fill(width), fast.fill(width));
        assert_eq!(one, two);
        let message: Vec<bool> = (0..count).map(|_| random.one_in(2)).collect();
        plain.mac(&mut one, &message);
        fast.mac(&mut two, &message);
        assert_eq!(one, two);
        assert_eq!(plain.encrypt(&mut one, &message), fast.encrypt(&mut two, &message));
        assert_eq!(plain.decrypt(&mut one, &message), fast.decrypt(&mut two, &message));
        assert_eq!((one, plain.halves()), (two, fast.halves()));
        let key: [u8; 16] = random.bytes(16).try_into().expect("16 bytes");
        let numbers = [random.next() >> 16, random.next() >> 16];
        let (ta, ia) = (random.one_in(2), random.one_in(2));
        let plain = Grain::start(&key, numbers[0], numbers[1], ta, ia);
        let fast = Fast::start(&key, numbers[0], numbers[1], ta, ia);
        assert_eq!(plain.halves(), fast.halves());
    }
}
