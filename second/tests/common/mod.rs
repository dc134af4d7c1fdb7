//! What the tests share.
#![allow(dead_code)]

use second::cipher::Cipher;
use second::reader::Reader;
use second::tag::Tag;

pub const AREA: usize = 265;
pub const NUMBER: u64 = 0x7788_99AA_BBCC;
pub const READER_NUMBER: u64 = 0x1122_3344_5566;
pub const KEYID: u8 = 5;

pub fn hex(text: &str) -> Vec<u8> {
    let digits: Vec<u8> = text
        .chars()
        .filter(|c| !c.is_whitespace())
        .map(|c| c.to_digit(16).expect("hex") as u8)
        .collect();
    assert_eq!(digits.len() % 2, 0, "{text}");
    digits.chunks(2).map(|two| two[0] << 4 | two[1]).collect()
}

/// A reproducible source of numbers.
pub struct Xorshift(pub u64);

impl Xorshift {
    pub fn next(&mut self) -> u64 {
        self.0 ^= self.0 << 13;
        self.0 ^= self.0 >> 7;
        self.0 ^= self.0 << 17;
        self.0
    }

    pub fn below(&mut self, limit: u64) -> u64 {
        (self.next() >> 11) % limit
    }

    pub fn one_in(&mut self, limit: u64) -> bool {
        self.below(limit) == 0
    }

    pub fn bytes(&mut self, count: usize) -> Vec<u8> {
        (0..count).map(|_| (self.next() >> 24) as u8).collect()
    }
}

/// Rising KeyIDs 1, 5 and 9; under 5 stands the key of set 6.
pub fn book() -> Vec<u8> {
    let mut book = vec![1];
    book.extend([0x11; 16]);
    book.push(KEYID);
    book.extend(hex("0123456789ABCDEFFEDCBA9876543210"));
    book.push(9);
    book.extend([0x99; 16]);
    book
}

/// A buffer longer than the reply area, filled with a pattern.
pub fn buffer() -> Vec<u8> {
    vec![0xA5; AREA + 7]
}

/// The whole area is the reply's bits, then zeros; bytes beyond are as found.
pub fn assert_area(reply: &[u8], count: usize) {
    let area = reply.len().min(AREA);
    for bit in count..8 * area {
        assert_eq!(reply[bit / 8] >> (7 - bit % 8) & 1, 0, "bit {bit} behind the reply");
    }
    assert!(reply[area..].iter().all(|&byte| byte == 0xA5), "a byte beyond the area");
}

pub struct Answer {
    pub number: u8,
    pub count: usize,
    pub bytes: Vec<u8>,
}

fn answer(got: (u8, usize), reply: &[u8]) -> Answer {
    assert_area(reply, got.1);
    Answer { number: got.0, count: got.1, bytes: reply[..got.1.div_ceil(8)].to_vec() }
}

pub fn command<C: Cipher>(
    tag: &mut Tag<C>,
    kind: u8,
    payload: &[u8],
    count: usize,
    features: u8,
) -> Answer {
    let mut reply = buffer();
    let got = tag.command(kind, payload, count, features, &book(), NUMBER, &mut reply);
    answer(got, &reply)
}

pub fn response<C: Cipher>(tag: &mut Tag<C>, kind: u8, data: &[u8], count: usize) -> Answer {
    let mut reply = buffer();
    let got = tag.response(kind, data, count, &mut reply);
    answer(got, &reply)
}

pub fn begin<C: Cipher>(reader: &mut Reader<C>, method: u8, options: u8) -> Answer {
    let mut reply = buffer();
    let got = reader.begin(method, options, KEYID, READER_NUMBER, &book(), &mut reply);
    answer(got, &reply)
}

pub fn take<C: Cipher>(reader: &mut Reader<C>, payload: &[u8], count: usize) -> Answer {
    let mut reply = buffer();
    let got = reader.response(payload, count, &mut reply);
    answer(got, &reply)
}

pub fn send<C: Cipher>(reader: &mut Reader<C>, kind: u8, data: &[u8], count: usize) -> Answer {
    let mut reply = buffer();
    let got = reader.send(kind, data, count, &mut reply);
    answer(got, &reply)
}

pub fn receive<C: Cipher>(reader: &mut Reader<C>, kind: u8, data: &[u8], count: usize) -> Answer {
    let mut reply = buffer();
    let got = reader.receive(kind, data, count, &mut reply);
    answer(got, &reply)
}

/// An answer 0 of a known bit count.
pub fn done(answer: Answer, count: usize) -> Answer {
    assert_eq!((answer.number, answer.count), (0, count));
    answer
}

/// A reader and a tag after an honest authentication.
pub fn opened<C: Cipher>(method: u8, options: u8) -> (Reader<C>, Tag<C>) {
    let (mut reader, mut tag) = after_step_0::<C>(method, options);
    if method != 0 {
        let first = reader.1.take().expect("a step 0 response");
        let step_1 = done(take(&mut reader.0, &first, 56), 80);
        let length = if method == 1 { 1 } else { 65 };
        let second = done(command(&mut tag, 0, &step_1.bytes, 80, 0x1F), length);
        done(take(&mut reader.0, &second.bytes, length), 0);
    } else {
        let first = reader.1.take().expect("a step 0 response");
        done(take(&mut reader.0, &first, 120), 0);
    }
    (reader.0, tag)
}

/// A reader with the step 0 response it has not yet taken, and the tag.
#[allow(clippy::type_complexity)]
pub fn after_step_0<C: Cipher>(method: u8, options: u8) -> ((Reader<C>, Option<Vec<u8>>), Tag<C>) {
    let mut reader = Reader::fresh();
    let mut tag = Tag::fresh();
    let step_0 = done(begin(&mut reader, method, options), 64);
    let length = if method == 0 { 120 } else { 56 };
    let first = done(command(&mut tag, 0, &step_0.bytes, 64, 0x1F), length);
    ((reader, Some(first.bytes)), tag)
}
