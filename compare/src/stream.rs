//! Inputs of the program `tagrun`: frames of sessions with its tag, honest and damaged, and any
//! bytes.

use second::fast::Fast;
use second::frames::RESET;
use second::order::REPLY_BYTES;
use second::payloads::{AUTH, COMM, MA, SECURE, TA};
use second::reader::Reader;
use second::tag::{Tag, COMM_RESPONSE, SECURE_RESPONSE};
use second::tagrun::{BOOK, FEATURES, MOST_INPUT_BYTES, NUMBER};

use crate::call::Bits;
use crate::free;
use crate::inputs;
use crate::random::Random;
use crate::session::WANTED;

/// A frame's kind and payload.
type Frame = (u8, Bits);

/// A reader and a copy of the program's tag, and the frames that the tag was given.
struct Talk {
    tag: Tag<Fast>,
    reader: Reader<Fast>,
    frames: Vec<Frame>,
}

/// The reply to an honest call.
fn replied(call: impl FnOnce(&mut [u8]) -> (u8, usize)) -> Bits {
    let mut reply = [0; REPLY_BYTES];
    let (answer, count) = call(&mut reply);
    assert_eq!(answer, 0, "an honest call is refused");
    let bytes = reply[..count.div_ceil(8)].to_vec();
    Bits { bytes, count }
}

impl Talk {
    /// A frame for the tag, and the tag's reply.
    fn tell(&mut self, kind: u8, payload: Bits) -> Bits {
        let (bytes, count) = (&payload.bytes, payload.count);
        let reply = replied(|reply| match kind {
            COMM_RESPONSE | SECURE_RESPONSE => self.tag.response(kind, bytes, count, reply),
            _ => {
                let tag = &mut self.tag;
                tag.command(kind, bytes, count, FEATURES, &BOOK, NUMBER, reply)
            }
        });
        self.frames.push((kind, payload));
        reply
    }

    fn take(&mut self, response: &Bits) -> Bits {
        replied(|reply| self.reader.response(&response.bytes, response.count, reply))
    }

    fn authenticate(&mut self, method: u8, options: u8, number: u64) {
        let step_0 = replied(|reply| {
            self.reader
                .begin(method, options, BOOK[0], number, &BOOK, reply)
        });
        let first = self.tell(AUTH, step_0);
        let step_1 = self.take(&first);
        if method != TA {
            let second = self.tell(AUTH, step_1);
            self.take(&second);
        }
    }

    /// A message that the session allows; `to_tag` chooses in MA.
    fn message(&mut self, data: Bits, secure: bool, to_tag: bool) {
        let both = self.reader.method == MA;
        let enabled = both && self.reader.options & 2 == 2;
        let kind = if secure && enabled { SECURE } else { COMM };
        if self.reader.method == TA || (both && !to_tag) {
            let sent = self.tell(kind + WANTED, data);
            replied(|reply| self.reader.receive(kind, &sent.bytes, sent.count, reply));
        } else {
            let sent = replied(|reply| self.reader.send(kind, &data.bytes, data.count, reply));
            self.tell(kind, sent);
        }
    }
}

/// The frames of an honest session.
fn session(random: &mut Random) -> Vec<Frame> {
    let mut talk = Talk {
        tag: Tag::fresh(),
        reader: Reader::fresh(),
        frames: Vec::new(),
    };
    let (method, options) = (random.below(3) as u8, random.below(4) as u8);
    talk.authenticate(method, options, inputs::sound_number(random));
    for _ in 0..random.below(5) {
        let mut data = inputs::data(random);
        inputs::clear_unused(&mut data);
        talk.message(data, random.one_in(2), random.one_in(2));
    }
    talk.frames
}

/// Changes one frame, or the order of frames; all of them stay sound.
fn damage(random: &mut Random, frames: &mut Vec<Frame>) {
    let place = random.below(frames.len());
    let other = random.below(frames.len());
    let (kind, payload) = &mut frames[place];
    match random.below(6) {
        0 => inputs::damage(random, payload, &(0..payload.count)),
        1 if payload.count >= 16 => {
            let field = 4 * random.below(4);
            inputs::damage(random, payload, &(field..field + 4));
        }
        2 => *kind = random.below(RESET as usize) as u8,
        3 => {
            payload.count =
                random.pick(&[payload.count / 2, payload.count.saturating_sub(1), 2120]);
            payload.bytes.resize(265, 0);
            inputs::clear_unused(payload);
        }
        4 => frames.swap(place, other),
        _ => frames.insert(other, frames[place].clone()),
    }
}

/// Up to three sessions, mostly with a reset between them; one in two is damaged.
fn sessions(random: &mut Random) -> Vec<Frame> {
    let mut frames = Vec::new();
    for _ in 0..=random.below(3) {
        let mut next = session(random);
        if random.one_in(2) {
            damage(random, &mut next);
        }
        frames.extend(next);
        if !random.one_in(4) {
            let (bytes, count) = (Vec::new(), 0);
            frames.push((RESET, Bits { bytes, count }));
        }
    }
    frames
}

fn any_frames(random: &mut Random) -> Vec<Frame> {
    (0..random.below(20)).map(|_| free::frame(random)).collect()
}

/// An input of the program.
pub fn input(random: &mut Random) -> Vec<u8> {
    let frames = if random.one_in(6) {
        any_frames(random)
    } else {
        sessions(random)
    };
    let written = frames
        .iter()
        .map(|(kind, payload)| free::frame_bytes(*kind, payload));
    let mut input: Vec<u8> = written.flatten().collect();
    match random.below(16) {
        0 => input.truncate(random.below(input.len() + 1)),
        1 => input.extend(free::slice_to_scan(random)),
        2 if !input.is_empty() => {
            let place = random.below(input.len());
            input[place] ^= 1 << random.below(8);
        }
        3 => {
            let length = random.below(100);
            input = random.bytes(length);
        }
        4 if random.one_in(3) && !input.is_empty() => {
            let length = MOST_INPUT_BYTES + random.below(3);
            input = input.into_iter().cycle().take(length).collect();
        }
        _ => {}
    }
    input
}
