//! The rows of the table, with the inputs of each.

use compare::call::{Bits, ReaderCall, TagCall, What};
use compare::free::frame_bytes;
use compare::random::Random;
use compare::second_program::SecondProgram;
use kusarehyon::REPLY_BYTES;
use second::fast::Fast;
use second::frames::RESET;
use second::payloads::{AUTH, MA, MOST_DATA_BITS, NUMBER_LIMIT, SECURE, TA};
use second::tag::SECURE_RESPONSE;
use second::tagrun::{BOOK, MOST_INPUT_BYTES};

use crate::work::{tag_call, Blocks, Work};

pub struct Row {
    pub name: &'static str,
    pub work: Work,
    /// The work is so many times what the row is about.
    pub times: u32,
}

/// Options of secure messages at both widths.
const MAC32: u8 = 2;
const MAC64: u8 = 3;

const NONE: Bits = Bits {
    bytes: Vec::new(),
    count: 0,
};

/// So many different sessions or messages are one work: of a single one, taken again and again, the
/// processor could learn the bits.
const DIFFERENT: u32 = 32;

/// The bytes of a frame with the longest message, received and sent.
const LONGEST_FRAMES: usize = (3 + REPLY_BYTES) + (3 + MOST_DATA_BITS / 8);

/// A session of a reader with the tag of `tagrun`: the blocks, and the calls that led to them.
struct Session {
    blocks: Blocks,
    calls: Vec<What>,
    random: Random,
}

impl Session {
    /// Both are reset and the reader has begun, with a number and data by the seed. The bits are the
    /// step 0 command.
    fn begun(method: u8, options: u8, seed: u32) -> (Session, Bits) {
        let mut session = Session {
            blocks: Blocks::RESET,
            calls: Vec::new(),
            random: Random::new(seed.into()),
        };
        session.reader(ReaderCall::Reset);
        session.tag(RESET, NONE);
        let number = session.random.number() % NUMBER_LIMIT;
        let step_0 = session.reader(ReaderCall::Begin {
            method,
            options,
            keyid: BOOK[0],
            number,
            book: BOOK.to_vec(),
        });
        (session, step_0)
    }

    /// An opened mutual session.
    fn open(options: u8, seed: u32) -> Session {
        let (mut session, step_0) = Session::begun(MA, options, seed);
        let payload = session.tag(AUTH, step_0);
        let step_1 = session.reader(ReaderCall::Replied { payload });
        let payload = session.tag(AUTH, step_1);
        session.reader(ReaderCall::Replied { payload });
        session
    }

    fn tag(&mut self, kind: u8, bits: Bits) -> Bits {
        self.call(What::Tag(tag_call(kind, bits)))
    }

    fn reader(&mut self, call: ReaderCall) -> Bits {
        self.call(What::Reader(call))
    }

    fn call(&mut self, what: What) -> Bits {
        let mut reply = [0; REPLY_BYTES];
        let (answer, count) = self.blocks.call::<SecondProgram<Fast>>(&what, &mut reply);
        assert_eq!(answer, 0, "an honest call is refused");
        self.calls.push(what);
        let bytes = reply[..count.div_ceil(8)].to_vec();
        Bits { bytes, count }
    }

    fn data(&mut self, count: usize) -> Bits {
        let bytes = self.random.bytes(count / 8);
        Bits { bytes, count }
    }

    /// A secure message from the reader to the tag.
    fn message(&mut self, count: usize) -> Bits {
        let data = self.data(count);
        self.reader(ReaderCall::Send { kind: SECURE, data })
    }

    /// A secure message from the tag, which the reader takes in.
    fn wanted(&mut self, count: usize) {
        let data = self.data(count);
        let payload = self.tag(SECURE_RESPONSE, data);
        let kind = SECURE;
        self.reader(ReaderCall::Receive { kind, payload });
    }

    /// The calls that come next, for these frames of the tag, from the blocks as they are now.
    fn then(mut self, frames: Vec<(u8, Bits)>) -> Work {
        let blocks = self.blocks;
        self.calls.clear();
        for (kind, bits) in frames {
            self.tag(kind, bits);
        }
        let calls = self.calls;
        Work::Calls { blocks, calls }
    }

    /// The frames that the tag was given.
    fn frames(&self) -> Vec<u8> {
        let tag_calls = self.calls.iter().filter_map(|what| match what {
            What::Tag(TagCall::Reset) => Some(frame_bytes(RESET, &NONE)),
            What::Tag(TagCall::Command { kind, payload, .. }) => Some(frame_bytes(*kind, payload)),
            What::Tag(TagCall::Response { kind, data }) => Some(frame_bytes(*kind, data)),
            _ => None,
        });
        tag_calls.flatten().collect()
    }
}

fn start() -> Work {
    let (session, step_0) = Session::begun(MA, MAC64, 0);
    session.then(vec![(AUTH, step_0)])
}

fn tag_authentications() -> Work {
    let frames = (0..DIFFERENT).flat_map(|seed| {
        let (_, step_0) = Session::begun(TA, MAC64, seed);
        [(RESET, NONE), (AUTH, step_0)]
    });
    let (session, _) = Session::begun(TA, MAC64, 0);
    session.then(frames.collect())
}

fn sent(options: u8) -> Work {
    let mut session = Session::open(options, 0);
    let data = (0..DIFFERENT).map(|_| (SECURE_RESPONSE, session.data(MOST_DATA_BITS)));
    let frames = data.collect();
    session.then(frames)
}

fn received(options: u8) -> Work {
    let mut session = Session::open(options, 0);
    let messages = (0..DIFFERENT).map(|_| (SECURE, session.message(MOST_DATA_BITS)));
    let frames = messages.collect();
    session.then(frames)
}

fn mutual_sessions() -> Work {
    let calls = (0..DIFFERENT).flat_map(|seed| Session::open(MAC64, seed).calls);
    Work::Calls {
        blocks: Blocks::RESET,
        calls: calls.collect(),
    }
}

/// One session with the longest messages both ways, and a last one that fills the input.
fn long_frames() -> Work {
    let mut session = Session::open(MAC64, 0);
    while session.frames().len() + LONGEST_FRAMES <= MOST_INPUT_BYTES {
        let message = session.message(MOST_DATA_BITS);
        session.tag(SECURE, message);
        session.wanted(MOST_DATA_BITS);
    }
    let left = MOST_INPUT_BYTES - session.frames().len();
    session.wanted(8 * (left - 3));
    let input = session.frames();
    Work::Frames { input }
}

/// Sessions with a message of 40 bits each, and resets that fill the input.
fn short_frames() -> Work {
    let frames = |seed| {
        let mut session = Session::open(MAC32, seed);
        let message = session.message(40);
        session.tag(SECURE, message);
        session.frames()
    };
    let sessions = MOST_INPUT_BYTES / frames(0).len();
    let mut input: Vec<u8> = (0..sessions as u32).flat_map(frames).collect();
    while input.len() < MOST_INPUT_BYTES {
        input.extend(frame_bytes(RESET, &NONE));
    }
    Work::Frames { input }
}

pub fn all() -> Vec<Row> {
    let row = |times, name, work| Row { name, work, times };
    vec![
        row(1, "start", start()),
        row(DIFFERENT, "tag authentication", tag_authentications()),
        row(DIFFERENT, "2,048 bits sent, MAC32", sent(MAC32)),
        row(DIFFERENT, "2,048 bits sent, MAC64", sent(MAC64)),
        row(DIFFERENT, "2,048 bits received, MAC32", received(MAC32)),
        row(DIFFERENT, "2,048 bits received, MAC64", received(MAC64)),
        row(DIFFERENT, "mutual session", mutual_sessions()),
        row(1, "32 KiB of frames, long messages", long_frames()),
        row(1, "32 KiB of frames, short sessions", short_frames()),
    ]
}
