//! A call of the header with all its inputs, and all that it gives back.

/// Bits that a call is given: the first `count` of `bytes`.
#[derive(Clone, Debug, PartialEq)]
pub struct Bits {
    pub bytes: Vec<u8>,
    pub count: usize,
}

/// A call over a tag's block.
#[derive(Clone, Debug)]
pub enum TagCall {
    Reset,
    Command {
        kind: u8,
        payload: Bits,
        features: u8,
        book: Vec<u8>,
        number: u64,
    },
    Response {
        kind: u8,
        data: Bits,
    },
    Close,
    ErrorType,
}

/// A call over a reader's block.
#[derive(Clone, Debug)]
pub enum ReaderCall {
    Reset,
    Begin {
        method: u8,
        options: u8,
        keyid: u8,
        number: u64,
        book: Vec<u8>,
    },
    Replied {
        payload: Bits,
    },
    Send {
        kind: u8,
        data: Bits,
    },
    Receive {
        kind: u8,
        payload: Bits,
    },
}

/// A call that has no block. The buffer is the reply of `BookFind` and the `out` of `FrameWrite`.
#[derive(Clone, Debug)]
pub enum FreeCall {
    BookSound { book: Vec<u8> },
    BookFind { book: Vec<u8>, keyid: u8 },
    FrameScan { s: Vec<u8> },
    FrameWrite { at: usize, kind: u8, payload: Bits },
}

#[derive(Clone, Debug)]
pub enum What {
    Tag(TagCall),
    Reader(ReaderCall),
    Free(FreeCall),
}

impl What {
    /// The header's name of the function.
    pub fn function(&self) -> &'static str {
        match self {
            What::Tag(TagCall::Reset) => "tag_reset",
            What::Tag(TagCall::Command { .. }) => "tag_command",
            What::Tag(TagCall::Response { .. }) => "tag_response",
            What::Tag(TagCall::Close) => "tag_close",
            What::Tag(TagCall::ErrorType) => "tag_error_type",
            What::Reader(ReaderCall::Reset) => "reader_reset",
            What::Reader(ReaderCall::Begin { .. }) => "reader_begin",
            What::Reader(ReaderCall::Replied { .. }) => "reader_replied",
            What::Reader(ReaderCall::Send { .. }) => "reader_send",
            What::Reader(ReaderCall::Receive { .. }) => "reader_receive",
            What::Free(FreeCall::BookSound { .. }) => "book_sound",
            What::Free(FreeCall::BookFind { .. }) => "book_find",
            What::Free(FreeCall::FrameScan { .. }) => "frame_scan",
            What::Free(FreeCall::FrameWrite { .. }) => "frame_write",
        }
    }

    /// The payload or the data, of a call that has one.
    pub fn bits_mut(&mut self) -> Option<&mut Bits> {
        match self {
            What::Tag(TagCall::Command { payload, .. })
            | What::Reader(ReaderCall::Replied { payload })
            | What::Reader(ReaderCall::Receive { payload, .. })
            | What::Free(FreeCall::FrameWrite { payload, .. }) => Some(payload),
            What::Tag(TagCall::Response { data, .. })
            | What::Reader(ReaderCall::Send { data, .. }) => Some(data),
            _ => None,
        }
    }
}

/// A call, the block it is made on and the buffer it is given, each with what they hold before.
#[derive(Clone, Debug)]
pub struct Call {
    pub what: What,
    pub block: Vec<u8>,
    pub buffer: Vec<u8>,
}

/// The numbers that a call writes: the bits of its reply, the place behind a frame, or a frame's
/// kind, count, start and end. The rest are 0.
pub type Numbers = [usize; 4];

#[derive(Clone, Debug, PartialEq)]
pub struct Outcome {
    pub answer: u8,
    pub numbers: Numbers,
    pub block: Vec<u8>,
    pub buffer: Vec<u8>,
}

impl Outcome {
    /// The reply's bits.
    pub fn reply(&self) -> Bits {
        let count = self.numbers[0];
        let bytes = self.buffer[..count.div_ceil(8)].to_vec();
        Bits { bytes, count }
    }
}

/// One of the two programs that are compared.
pub trait Side {
    fn tag(call: &TagCall, block: &mut [u8], reply: &mut [u8]) -> (u8, usize);
    fn reader(call: &ReaderCall, block: &mut [u8], reply: &mut [u8]) -> (u8, usize);
    fn scan(s: &[u8]) -> (u8, Numbers);
    fn free(call: &FreeCall, buffer: &mut [u8]) -> (u8, Numbers);

    fn outcome(call: &Call) -> Outcome {
        let (mut block, mut buffer) = (call.block.clone(), call.buffer.clone());
        let (answer, numbers) = match &call.what {
            What::Tag(what) => with_one(Self::tag(what, &mut block, &mut buffer)),
            What::Reader(what) => with_one(Self::reader(what, &mut block, &mut buffer)),
            What::Free(what) => Self::free(what, &mut buffer),
        };
        Outcome {
            answer,
            numbers,
            block,
            buffer,
        }
    }
}

/// The answer of a call that writes one number.
pub fn with_one((answer, number): (u8, usize)) -> (u8, Numbers) {
    (answer, [number, 0, 0, 0])
}
