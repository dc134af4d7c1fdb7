//! Blocks, buffers and numbers of every kind get an answer.

use kusarehyon::{book, frames, reader, tag, Begin, Command, Reply};
use kusarehyon::{READER_BYTES, REPLY_BYTES, TAG_BYTES};

const COMMAND: Command = Command {
    kind: 0,
    payload: &[0x80; 8],
    count: 64,
    features: 0x1F,
    book: &[],
    number: 0,
};

const BEGIN: Begin = Begin {
    method: 2,
    options: 2,
    keyid: 5,
    number: 0,
    book: &[],
};

type Call = fn(&mut [u8], &mut [u8]) -> Reply;

const TAG_CALLS: [Call; 2] = [
    |state, reply| tag::command(state, &COMMAND, reply),
    |state, reply| tag::response(state, 4, &[], 0, reply),
];

const READER_CALLS: [Call; 4] = [
    |state, reply| reader::begin(state, &BEGIN, reply),
    |state, reply| reader::replied(state, &[], 0, reply),
    |state, reply| reader::send(state, 1, &[], 0, reply),
    |state, reply| reader::receive(state, 1, &[], 0, reply),
];

/// A refused call: the block is kept, the area is zeros, and bytes beyond it stay as found.
fn refused(answer: u8, block: &[u8], room: usize, call: impl Fn(&mut [u8], &mut [u8]) -> Reply) {
    let mut state = block.to_vec();
    let mut reply = vec![0xA5; room];
    assert_eq!(call(&mut state, &mut reply), Reply { answer, bits: 0 });
    assert_eq!(state, block);
    let area = room.min(REPLY_BYTES);
    assert!(reply[..area].iter().all(|&byte| byte == 0));
    assert!(reply[area..].iter().all(|&byte| byte == 0xA5));
}

#[test]
fn blocks_of_another_length() {
    let resets: [(usize, Call); 2] = [(TAG_BYTES, tag::reset), (READER_BYTES, reader::reset)];
    for length in 0..80 {
        let block = vec![0; length];
        for (bytes, reset) in resets {
            if length != bytes {
                refused(8, &block, 270, reset);
            }
        }
        for call in TAG_CALLS.iter().filter(|_| length != TAG_BYTES) {
            refused(8, &block, 270, *call);
        }
        for call in READER_CALLS.iter().filter(|_| length != READER_BYTES) {
            refused(8, &block, 270, *call);
        }
        let expected = if length == TAG_BYTES { 0 } else { 8 };
        assert_eq!(tag::error_type(&block), expected);
        assert_eq!(tag::close(&mut block.clone()), expected);
    }
}

#[test]
fn blocks_that_spell_no_state() {
    for call in TAG_CALLS {
        refused(8, &[0xFF; TAG_BYTES], 3, call);
    }
    for call in READER_CALLS {
        refused(8, &[0xFF; READER_BYTES], 0, call);
    }
    assert_eq!(tag::close(&mut [0xFF; TAG_BYTES]), 8);
    assert_eq!(tag::error_type(&[0xFF; TAG_BYTES]), 8);
}

#[test]
fn buffers_of_every_length() {
    for room in 0..REPLY_BYTES {
        for call in TAG_CALLS {
            refused(2, &[0; TAG_BYTES], room, call);
        }
        for call in READER_CALLS {
            refused(2, &[0; READER_BYTES], room, call);
        }
        refused(2, &[], room, |_, reply| book::find(&[1], 0, reply));
        let mut block = [0xFF; READER_BYTES];
        let mut reply = vec![0xA5; room];
        let done = Reply { answer: 0, bits: 0 };
        assert_eq!(tag::reset(&mut block[..TAG_BYTES], &mut reply), done);
        assert_eq!(reader::reset(&mut block, &mut reply), done);
        assert_eq!(block, [0; READER_BYTES]);
        assert!(reply.iter().all(|&byte| byte == 0));
    }
}

#[test]
fn huge_numbers() {
    for count in [1 << 61, usize::MAX - 7, usize::MAX] {
        refused(11, &[0; TAG_BYTES], 265, |state, reply| {
            tag::command(state, &Command { count, ..COMMAND }, reply)
        });
        refused(11, &[0; READER_BYTES], 265, |state, reply| {
            reader::send(state, 1, &[0; 8], count, reply)
        });
        let mut out = [0xEE; 4];
        assert_eq!(frames::write(&mut out, 0, 1, count, &[]), Err(21));
        assert_eq!(frames::write(&mut out, count, 1, 0, &[]), Err(24));
    }
    for number in [1 << 48, u64::MAX] {
        refused(11, &[0; TAG_BYTES], 265, |state, reply| {
            tag::command(state, &Command { number, ..COMMAND }, reply)
        });
        refused(11, &[0; READER_BYTES], 265, |state, reply| {
            reader::begin(state, &Begin { number, ..BEGIN }, reply)
        });
    }
}

#[test]
fn books() {
    let record = [7; 17];
    assert!(book::sound(&[]) && book::sound(&record));
    assert!(!book::sound(&record[1..]) && !book::sound(&[record, record].concat()));
    let mut reply = [0xA5; 300];
    let found = book::find(&record, 7, &mut reply);
    assert_eq!((found.answer, found.bytes(&reply)), (0, &record[1..]));
    refused(5, &[], 300, |_, reply| book::find(&[7; 17], 8, reply));
    refused(1, &[], 300, |_, reply| book::find(&[7; 18], 7, reply));
}

#[test]
fn frames_refused() {
    let inputs: [(&[u8], u8); 5] = [
        (&[], 20),
        (&[0, 9, 0xFF], 20),
        (&[0, 0x80, 0], 21),
        (&[0, 1, 1], 22),
        (&[7], 23),
    ];
    for (input, refusal) in inputs {
        let (answer, frame) = frames::scan_numbers(input);
        assert_eq!((frames::scan(input), answer), (Err(refusal), refusal));
        assert_eq!(
            (frame.kind, frame.count, frame.start, frame.end),
            (0, 0, 0, 0)
        );
    }
    let mut out = [0xEE; 4];
    assert_eq!(frames::write_numbers(&mut out, 3, 6, 0, &[]), (24, 0));
    assert_eq!(out, [0xEE; 4]);
}
