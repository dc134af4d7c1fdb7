//! The listing of document 01, "Host frames": a reader makes the three payloads of its input, and a
//! tag gives the replies that it prints.

use kusarehyon::{frames, Begin, Command, Reader, Reply, Tag, REPLY_BYTES};

const BOOK: [u8; 17] = *b"\x05\x01\x23\x45\x67\x89\xAB\xCD\xEF\xFE\xDC\xBA\x98\x76\x54\x32\x10";
const STEP_0: [u8; 8] = *b"\x80\x05\x11\x22\x33\x44\x55\x66";
const STEP_1: [u8; 10] = *b"\x92\x05\x3E\x77\x5C\x19\x4D\x6D\x4F\xD8";
const MESSAGE: [u8; 10] = *b"\x45\x87\xE6\x27\xC4\x00\xD4\x95\x79\x9A";
const REPLY_0: [u8; 7] = *b"\x1F\x77\x88\x99\xAA\xBB\xCC";
const REPLY_1: [u8; 9] = *b"\x44\xA7\xC4\x19\x06\xEC\x4C\xC8\x80";
const DATA: [u8; 5] = *b"\x12\x34\x56\x78\xAB";

const BEGIN: Begin = Begin {
    method: 2,
    options: 2,
    keyid: 5,
    number: 0x1122_3344_5566,
    book: &BOOK,
};

fn command(kind: u8, payload: &[u8]) -> Command<'_> {
    Command {
        kind,
        payload,
        count: 8 * payload.len(),
        features: 0x1F,
        book: &BOOK,
        number: 0x7788_99AA_BBCC,
    }
}

/// An accepted call whose reply is these bits, then zeros.
fn replied(got: Reply, reply: &[u8], bytes: &[u8], bits: usize) {
    assert_eq!(got, Reply { answer: 0, bits });
    assert_eq!(got.bytes(reply), bytes);
    assert!(reply[bytes.len()..].iter().all(|&byte| byte == 0));
}

/// The tag after the listing's two steps, each of which leaves its name in the block.
fn tag_of_the_listing() -> Tag {
    let mut tag = Tag::new();
    let mut reply = [0xA5; REPLY_BYTES];
    let got = tag.command(&command(0, &STEP_0), &mut reply);
    replied(got, &reply, &REPLY_0, 56);
    assert_eq!(tag.block()[0], 4);
    let got = tag.command(&command(0, &STEP_1), &mut reply);
    replied(got, &reply, &REPLY_1, 65);
    assert_eq!(tag.block()[0], 5);
    tag
}

fn reader_of_the_listing() -> Reader {
    let mut reader = Reader::new();
    let mut reply = [0xA5; REPLY_BYTES];
    let got = reader.begin(&BEGIN, &mut reply);
    replied(got, &reply, &STEP_0, 64);
    let got = reader.replied(&REPLY_0, 56, &mut reply);
    replied(got, &reply, &STEP_1, 80);
    let got = reader.replied(&REPLY_1, 65, &mut reply);
    replied(got, &reply, &[], 0);
    reader
}

#[test]
fn the_message_of_the_listing() {
    let mut reply = [0xA5; REPLY_BYTES];
    let got = reader_of_the_listing().send(2, &DATA, 40, &mut reply);
    replied(got, &reply, &MESSAGE, 80);
    let got = tag_of_the_listing().command(&command(2, &MESSAGE), &mut reply);
    replied(got, &reply, &DATA, 40);
}

#[test]
fn messages_of_the_tag() {
    let (mut tag, mut reader) = (tag_of_the_listing(), reader_of_the_listing());
    let mut reply = [0xA5; REPLY_BYTES];
    for kind in [1, 2] {
        let sent = tag.response(kind + 3, &DATA, 37, &mut reply);
        let message = sent.bytes(&reply).to_vec();
        let got = reader.receive(kind, &message, sent.bits, &mut reply);
        replied(got, &reply, b"\x12\x34\x56\x78\xA8", 37);
    }
}

#[test]
fn closed_and_reset() {
    let (mut tag, mut reader) = (tag_of_the_listing(), reader_of_the_listing());
    let mut reply = [0xA5; REPLY_BYTES];
    assert_eq!(tag.error_type(), 0);
    assert_eq!((tag.close(), tag.error_type()), (0, 3));
    let got = tag.reset(&mut reply);
    replied(got, &reply, &[], 0);
    assert_eq!(tag.block(), Tag::default().block());
    let got = reader.reset(&mut reply);
    replied(got, &reply, &[], 0);
    assert_eq!(reader.block(), Reader::default().block());
}

#[test]
fn the_input_as_frames() {
    let mut input = [0xEE; 40];
    let mut at = 1;
    for (kind, payload) in [(0, &STEP_0[..]), (0, &STEP_1[..]), (2, &MESSAGE[..])] {
        let next = frames::write(&mut input, at, kind, 8 * payload.len(), payload).expect("room");
        let frame = frames::scan(&input[at..]).expect("a sound frame");
        assert_eq!((frame.kind, frame.count), (kind, 8 * payload.len()));
        assert_eq!(
            (frame.payload(&input[at..]), frame.end),
            (payload, next - at)
        );
        at = next;
    }
    assert_eq!(input[..3], [0xEE, 0x00, 0x40]);
    assert_eq!(input[at..], [0xEE; 5]);
}
