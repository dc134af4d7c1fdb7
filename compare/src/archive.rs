//! The calls through the archive.

use kusarehyon::{book, frames, reader, tag, Begin, Command, Reply};

use crate::call::{with_one, FreeCall, Numbers, ReaderCall, Side, TagCall};

pub struct Archive;

fn pair(reply: Reply) -> (u8, usize) {
    (reply.answer, reply.bits)
}

impl Side for Archive {
    fn tag(call: &TagCall, block: &mut [u8], reply: &mut [u8]) -> (u8, usize) {
        match call {
            TagCall::Reset => pair(tag::reset(block, reply)),
            TagCall::Command {
                kind,
                payload,
                features,
                book,
                number,
            } => {
                let command = Command {
                    kind: *kind,
                    payload: &payload.bytes,
                    count: payload.count,
                    features: *features,
                    book,
                    number: *number,
                };
                pair(tag::command(block, &command, reply))
            }
            TagCall::Response { kind, data } => {
                pair(tag::response(block, *kind, &data.bytes, data.count, reply))
            }
            TagCall::Close => (tag::close(block), 0),
            TagCall::ErrorType => (tag::error_type(block), 0),
        }
    }

    fn reader(call: &ReaderCall, block: &mut [u8], reply: &mut [u8]) -> (u8, usize) {
        pair(match call {
            ReaderCall::Reset => reader::reset(block, reply),
            ReaderCall::Begin {
                method,
                options,
                keyid,
                number,
                book,
            } => {
                let begin = Begin {
                    method: *method,
                    options: *options,
                    keyid: *keyid,
                    number: *number,
                    book,
                };
                reader::begin(block, &begin, reply)
            }
            ReaderCall::Replied { payload } => {
                reader::replied(block, &payload.bytes, payload.count, reply)
            }
            ReaderCall::Send { kind, data } => {
                reader::send(block, *kind, &data.bytes, data.count, reply)
            }
            ReaderCall::Receive { kind, payload } => {
                reader::receive(block, *kind, &payload.bytes, payload.count, reply)
            }
        })
    }

    fn scan(s: &[u8]) -> (u8, Numbers) {
        let (answer, frame) = frames::scan_numbers(s);
        let numbers = [frame.kind as usize, frame.count, frame.start, frame.end];
        (answer, numbers)
    }

    fn free(call: &FreeCall, buffer: &mut [u8]) -> (u8, Numbers) {
        match call {
            FreeCall::BookSound { book } => (book::sound(book) as u8, Numbers::default()),
            FreeCall::BookFind { book, keyid } => with_one(pair(book::find(book, *keyid, buffer))),
            FreeCall::FrameScan { s } => Self::scan(s),
            FreeCall::FrameWrite { at, kind, payload } => with_one(frames::write_numbers(
                buffer,
                *at,
                *kind,
                payload.count,
                &payload.bytes,
            )),
        }
    }
}
