//! The calls through the second program, over a chosen form of its cipher.

use std::marker::PhantomData;

use second::blocks;
use second::book;
use second::cipher::Cipher;
use second::frames;
use second::reader::Reader;
use second::tag::Tag;

use crate::call::{with_one, FreeCall, Numbers, ReaderCall, Side, TagCall};

pub struct SecondProgram<C> {
    form: PhantomData<C>,
}

impl<C: Cipher> Side for SecondProgram<C> {
    fn tag(call: &TagCall, block: &mut [u8], reply: &mut [u8]) -> (u8, usize) {
        match call {
            TagCall::Reset => blocks::reset::<Tag<C>>(block, reply),
            TagCall::Command {
                kind,
                payload,
                features,
                book,
                number,
            } => blocks::call(block, reply, |tag: &mut Tag<C>, reply| {
                let (bytes, count) = (&payload.bytes, payload.count);
                tag.command(*kind, bytes, count, *features, book, *number, reply)
            }),
            TagCall::Response { kind, data } => {
                blocks::call(block, reply, |tag: &mut Tag<C>, reply| {
                    tag.response(*kind, &data.bytes, data.count, reply)
                })
            }
            TagCall::Close => (blocks::tag_close::<C>(block), 0),
            TagCall::ErrorType => (blocks::tag_error_type::<C>(block), 0),
        }
    }

    fn reader(call: &ReaderCall, block: &mut [u8], reply: &mut [u8]) -> (u8, usize) {
        match call {
            ReaderCall::Reset => blocks::reset::<Reader<C>>(block, reply),
            ReaderCall::Begin {
                method,
                options,
                keyid,
                number,
                book,
            } => blocks::call(block, reply, |reader: &mut Reader<C>, reply| {
                reader.begin(*method, *options, *keyid, *number, book, reply)
            }),
            ReaderCall::Replied { payload } => {
                blocks::call(block, reply, |reader: &mut Reader<C>, reply| {
                    reader.response(&payload.bytes, payload.count, reply)
                })
            }
            ReaderCall::Send { kind, data } => {
                blocks::call(block, reply, |reader: &mut Reader<C>, reply| {
                    reader.send(*kind, &data.bytes, data.count, reply)
                })
            }
            ReaderCall::Receive { kind, payload } => {
                blocks::call(block, reply, |reader: &mut Reader<C>, reply| {
                    reader.receive(*kind, &payload.bytes, payload.count, reply)
                })
            }
        }
    }

    fn scan(s: &[u8]) -> (u8, Numbers) {
        let scan = frames::scan(s);
        let numbers = [scan.kind as usize, scan.count, scan.start, scan.end];
        (scan.refusal, numbers)
    }

    fn free(call: &FreeCall, buffer: &mut [u8]) -> (u8, Numbers) {
        match call {
            FreeCall::BookSound { book } => (book::sound(book) as u8, Numbers::default()),
            FreeCall::BookFind { book, keyid } => with_one(blocks::book_find(book, *keyid, buffer)),
            FreeCall::FrameScan { s } => Self::scan(s),
            FreeCall::FrameWrite { at, kind, payload } => with_one(blocks::frame_write(
                buffer,
                *at,
                *kind,
                payload.count,
                &payload.bytes,
            )),
        }
    }
}
