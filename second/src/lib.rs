//! An independent second form of the tag suite: cipher, tag and reader
//! machines, key book, host frames, lent blocks and the text of the program
//! `tagrun`.

pub mod bits;
pub mod blocks;
pub mod book;
pub mod cipher;
pub mod fast;
pub mod frames;
pub mod grain;
pub mod order;
pub mod payloads;
pub mod reader;
pub mod tag;
pub mod tagrun;
