//! "The program `tagrun` reads at most 32,768 bytes of frames from standard
//! input": all that it prints for an input.

use crate::cipher::Cipher;
use crate::fast::Fast;
use crate::frames;
use crate::order::REPLY_BYTES;
use crate::tag::Tag;

pub const MOST_INPUT_BYTES: usize = 32_768;

/// "Its tag has features 1F, one key 05 = set 6's, tag number 778899AABBCC."
pub const FEATURES: u8 = 0x1F;
pub const NUMBER: u64 = 0x7788_99AA_BBCC;
pub const BOOK: [u8; 17] = [
    0x05, 0x01, 0x23, 0x45, 0x67, 0x89, 0xAB, 0xCD, 0xEF, 0xFE, 0xDC, 0xBA, 0x98, 0x76, 0x54, 0x32,
    0x10,
];

/// "reply in hex or `-`"
fn reply_text(reply: &[u8], count: usize) -> String {
    if count == 0 {
        return "-".to_string();
    }
    reply[..count.div_ceil(8)].iter().map(|byte| format!("{byte:02X}")).collect()
}

pub fn tagrun(input: &[u8]) -> String {
    run::<Fast>(input)
}

/// The same over a chosen form of the cipher.
pub fn run<C: Cipher>(input: &[u8]) -> String {
    if input.len() > MOST_INPUT_BYTES {
        // "more prints the line `input too long` only"
        return "input too long\n".to_string();
    }
    let mut tag = Tag::<C>::fresh();
    let mut text = String::new();
    let mut rest = input;
    let mut line = 0;
    while !rest.is_empty() {
        line += 1;
        let frame = frames::scan(rest);
        if frame.refusal != 0 {
            // "A bad frame prints its number and refusal and ends the run."
            text += &format!("{line} {}\n", frame.refusal);
            return text;
        }
        let payload = frames::payload(rest);
        let mut reply = [0; REPLY_BYTES];
        let (answer, count) = match frame.kind {
            0..=3 => {
                tag.command(frame.kind, payload, frame.count, FEATURES, &BOOK, NUMBER, &mut reply)
            }
            4 | 5 => tag.response(frame.kind, payload, frame.count, &mut reply),
            _ => tag.reset(&mut reply),
        };
        // "Each line: frame number from 1, answer, state, reply bits, reply in hex"
        let state = tag.name.text();
        let shown = reply_text(&reply, count);
        text += &format!("{line} {answer} {state} {count} {shown}\n");
        rest = &rest[frame.end..];
    }
    text
}
