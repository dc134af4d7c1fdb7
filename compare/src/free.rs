//! Calls that have no block: the key book and host frames.

use second::frames::{self, HIGHEST_COUNT};

use crate::call::{Bits, Call, FreeCall, What};
use crate::comparison::{Checked, Comparison};
use crate::inputs;
use crate::random::Random;

/// One call of each of the four functions.
pub fn run(comparison: &mut Comparison) -> Checked<()> {
    let random = &mut comparison.random;
    let keyid = random.byte();
    let sound = inputs::sound_book(random, keyid);
    let other = inputs::other_book(random, &sound);
    let book = if random.one_in(3) { sound } else { other };
    let any = random.byte();
    let keyid = random.pick(&[keyid, keyid, any]);
    let buffer = inputs::any_buffer(random);
    let s = slice_to_scan(random);
    let (write, out) = write_call(random);
    let calls = [
        (FreeCall::BookSound { book: book.clone() }, Vec::new()),
        (FreeCall::BookFind { book, keyid }, buffer),
        (FreeCall::FrameScan { s }, Vec::new()),
        (write, out),
    ];
    for (what, buffer) in calls {
        comparison.same(Call {
            what: What::Free(what),
            block: Vec::new(),
            buffer,
        })?;
    }
    Ok(())
}

/// The kind and the payload of a sound frame.
pub fn frame(random: &mut Random) -> (u8, Bits) {
    let kind = random.below(7) as u8;
    let most = random.pick(&[0, 1, 9, 80, 127, 128, 300, HIGHEST_COUNT]);
    let fewer = random.below(most + 1);
    let count = if kind == frames::RESET {
        0
    } else {
        random.pick(&[most, fewer])
    };
    let bytes = random.bytes(count.div_ceil(8));
    let mut payload = Bits { bytes, count };
    inputs::clear_unused(&mut payload);
    (kind, payload)
}

/// The bytes of a frame that is sound.
pub fn frame_bytes(kind: u8, payload: &Bits) -> Vec<u8> {
    let mut out = vec![0; 3 + payload.bytes.len()];
    let end = frames::write(kind, payload.count, &payload.bytes, &mut out, 0);
    out.truncate(end.expect("a sound frame"));
    out
}

/// Counts at the limits of their form, whole or not.
const COUNTS: [&[u8]; 11] = [
    &[],
    &[0x00],
    &[0x7F],
    &[0x80],
    &[0x80, 0x00],
    &[0x80, 0x01],
    &[0xFF, 0x7F],
    &[0xFF, 0x80],
    &[0xC8, 0x10],
    &[0xC9, 0x10],
    &[0xD0, 0x00, 0x00],
];

/// A frame with something behind it, a damaged one, one with a count of its own, or any bytes.
pub fn slice_to_scan(random: &mut Random) -> Vec<u8> {
    let (kind, payload) = frame(random);
    let mut s = frame_bytes(kind, &payload);
    let end = s.len();
    match random.below(10) {
        0 => s[0] = random.byte(),
        1 => s[1] = random.byte(),
        2 => s[1..]
            .iter_mut()
            .take(2)
            .for_each(|byte| *byte = random.byte()),
        3 => s.truncate(random.below(end)),
        4 => s[end - 1] |= 1 << random.below(8),
        5 => s = random.bytes(end),
        6 | 7 => {
            let behind = random.pick(&[0, 1, 270]);
            s = vec![kind];
            s.extend(random.pick(&COUNTS));
            s.extend(random.bytes(behind));
        }
        _ => s.extend(random.bytes(end % 4)),
    }
    s
}

/// A write of a frame, sound or not, and the buffer it goes to: with room, without, or with a place
/// past its end.
fn write_call(random: &mut Random) -> (FreeCall, Vec<u8>) {
    let (mut kind, mut payload) = frame(random);
    let needed = 3 + payload.bytes.len();
    let before = random.below(20);
    let room = before + random.pick(&[0, 1, needed - 2, needed - 1, needed, needed + 9]);
    match random.below(6) {
        0 => kind = inputs::kind(random),
        1 => inputs::recount(random, &mut payload),
        2 => payload.count = payload.count.saturating_sub(random.below(8)),
        _ => {}
    }
    let past = random.pick(&[room, room + 1, usize::MAX, usize::MAX - 1, 1 << 63]);
    let at = random.pick(&[before, before, before, past]);
    let call = FreeCall::FrameWrite { at, kind, payload };
    (call, random.bytes(room))
}
