//! "Host frames": "Kind byte ..., bit count, bytes."

pub const HIGHEST_KIND: u8 = 6;
pub const RESET: u8 = 6;
pub const HIGHEST_COUNT: usize = 2120;

/// What stands at the start of a slice. `refusal` is 0 for a sound frame; a
/// refused read has zeros beside its number.
#[derive(Clone, Copy, Debug, PartialEq, Eq, Default)]
pub struct Scan {
    pub refusal: u8,
    pub kind: u8,
    pub count: usize,
    pub start: usize,
    pub end: usize,
}

fn refused(refusal: u8) -> Scan {
    Scan { refusal, ..Scan::default() }
}

/// "The count is in groups of seven bits, lowest first, the high bit set on all
/// but the last, shortest form". The count and the place behind it, or
/// "A second count byte with its high bit set is 21; otherwise an empty slice,
/// or one that ends inside the count, is 20."
fn read_count(slice: &[u8]) -> Result<(usize, usize), u8> {
    let Some(&first) = slice.get(1) else {
        return Err(20);
    };
    if first & 0x80 == 0 {
        return Ok((first as usize, 2));
    }
    let Some(&second) = slice.get(2) else {
        return Err(20);
    };
    if second & 0x80 != 0 {
        return Err(21);
    }
    if second == 0 {
        return Err(21);
    }
    Ok(((first & 0x7F) as usize + 128 * second as usize, 3))
}

/// "21 count ... over 2,120, or not 0 for kind 6"
fn count_refused(kind: u8, count: usize) -> bool {
    count > HIGHEST_COUNT || (kind == RESET && count != 0)
}

/// "22 unused bits not zero", of a payload that is long enough.
fn unused_bits_set(payload: &[u8], count: usize) -> bool {
    !count.is_multiple_of(8) && payload[count / 8] & (0xFF >> (count % 8)) != 0
}

/// "Refusals in this order: 23 ...; 21 ...; 20 ...; 22 ..."
pub fn scan(slice: &[u8]) -> Scan {
    let Some(&kind) = slice.first() else {
        return refused(20);
    };
    if kind > HIGHEST_KIND {
        return refused(23);
    }
    let (count, start) = match read_count(slice) {
        Ok(found) => found,
        Err(refusal) => return refused(refusal),
    };
    if count_refused(kind, count) {
        return refused(21);
    }
    let end = start + count.div_ceil(8);
    if end > slice.len() {
        return refused(20);
    }
    if unused_bits_set(&slice[start..end], count) {
        return refused(22);
    }
    Scan { refusal: 0, kind, count, start, end }
}

/// "Reading hands back the payload as a part of the lent slice."
pub fn payload(slice: &[u8]) -> &[u8] {
    let scan = scan(slice);
    &slice[scan.start..scan.end]
}

fn count_bytes(count: usize) -> Vec<u8> {
    if count < 128 {
        vec![count as u8]
    } else {
        vec![0x80 | (count % 128) as u8, (count / 128) as u8]
    }
}

/// "Writing goes from a given place in the middle of a lent buffer to its end."
/// The place behind the frame, or the refusal: 23, 21, "the writer has 20 when
/// its payload is shorter than its count", 22, "24 (writing only) no room from
/// the place". "A refused write changes nothing, a done one only the frame's
/// own bytes."
pub fn write(
    kind: u8,
    count: usize,
    payload: &[u8],
    out: &mut [u8],
    at: usize,
) -> Result<usize, u8> {
    if kind > HIGHEST_KIND {
        return Err(23);
    }
    if count_refused(kind, count) {
        return Err(21);
    }
    let bytes = count.div_ceil(8);
    if payload.len() < bytes {
        return Err(20);
    }
    if unused_bits_set(payload, count) {
        return Err(22);
    }
    let mut frame = vec![kind];
    frame.extend(count_bytes(count));
    frame.extend(&payload[..bytes]);
    if at > out.len() || out.len() - at < frame.len() {
        return Err(24);
    }
    let end = at + frame.len();
    out[at..end].copy_from_slice(&frame);
    Ok(end)
}
