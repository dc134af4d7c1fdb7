//! Host frames: scanning and writing.

mod common;

use common::{hex, Xorshift};
use second::frames::{payload, scan, write, Scan};

fn refusal(text: &str) -> u8 {
    let bytes = hex(text);
    let got = scan(&bytes);
    if got.refusal != 0 {
        assert_eq!(got, Scan { refusal: got.refusal, kind: 0, count: 0, start: 0, end: 0 });
        assert!(payload(&bytes).is_empty());
    }
    got.refusal
}

/// "Counts: 80 is 50; 127 is 7F; 128 is 80 01; 2,120 is C8 10; 2,121 and 80 00
/// are 21."
#[test]
fn counts() {
    for (count, text) in [(80usize, "50"), (127, "7F"), (128, "8001"), (2120, "C810"), (0, "00")] {
        let mut frame = vec![1];
        frame.extend(hex(text));
        let start = frame.len();
        frame.extend(vec![0; count.div_ceil(8)]);
        let end = frame.len();
        frame.extend([0xFF, 0xFF]);
        assert_eq!(scan(&frame), Scan { refusal: 0, kind: 1, count, start, end });
        assert_eq!(payload(&frame), &frame[start..end]);
        let mut out = vec![0xEE; end + 4];
        assert_eq!(write(1, count, &vec![0; 300], &mut out, 3), Ok(end + 3));
        assert_eq!(&out[3..end + 3], &frame[..end]);
        assert_eq!((&out[..3], out[end + 3]), (&[0xEE; 3][..], 0xEE));
    }
    assert_eq!(refusal("00 C910"), 21);
    assert_eq!(refusal("00 8000"), 21);
    assert_eq!(write(0, 2121, &[0; 300], &mut [0; 300], 0), Err(21));
}

#[test]
fn read_refusals_in_order() {
    assert_eq!(refusal(""), 20);
    for kind in ["00", "01", "02", "03", "04", "05", "06"] {
        assert_eq!(refusal(kind), 20);
        assert_eq!(refusal(&format!("{kind} 80")), 20);
        assert_eq!(refusal(&format!("{kind} FF")), 20);
        assert_eq!(refusal(&format!("{kind} 8080")), 21);
        assert_eq!(refusal(&format!("{kind} FFFF")), 21);
        assert_eq!(refusal(&format!("{kind} 8000")), 21);
        assert_eq!(refusal(&format!("{kind} C910")), 21);
        assert_eq!(refusal(&format!("{kind} 00")), 0);
    }
    for kind in ["07", "80", "FF"] {
        assert_eq!(refusal(kind), 23);
        assert_eq!(refusal(&format!("{kind} 8080")), 23);
    }
    assert_eq!(refusal("06 01"), 21);
    assert_eq!(refusal("06 01 80"), 21);
    assert_eq!(refusal("06 8001"), 21);
    assert_eq!(refusal("00 01"), 20);
    assert_eq!(refusal("00 09 FF"), 20);
    assert_eq!(refusal("00 09 FF 80"), 0);
    assert_eq!(refusal("00 09 FF C0"), 22);
    assert_eq!(refusal("00 01 01"), 22);
    assert_eq!(refusal("00 07 FE"), 0);
    assert_eq!(refusal("00 08 FF"), 0);
}

#[test]
fn write_refusals_in_order() {
    let mut out = [0xEE; 20];
    let mut refused = |kind, count, payload: &[u8], at| {
        let got = write(kind, count, payload, &mut out, at);
        assert_eq!(out, [0xEE; 20]);
        got.expect_err("a refusal")
    };
    assert_eq!(refused(7, 9999, &[], 99), 23);
    assert_eq!(refused(0, 2121, &[], 99), 21);
    assert_eq!(refused(0, usize::MAX, &[], 99), 21);
    assert_eq!(refused(6, 1, &[], 99), 21);
    assert_eq!(refused(0, 9, &[0xFF], 99), 20);
    assert_eq!(refused(0, 9, &[0xFF, 0xC0], 99), 22);
    assert_eq!(refused(0, 9, &[0xFF, 0x80], 99), 24);
    assert_eq!(refused(0, 9, &[0xFF, 0x80], usize::MAX), 24);
    assert_eq!(refused(0, 9, &[0xFF, 0x80], 20), 24);
    assert_eq!(refused(0, 9, &[0xFF, 0x80], 17), 24);
    assert_eq!(refused(6, 0, &[], 19), 24);
    assert_eq!(write(0, 9, &[0xFF, 0x80, 0x77], &mut out, 16), Ok(20));
    assert_eq!(out[15..], [0xEE, 0, 9, 0xFF, 0x80]);
    assert_eq!(write(6, 0, &[0x77], &mut out, 0), Ok(2));
    assert_eq!(out[..3], [6, 0, 0xEE]);
}

#[test]
fn what_is_written_is_read() {
    let seed = 0x1234_5678_9ABC_DEF1;
    println!("seed {seed:X}");
    let mut random = Xorshift(seed);
    for _ in 0..2000 {
        let kind = random.below(7) as u8;
        let count = if kind == 6 { 0 } else { random.below(2121) as usize };
        let mut data = random.bytes(count.div_ceil(8));
        if count % 8 != 0 {
            data[count / 8] &= !(0xFF >> (count % 8));
        }
        let at = random.below(50) as usize;
        let mut out = vec![0x3C; 400];
        let end = write(kind, count, &data, &mut out, at).expect("room");
        let got = scan(&out[at..]);
        assert_eq!((got.refusal, got.kind, got.count, got.end), (0, kind, count, end - at));
        assert_eq!(payload(&out[at..]), &data[..]);
        assert!(out[..at].iter().chain(&out[end..]).all(|&byte| byte == 0x3C));
    }
}
