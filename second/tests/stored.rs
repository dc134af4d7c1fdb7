//! "8 is given exactly when": stored states of every shape, against the shapes
//! that are sound, listed one by one.

mod common;

use common::*;
use second::fast::Fast;
use second::reader::Reader;
use second::tag::Tag;

const BYTES: [u64; 10] = [0, 1, 2, 3, 4, 32, 33, 64, 65, 255];
const WORDS: [u64; 5] = [0, 1, (1 << 32) - 1, 1 << 32, u64::MAX];

fn below(value: u64, width: u64) -> bool {
    match width {
        0 => value == 0,
        32 => value <= 0xFFFF_FFFF,
        _ => true,
    }
}

/// Name and flags init, ta, ia, error of every sound row.
const OPEN_EMPTY: [u64; 5] = [0, 0, 0, 0, 0];
const OPEN_WAITING: [[u64; 5]; 2] = [[2, 1, 0, 0, 0], [4, 1, 0, 0, 0]];
const OPEN_RUNNING: [[u64; 5]; 3] = [[1, 1, 1, 0, 0], [3, 1, 0, 1, 0], [5, 1, 1, 1, 0]];
const CLOSED: [[u64; 5]; 8] = [
    [0, 0, 0, 0, 1],
    [1, 1, 1, 0, 1],
    [2, 1, 0, 0, 1],
    [3, 1, 0, 1, 1],
    [3, 1, 0, 0, 1],
    [4, 1, 0, 0, 1],
    [5, 1, 1, 1, 1],
    [5, 1, 0, 0, 1],
];

fn tag_sound(n: &[u64; 14]) -> bool {
    let row: [u64; 5] = n[..5].try_into().expect("five");
    let (options, width) = (n[6], n[7]);
    if row == OPEN_EMPTY || CLOSED.contains(&row) {
        return n[5..] == [0; 9];
    }
    if OPEN_WAITING.contains(&row) {
        return options == 0 && width == 0 && n[12] == 0 && n[13] == 0;
    }
    OPEN_RUNNING.contains(&row)
        && [(0, 32), (1, 64), (2, 32), (3, 64)].contains(&(options, width))
        && below(n[12], width)
        && below(n[13], width)
}

fn reader_sound(n: &[u64; 12]) -> bool {
    let (stage, method, options, number, width) = (n[0], n[1], n[2], n[4], n[5]);
    let stored = method <= 2 && options <= 3 && number < 1 << 48;
    let running = [(0, 32), (1, 64), (2, 32), (3, 64)].contains(&(options, width))
        && below(n[10], width)
        && below(n[11], width);
    match stage {
        1 => stored && width == 0 && n[10] == 0 && n[11] == 0,
        2 => stored && running && method != 0,
        3 => stored && running,
        _ => n[1..] == [0; 11],
    }
}

fn check_tag(numbers: &[u64; 14]) -> bool {
    let tag = Tag::<Fast>::from_numbers(numbers).expect("a state");
    let sound = tag_sound(numbers);
    assert_eq!(tag.earns_8(), !sound, "{numbers:?}");
    let mut after = tag.clone();
    let got = command(&mut after, 3, &[], 0, 0);
    assert_eq!(got.number == 8, !sound, "{numbers:?}");
    if !sound {
        assert_eq!(after.numbers(), *numbers);
        assert_eq!(tag.error_type(), 0);
        let mut reply = buffer();
        assert_eq!(after.response(0, &[], 9, &mut reply[..1]), (8, 0));
        assert_eq!(reply[0], 0);
        assert_eq!(after.numbers(), *numbers);
    } else {
        assert_eq!(tag.error_type() == 0, !tag.error);
    }
    sound
}

#[test]
fn tags() {
    let (mut sound, mut all) = (0, 0);
    for row in 0..6 * 16u64 {
        let flags = [row >> 3 & 1, row >> 2 & 1, row >> 1 & 1, row & 1];
        for keyid in [0, 7] {
            for options in BYTES {
                for width in BYTES {
                    for accumulator in WORDS {
                        for register in WORDS {
                            let head = [row / 16, flags[0], flags[1], flags[2], flags[3]];
                            let mut n = [0; 14];
                            n[..5].copy_from_slice(&head);
                            n[5..8].copy_from_slice(&[keyid, options, width]);
                            n[12..].copy_from_slice(&[accumulator, register]);
                            all += 1;
                            sound += check_tag(&n) as u64;
                        }
                    }
                }
            }
        }
    }
    println!("{sound} sound of {all}");
    assert!(sound > 0);
    let open = [[0, 0, 0, 0, 0], [2, 1, 0, 0, 0], [4, 1, 0, 0, 0]];
    for row in open.iter().chain(&CLOSED) {
        for place in 8..12 {
            let mut n = [0; 14];
            n[..5].copy_from_slice(row);
            n[place] = 1 << (place * 5);
            assert_eq!(check_tag(&n), OPEN_WAITING.contains(row));
        }
    }
}

fn check_reader(numbers: &[u64; 12]) -> bool {
    let reader = Reader::<Fast>::from_numbers(numbers).expect("a state");
    assert_eq!(reader.numbers(), *numbers);
    let sound = reader_sound(numbers);
    assert_eq!(reader.earns_8(), !sound, "{numbers:?}");
    let mut after = reader.clone();
    assert_eq!(take(&mut after, &[], 0).number == 8, !sound, "{numbers:?}");
    if !sound {
        for number in [send(&mut after, 0, &[], 9), receive(&mut after, 0, &[], 9)] {
            assert_eq!((number.number, number.count), (8, 0));
        }
        assert_eq!(begin(&mut after, 9, 9).number, 8);
        assert_eq!(after.numbers(), *numbers);
    }
    sound
}

#[test]
fn readers() {
    let (mut sound, mut all) = (0, 0);
    for stage in 0..5 {
        for method in [0, 1, 2, 3, 255] {
            for options in [0, 1, 2, 3, 4, 5, 255] {
                for number in [0, (1 << 48) - 1, 1 << 48, u64::MAX] {
                    for width in [0, 1, 31, 32, 33, 63, 64, 65, 255] {
                        for accumulator in WORDS {
                            for register in WORDS {
                                let head = [stage, method, options, 0, number, width];
                                let mut n = [0; 12];
                                n[..6].copy_from_slice(&head);
                                n[10..].copy_from_slice(&[accumulator, register]);
                                all += 1;
                                sound += check_reader(&n) as u64;
                            }
                        }
                    }
                }
            }
        }
    }
    println!("{sound} sound of {all}");
    assert!(sound > 0);
    for stage in 0..5u64 {
        for place in [3, 6, 7, 8, 9] {
            let mut n = [0; 12];
            n[0] = stage;
            n[place] = 1;
            if stage == 2 || stage == 3 {
                n[1] = 1;
                n[5] = 32;
            }
            // "step 0 sent" holds any KeyID, b and s.
            assert_eq!(check_reader(&n), stage != 0 && stage != 4);
        }
    }
}

#[test]
fn numbers_beyond_their_field() {
    for place in 0..8 {
        let mut n = [0; 14];
        n[place] = 256;
        assert!(Tag::<Fast>::from_numbers(&n).is_none());
    }
    for place in [0, 1, 2, 3, 5] {
        let mut n = [0; 12];
        n[place] = 256;
        assert!(Reader::<Fast>::from_numbers(&n).is_none());
    }
}
