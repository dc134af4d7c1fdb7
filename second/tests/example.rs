//! The listing of document 01, and what else `tagrun` prints.

mod common;

use common::hex;
use second::fast::Fast;
use second::grain::Grain;
use second::tagrun::{run, tagrun};

const LISTING: &str = "0040 8005112233445566 0050 92053E775C194D6D4FD8 0250 4587E627C400D495799A";

const PRINTED: &str = "1 0 MA.1 56 1F778899AABBCC
2 0 MA.2 65 44A7C41906EC4CC880
3 0 MA.2 40 12345678AB
";

fn prints(input: &str, lines: &str) {
    assert_eq!(tagrun(&hex(input)), lines, "{input}");
    assert_eq!(run::<Grain>(&hex(input)), run::<Fast>(&hex(input)), "{input}");
}

#[test]
fn the_listing() {
    prints(LISTING, PRINTED);
    assert_eq!(run::<Grain>(&hex(LISTING)), PRINTED);
}

#[test]
fn bad_frames_end_the_run() {
    prints("", "");
    prints(&format!("{LISTING} 00"), &format!("{PRINTED}4 20\n"));
    prints(&format!("{LISTING} 0080 00 0600"), &format!("{PRINTED}4 21\n"));
    prints(&format!("{LISTING} 07"), &format!("{PRINTED}4 23\n"));
    prints(&format!("{LISTING} 0101FF 0600"), &format!("{PRINTED}4 22\n"));
}

#[test]
fn closed_and_reset() {
    let tampered = "0040 8005112233445566 0050 92053E775C194D6D4FD9 0100 0600 0400 0300 0600";
    let lines = "1 0 MA.1 56 1F778899AABBCC
2 10 MA.2 1 80
3 7 MA.2 0 -
4 0 CS-Reset 0 -
5 9 CS-Reset 0 -
6 3 CS-Reset 0 -
7 0 CS-Reset 0 -
";
    prints(tampered, lines);
}

#[test]
fn longest_input() {
    let reset = hex("0600");
    let longest = reset.repeat(16_384);
    assert_eq!(longest.len(), 32_768);
    let text = tagrun(&longest);
    assert_eq!(text.lines().count(), 16_384);
    assert!(text.ends_with("16384 0 CS-Reset 0 -\n"));
    let mut over = longest.clone();
    over.push(6);
    assert_eq!(tagrun(&over), "input too long\n");
}
