//! The lines of the program `sessions`, a reader and a tag against each other, are
//! what this program's reader and tag say.

mod common;

use common::*;
use second::cipher::Cipher;
use second::fast::Fast;
use second::grain::Grain;
use second::payloads::{AUTH, COMM, IA, MA, SECURE, TA};
use second::reader::Reader;
use second::tag::Tag;

const DATA: [u8; 5] = [0x12, 0x34, 0x56, 0x78, 0xAB];
const LENGTHS: [usize; 2] = [40, 0];
const FEATURES: u8 = 0x1F;
/// "a response of kind 4 as 1, of 5 as 2"
const WANTED: u8 = 3;

struct Run<C: Cipher> {
    reader: Reader<C>,
    tag: Tag<C>,
    lines: String,
}

impl<C: Cipher> Run<C> {
    fn heading(&mut self, heading: &str) {
        self.reader = Reader::fresh();
        self.tag = Tag::fresh();
        self.lines += &format!("{heading}\n");
    }

    fn line(&mut self, call: &str, answer: Answer) -> Answer {
        let mut hex: String = answer.bytes.iter().map(|byte| format!("{byte:02X}")).collect();
        if hex.is_empty() {
            hex.push('-');
        }
        self.lines += &format!("{call} {} {} {hex}\n", answer.number, answer.count);
        answer
    }

    fn begin(&mut self, method: u8, options: u8) -> Answer {
        let answer = begin(&mut self.reader, method, options);
        self.line("reader begin", answer)
    }

    fn command(&mut self, kind: u8, given: &Answer) -> Answer {
        let answer = command(&mut self.tag, kind, &given.bytes, given.count, FEATURES);
        self.line("tag command", answer)
    }

    fn replied(&mut self, given: &Answer) -> Answer {
        let answer = take(&mut self.reader, &given.bytes, given.count);
        self.line("reader replied", answer)
    }

    fn send(&mut self, kind: u8, count: usize) -> Answer {
        let answer = send(&mut self.reader, kind, &DATA, count);
        self.line("reader send", answer)
    }

    fn response(&mut self, kind: u8, count: usize) -> Answer {
        let answer = response(&mut self.tag, kind + WANTED, &DATA, count);
        self.line("tag response", answer)
    }

    fn receive(&mut self, kind: u8, given: &Answer) -> Answer {
        let answer = receive(&mut self.reader, kind, &given.bytes, given.count);
        self.line("reader receive", answer)
    }

    fn prove(&mut self, given: &Answer) -> Answer {
        let answer = self.command(AUTH, given);
        self.replied(&answer)
    }

    fn open(&mut self, method: u8, options: u8) {
        let step_0 = self.begin(method, options);
        let step_1 = self.prove(&step_0);
        if method != TA {
            self.prove(&step_1);
        }
    }

    fn messages(&mut self, method: u8, kind: u8) {
        for count in LENGTHS.into_iter().filter(|_| method != TA) {
            let message = self.send(kind, count);
            self.command(kind, &message);
        }
        for count in LENGTHS.into_iter().filter(|_| method != IA) {
            let message = self.response(kind, count);
            self.receive(kind, &message);
        }
    }

    /// The last data bit is flipped on the way.
    fn damaged(&mut self) {
        self.open(MA, 2);
        let mut message = self.send(SECURE, 40);
        message.bytes[4] ^= 1;
        self.command(SECURE, &message);
        self.response(SECURE, 40);
    }

    /// A tag that says that it has neither TA nor IA.
    fn bought(&mut self, method: u8) {
        let step_0 = self.begin(method, 0);
        let mut first = self.command(AUTH, &step_0);
        first.bytes[0] &= !0b11;
        let first = self.line("bought tag", first);
        let next = self.replied(&first);
        if method == MA {
            self.prove(&next);
        } else {
            self.replied(&first);
        }
    }
}

fn lines<C: Cipher>() -> String {
    let mut run = Run { reader: Reader::<C>::fresh(), tag: Tag::fresh(), lines: String::new() };
    for (method, name) in [(TA, "TA"), (IA, "IA"), (MA, "MA")] {
        for options in 0..if method == MA { 4 } else { 2 } {
            let width = if options & 1 == 1 { 64 } else { 32 };
            let secure = if options & 2 == 2 { " secure" } else { "" };
            run.heading(&format!("{name} MAC{width}{secure}"));
            run.open(method, options);
            run.messages(method, COMM);
            if options & 2 == 2 {
                run.messages(method, SECURE);
            }
        }
    }
    run.heading("MA MAC32 secure damaged");
    run.damaged();
    for (method, name) in [(TA, "TA"), (IA, "IA"), (MA, "MA")] {
        run.heading(&format!("{name} MAC32 bought tag"));
        run.bought(method);
    }
    run.lines
}

#[test]
fn every_line() {
    let printed = include_str!("../../crates/sessions/stdout");
    assert_eq!(lines::<Fast>(), printed);
    assert_eq!(lines::<Grain>(), printed);
}
