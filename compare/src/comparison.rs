//! Calls through both programs, held against each other and counted.

use std::collections::BTreeMap;
use std::fmt;

use second::fast::Fast;
use second::grain::Grain;

use crate::archive::Archive;
use crate::call::{Call, Outcome, Side};
use crate::random::Random;
use crate::second_program::SecondProgram;

/// Every function of the header, with the answers that a run has to reach.
const FUNCTIONS: [(&str, &[u8]); 14] = [
    ("tag_reset", &[0, 8]),
    ("tag_command", &[0, 1, 2, 3, 4, 5, 6, 7, 8, 9, 10, 11]),
    ("tag_response", &[0, 2, 3, 7, 8, 9, 11]),
    ("tag_close", &[0, 8]),
    ("tag_error_type", &[0, 1, 2, 3, 8]),
    ("reader_reset", &[0, 8]),
    ("reader_begin", &[0, 1, 2, 4, 5, 8, 9, 11]),
    ("reader_replied", &[0, 2, 4, 6, 8, 9, 10, 11]),
    ("reader_send", &[0, 2, 8, 9, 11]),
    ("reader_receive", &[0, 2, 6, 8, 9, 10, 11]),
    ("book_sound", &[0, 1]),
    ("book_find", &[0, 1, 2, 5]),
    ("frame_scan", &[0, 20, 21, 22, 23]),
    ("frame_write", &[0, 20, 21, 22, 23, 24]),
];

/// A call that the two programs do not answer alike, or an honest one that went wrong in both.
#[derive(Debug)]
pub struct Difference {
    pub call: Call,
    pub archive: Outcome,
    pub second: Outcome,
}

impl fmt::Display for Difference {
    /// Every number and every byte in hex.
    fn fmt(&self, to: &mut fmt::Formatter) -> fmt::Result {
        writeln!(to, "{}, all in hex:", self.call.what.function())?;
        writeln!(to, "given   {:02X?}", self.call)?;
        writeln!(to, "archive {:02X?}", self.archive)?;
        write!(to, "second  {:02X?}", self.second)
    }
}

pub type Checked<T> = Result<T, Box<Difference>>;

pub struct Comparison {
    pub random: Random,
    plain: bool,
    reached: BTreeMap<(&'static str, u8), u64>,
}

impl Comparison {
    pub fn new(seed: u64) -> Comparison {
        Comparison {
            random: Random::new(seed),
            plain: false,
            reached: BTreeMap::new(),
        }
    }

    /// Whether the second program clocks its cipher bit by bit, or takes its fast form.
    pub fn choose_form(&mut self, plain: bool) {
        self.plain = plain;
    }

    /// The outcome of a call that both programs answer alike.
    pub fn same(&mut self, call: Call) -> Checked<Outcome> {
        let archive = Archive::outcome(&call);
        let second = if self.plain {
            SecondProgram::<Grain>::outcome(&call)
        } else {
            SecondProgram::<Fast>::outcome(&call)
        };
        if archive != second {
            return Err(Box::new(Difference {
                call,
                archive,
                second,
            }));
        }
        let place = (call.what.function(), archive.answer);
        *self.reached.entry(place).or_default() += 1;
        Ok(archive)
    }

    pub fn calls(&self) -> u64 {
        self.reached.values().sum()
    }

    /// A line for each function: its calls, and how many had each answer.
    pub fn table(&self) -> String {
        let mut table = String::new();
        for (name, _) in FUNCTIONS {
            let answers = self.reached.range((name, 0)..=(name, u8::MAX));
            let calls: u64 = answers.clone().map(|(_, calls)| calls).sum();
            table += &format!("{name:<14} {calls:>8} calls;");
            for ((_, answer), calls) in answers {
                table += &format!(" {answer}: {calls}");
            }
            table += "\n";
        }
        table
    }

    /// The answers that no call had.
    pub fn missing(&self) -> Vec<(&'static str, u8)> {
        let mut missing = Vec::new();
        for (name, answers) in FUNCTIONS {
            let new = answers.iter().map(|&answer| (name, answer));
            missing.extend(new.filter(|place| !self.reached.contains_key(place)));
        }
        missing
    }
}
