//! compare_tagrun SEED INPUTS WORDS...: runs the command WORDS, which is the program `tagrun`, on
//! each input, and holds what it prints against the second program's text.

use std::collections::BTreeMap;
use std::env;
use std::process::ExitCode;

use compare::child::printed;
use compare::random::Random;
use compare::stream;
use second::fast::Fast;
use second::grain::Grain;
use second::tagrun;

const USAGE: &str = "usage: compare_tagrun SEED INPUTS WORDS...";

/// The second word of each line is the answer, or the refusal of a frame.
fn count_answers(text: &str, reached: &mut BTreeMap<u8, u64>) {
    for word in text.lines().filter_map(|line| line.split(' ').nth(1)) {
        if let Ok(answer) = word.parse() {
            *reached.entry(answer).or_default() += 1;
        }
    }
}

/// Runs every input; gives how many lines had each answer, or what differs.
fn run(seed: u64, inputs: u64, words: &[String]) -> Result<BTreeMap<u8, u64>, String> {
    let mut random = Random::new(seed);
    let mut reached = BTreeMap::new();
    for number in 0..inputs {
        let input = stream::input(&mut random);
        let wanted = if number % 2 == 0 {
            tagrun::run::<Fast>(&input)
        } else {
            tagrun::run::<Grain>(&input)
        };
        let got = printed(words, &input).map_err(|error| format!("{}: {error}", words[0]))?;
        if got != wanted.as_bytes() {
            let got = String::from_utf8_lossy(&got);
            return Err(format!(
                "input {number}: {input:02X?}\ntagrun prints\n{got}second prints\n{wanted}"
            ));
        }
        count_answers(&wanted, &mut reached);
    }
    Ok(reached)
}

fn main() -> ExitCode {
    let words: Vec<String> = env::args().skip(1).collect();
    let [seed, inputs, command @ ..] = &words[..] else {
        panic!("{USAGE}");
    };
    assert!(!command.is_empty(), "{USAGE}");
    let (seed, inputs) = (seed.parse().expect(USAGE), inputs.parse().expect(USAGE));
    println!("seed {seed}, {inputs} inputs");
    match run(seed, inputs, command) {
        Ok(reached) => {
            let lines: u64 = reached.values().sum();
            println!("answers {reached:?}");
            println!("compare_tagrun: seed {seed}, {inputs} inputs, {lines} lines, all alike");
            ExitCode::SUCCESS
        }
        Err(difference) => {
            println!("{difference}");
            println!("compare_tagrun: different, seed {seed}");
            ExitCode::FAILURE
        }
    }
}
