//! compare [SEED] [ROUNDS]: the archive and the second program on the same calls. Every round is a
//! session of one method and one choice of options, with all that could stand in place of its
//! calls, and calls of the key book and of host frames.

use std::env;
use std::process::ExitCode;

use compare::comparison::{Checked, Comparison};
use compare::free;
use compare::session::Session;

const SEED: u64 = 2916713;
const ROUNDS: u64 = 3_600;
const METHODS: u64 = 3;
const OPTIONS: u64 = 4;
const FREE_CALLS: usize = 50;

fn round(comparison: &mut Comparison, round: u64) -> Checked<()> {
    let (method, options) = (round % METHODS, round / METHODS % OPTIONS);
    comparison.choose_form(round / (METHODS * OPTIONS) % 2 == 1);
    let messages = comparison.random.below(6);
    Session::new(comparison, method as u8, options as u8).run(messages)?;
    for _ in 0..FREE_CALLS {
        free::run(comparison)?;
    }
    Ok(())
}

/// The number at a place of the command line, or the one that stands for none.
fn argument(place: usize, otherwise: u64) -> u64 {
    env::args().nth(place).map_or(otherwise, |word| {
        word.parse().expect("usage: compare [SEED] [ROUNDS]")
    })
}

fn main() -> ExitCode {
    let (seed, rounds) = (argument(1, SEED), argument(2, ROUNDS));
    println!("seed {seed}, {rounds} rounds");
    let mut comparison = Comparison::new(seed);
    for number in 0..rounds {
        if let Err(difference) = round(&mut comparison, number) {
            println!("{difference}");
            println!("compare: different in round {number} of seed {seed}");
            return ExitCode::FAILURE;
        }
    }
    print!("{}", comparison.table());
    let missing = comparison.missing();
    if !missing.is_empty() {
        println!("compare: too few rounds, not reached: {missing:?}");
        return ExitCode::FAILURE;
    }
    println!(
        "compare: seed {seed}, {} calls, all alike",
        comparison.calls()
    );
    ExitCode::SUCCESS
}
