//! benchmark [WORDS...]: times the archive against the fast and the plain form of the second program
//! on the same inputs, and prints a table in Markdown. The command WORDS, where there is one, is the
//! program `tagrun`: it is timed on the inputs of frames.

mod rows;
mod timing;
mod work;

use std::env;
use std::process::ExitCode;
use std::time::{Duration, Instant};

use compare::archive::Archive;
use compare::child::printed;
use second::tagrun;

use rows::Row;
use work::Work;

const CHILD_RUNS: usize = 11;

fn archive_kind() -> &'static str {
    if cfg!(target_arch = "x86_64") {
        "x86-64"
    } else {
        "native, the same crate built for this processor"
    }
}

/// Every contender has to give the same bytes, and for frames the text of the program `tagrun`.
fn check(row: &Row) -> Result<(), String> {
    if !timing::alike(&row.work) {
        return Err(format!("{}: the contenders differ", row.name));
    }
    match &row.work {
        Work::Frames { input }
            if tagrun::tagrun(input).as_bytes() != row.work.given::<Archive>() =>
        {
            Err(format!("{}: not the text of tagrun", row.name))
        }
        _ => Ok(()),
    }
}

fn shown(time: Duration) -> String {
    let micros = time.as_nanos() as f64 / 1e3;
    if micros < 1e3 {
        format!("{micros:.2} µs")
    } else {
        format!("{:.2} ms", micros / 1e3)
    }
}

fn print_row(row: &Row) {
    let (medians, rounds) = timing::medians(&row.work);
    let [archive, fast, plain] = medians.map(|time| shown(time / row.times));
    let [to_fast, to_plain] =
        [1, 2].map(|other| medians[0].as_secs_f64() / medians[other].as_secs_f64());
    println!(
        "| {} | {to_fast:.2} | {to_plain:.2} | {archive} | {fast} | {plain} | {rounds} |",
        row.name
    );
}

/// The median time of the program on an input, from its start to its end.
fn print_program(words: &[String], row: &Row) -> Result<(), String> {
    let Work::Frames { input } = &row.work else {
        return Ok(());
    };
    let wanted = row.work.given::<Archive>();
    let mut times = Vec::new();
    for _ in 0..CHILD_RUNS {
        let started = Instant::now();
        let text = printed(words, input).map_err(|error| format!("{}: {error}", words[0]))?;
        times.push(started.elapsed());
        if text != wanted {
            return Err(format!("{}: other text for {}", words[0], row.name));
        }
    }
    let time = shown(timing::median(times));
    println!(
        "- {}: {time} by the program `tagrun`, its process's start included",
        row.name
    );
    Ok(())
}

fn run(words: &[String]) -> Result<(), String> {
    let rows = rows::all();
    rows.iter().try_for_each(check)?;
    println!(
        "Processor: {}. Archive: {}.\n",
        env::consts::ARCH,
        archive_kind()
    );
    println!("| What | archive / fast | archive / plain | archive | fast | plain | rounds |");
    println!("|---|---:|---:|---:|---:|---:|---:|");
    rows.iter().for_each(print_row);
    if words.is_empty() {
        return Ok(());
    }
    println!();
    rows.iter().try_for_each(|row| print_program(words, row))
}

fn main() -> ExitCode {
    let words: Vec<String> = env::args().skip(1).collect();
    match run(&words) {
        Ok(()) => ExitCode::SUCCESS,
        Err(fault) => {
            eprintln!("benchmark: {fault}");
            ExitCode::FAILURE
        }
    }
}
