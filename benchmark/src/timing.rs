//! Times of the contenders, taken in turns.

use std::hint::black_box;
use std::time::{Duration, Instant};

use compare::archive::Archive;
use compare::call::Side;
use compare::second_program::SecondProgram;
use second::fast::Fast;
use second::grain::Grain;

use crate::work::Work;

/// A turn of a contender lasts about this long, or one run of the work where that is longer.
const TURN: Duration = Duration::from_millis(1);
/// The rounds of one row, all together.
const ROW: Duration = Duration::from_secs(4);

/// The archive, then the fast and the plain form of the second program.
type Turn = fn(&Work, u32) -> Duration;
const TURNS: [Turn; 3] = [
    turn::<Archive>,
    turn::<SecondProgram<Fast>>,
    turn::<SecondProgram<Grain>>,
];

/// How long it takes to do the work so many times.
fn turn<S: Side>(work: &Work, runs: u32) -> Duration {
    let started = Instant::now();
    for _ in 0..runs {
        black_box(work).run::<S>(|piece| {
            black_box(piece);
        });
    }
    started.elapsed()
}

/// Whether all three give the same bytes.
pub fn alike(work: &Work) -> bool {
    let given = work.given::<Archive>();
    given == work.given::<SecondProgram<Fast>>() && given == work.given::<SecondProgram<Grain>>()
}

pub fn median(mut times: Vec<Duration>) -> Duration {
    times.sort();
    times[times.len() / 2]
}

/// The median time of one run for each contender, and the number of rounds. In a round each has
/// one turn, so that what else the machine does meets all three alike.
pub fn medians(work: &Work) -> ([Duration; 3], usize) {
    let runs = TURNS.map(|turn| {
        let once = turn(work, 1).max(Duration::from_nanos(1));
        (TURN.as_nanos() / once.as_nanos()).max(1) as u32
    });
    let mut times = [(); 3].map(|()| Vec::new());
    let started = Instant::now();
    while started.elapsed() < ROW {
        for contender in 0..3 {
            let time = TURNS[contender](work, runs[contender]);
            times[contender].push(time / runs[contender]);
        }
    }
    let rounds = times[0].len();
    (times.map(median), rounds)
}
