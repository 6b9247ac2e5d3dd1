//! Timing.

use std::hint::black_box;
use std::time::{Duration, Instant};

// A run over all inputs, which returns a number that depends on all answers.
pub type Run<'a> = Box<dyn FnMut() -> i64 + 'a>;

// A round lasts at least so long for each run; there are rounds until their number or time is out.
const ROUND: Duration = Duration::from_micros(300);
const ROUNDS: usize = 600;
const TIME: Duration = Duration::from_secs(3);

// Nanoseconds a call: the best of many rounds, in which all runs take turns, each after one run
// that brings its data back into the caches.
pub fn side_by_side(calls: usize, runs: &mut [Run]) -> Vec<f64> {
    let repeats: Vec<u32> = runs.iter_mut().map(|run| repeats(run)).collect();
    let mut best = vec![f64::INFINITY; runs.len()];
    let start = Instant::now();
    for round in 0..ROUNDS {
        if round >= 5 && start.elapsed() > TIME {
            break;
        }
        for (number, run) in runs.iter_mut().enumerate() {
            black_box(run());
            let total = time(run, repeats[number]).as_nanos() as f64;
            let each = total / (repeats[number] as usize * calls) as f64;
            best[number] = best[number].min(each);
        }
    }
    best
}

fn time(run: &mut Run, repeats: u32) -> Duration {
    let start = Instant::now();
    for _ in 0..repeats {
        black_box(run());
    }
    start.elapsed()
}

// As many repeats as fill a round.
fn repeats(run: &mut Run) -> u32 {
    let mut repeats = 1;
    while time(run, repeats) < ROUND {
        repeats *= 2;
    }
    repeats
}
