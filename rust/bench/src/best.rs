//! The best time of what is timed, over several rounds.

use std::time::Duration;

/// The least time of one measurement.
const LEAST: Duration = Duration::from_millis(1);

/// What is timed: so many passes.
pub type Cell = Box<dyn Fn(u32) -> Duration>;

/// How many passes take the least time of a measurement.
fn enough_passes(cell: &Cell) -> u32 {
    let mut passes = 4;
    while cell(passes) < LEAST {
        passes *= 2;
    }
    passes
}

/// The best times of a pass in nanoseconds. The cells take turns, so that a slow moment of the machine spoils
/// none of them.
pub fn best_times(rounds: u32, cells: &[Cell]) -> Vec<f64> {
    let passes: Vec<_> = cells.iter().map(enough_passes).collect();
    let mut best = vec![f64::INFINITY; cells.len()];
    for _ in 0..rounds {
        for ((cell, passes), best) in cells.iter().zip(&passes).zip(&mut best) {
            *best = best.min(cell(*passes).as_nanos() as f64 / f64::from(*passes));
        }
    }
    best
}

/// The best time of a call in nanoseconds, over 200 rounds of so many passes.
pub fn best_call(passes: u32, mut call: impl FnMut()) -> f64 {
    let mut best = f64::INFINITY;
    for _ in 0..200 {
        let time = crate::work::elapsed(passes, &mut call);
        best = best.min(time.as_nanos() as f64 / f64::from(passes));
    }
    best
}
