//! Times of both engines in one run.

use std::time::{Duration, Instant};

use crate::rows::{Engine, Row};

/// The median times of ours and plain over so many runs, which take turns so that
/// whatever else the machine does falls on both.
pub fn medians(row: &mut Row, runs: usize) -> (Duration, Duration) {
    let mut ours = Vec::new();
    let mut plain = Vec::new();
    for _ in 0..runs.max(1) {
        ours.push(once(row, Engine::Ours));
        plain.push(once(row, Engine::Plain));
    }
    (median(ours), median(plain))
}

fn once(row: &mut Row, engine: Engine) -> Duration {
    let start = Instant::now();
    row.ask(engine);
    start.elapsed()
}

fn median(mut times: Vec<Duration>) -> Duration {
    times.sort_unstable();
    times[times.len() / 2]
}
