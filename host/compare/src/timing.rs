//! How runs are timed: each is repeated, and the fastest counts.

use std::time::{Duration, Instant};

/// A run is repeated so often at least, and until this much time is spent.
const RUNS: usize = 3;
pub const SPENT: Duration = Duration::from_millis(300);

/// The time of the fastest of several runs.
pub fn fastest(run: impl FnMut()) -> Duration {
    fastest_in(SPENT, run)
}

/// The same, where other time is spent.
pub fn fastest_in(spent: Duration, mut run: impl FnMut()) -> Duration {
    let start = Instant::now();
    let mut fastest = Duration::MAX;
    let mut runs = 0;
    while runs < RUNS || start.elapsed() < spent {
        let begin = Instant::now();
        run();
        fastest = fastest.min(begin.elapsed());
        runs += 1;
    }
    fastest
}
