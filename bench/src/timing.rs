//! The time of a call: the best of many rounds, since whatever disturbs a round makes it longer.

use std::time::{Duration, Instant};

/// About how long a round takes.
const ROUND: Duration = Duration::from_micros(500);

const ROUNDS: usize = 40;

/// Nanoseconds of a call.
pub fn nanoseconds(mut call: impl FnMut()) -> f64 {
    let mut timer = Timer::new(&mut call);
    for _ in 0..ROUNDS {
        timer.round(&mut call);
    }
    timer.nanoseconds()
}

/// The best round of a call so far.
pub struct Timer {
    calls: usize,
    best: Duration,
}

impl Timer {
    /// Finds how many calls make a round.
    pub fn new(call: &mut impl FnMut()) -> Timer {
        let mut calls = 1;
        loop {
            // More than one round: a single one that was disturbed would end the search too soon.
            let best = (0..3).map(|_| time(calls, call)).min();
            let best = best.expect("three rounds");
            if ROUND < best * 2 {
                return Timer { calls, best };
            }
            calls *= 2;
        }
    }

    /// Times one round more.
    pub fn round(&mut self, call: &mut impl FnMut()) {
        self.best = self.best.min(time(self.calls, call));
    }

    pub fn nanoseconds(&self) -> f64 {
        self.best.as_nanos() as f64 / self.calls as f64
    }
}

fn time(calls: usize, call: &mut impl FnMut()) -> Duration {
    let start = Instant::now();
    for _ in 0..calls {
        call();
    }
    start.elapsed()
}
