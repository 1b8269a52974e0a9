//! How a thread waits for another.

use std::time::{Duration, Instant};
use std::{hint, thread};

/// After this many unsuccessful tries in a row, a thread lets another one run.
const TRIES_BEFORE_YIELD: u32 = 10_000;

/// Counts unsuccessful tries, and waits a little after each.
#[derive(Default)]
pub struct Patience {
    tries: u32,
}

impl Patience {
    pub fn wait(&mut self) {
        self.tries += 1;
        if self.tries < TRIES_BEFORE_YIELD {
            hint::spin_loop();
        } else {
            self.tries = 0;
            thread::yield_now();
        }
    }

    pub fn reset(&mut self) {
        self.tries = 0;
    }
}

/// The longest and the shortest wait between two rounds with little work, in nanoseconds.
const LONGEST_WAIT: u64 = 1_000;
const SHORTEST_WAIT: u64 = 50;

/// Waits after rounds with little work, after each twice as long as after the one before.
#[derive(Default)]
pub struct Restraint {
    nanos: u64,
}

impl Restraint {
    pub fn wait(&mut self) {
        if self.nanos > 0 {
            let start = Instant::now();
            let time = Duration::from_nanos(self.nanos);
            while start.elapsed() < time {
                hint::spin_loop();
            }
        }
        self.nanos = (2 * self.nanos + SHORTEST_WAIT).min(LONGEST_WAIT);
    }

    /// Halves the next wait, after a round with much work.
    pub fn ease(&mut self) {
        self.nanos /= 2;
    }

    /// Ends the waiting, after a round without work.
    pub fn reset(&mut self) {
        self.nanos = 0;
    }
}
