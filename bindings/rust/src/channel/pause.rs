//! How a thread waits for a short while.

use std::hint::spin_loop;
use std::thread::yield_now;

// The rounds that spin, each for less than a microsecond, and the spins of each. A thread looks again after each round, so a short round
// finds a wake-up soon.
const SPINNING: u32 = 7;
const SPINS: u32 = 8;
// After this number of rounds a thread should sleep.
const ROUNDS: u32 = 20;

/// Spins for some rounds, and then yields.
pub(super) struct Pause {
    round: u32,
}

impl Pause {
    pub(super) fn new() -> Pause {
        Pause { round: 0 }
    }

    /// Whether it has gone on for so long that a thread should sleep, if it can.
    pub(super) fn is_long(&self) -> bool {
        self.round >= ROUNDS
    }

    pub(super) fn pause(&mut self) {
        if self.round < SPINNING {
            (0..SPINS).for_each(|_| spin_loop());
        } else {
            yield_now();
        }
        self.round = self.round.saturating_add(1);
    }
}
