//! Who may use an end that several handles share.

use super::token::{is_over, lock, sleep_on};
use std::sync::atomic::{AtomicU32, Ordering::SeqCst};
use std::sync::{Condvar, Mutex};
use std::time::Instant;

const FREE: u32 = 0;
const TAKEN: u32 = 1;
const WANTED: u32 = 2;

/// A lock that can be wanted until a time.
pub(super) struct Turn {
    state: AtomicU32,
    lock: Mutex<()>,
    given: Condvar,
}

impl Turn {
    pub(super) fn new() -> Turn {
        Turn {
            state: AtomicU32::new(FREE),
            lock: Mutex::new(()),
            given: Condvar::new(),
        }
    }

    /// Takes the turn if nobody has it.
    pub(super) fn try_take(&self) -> bool {
        self.state.compare_exchange(FREE, TAKEN, SeqCst, SeqCst).is_ok()
    }

    /// Takes the turn, and sleeps while another has it. False if the time was over before.
    pub(super) fn take(&self, until: Option<Instant>) -> bool {
        if self.try_take() {
            return true;
        }
        let mut guard = lock(&self.lock);
        loop {
            // It must follow the lock (see `give`). It leaves WANTED even if it takes the turn, since others may want it too.
            if self.state.swap(WANTED, SeqCst) == FREE {
                return true;
            }
            if is_over(until) {
                return false;
            }
            guard = sleep_on(&self.given, guard, until);
        }
    }

    /// Gives the turn back, and wakes one that wants it.
    pub(super) fn give(&self) {
        // The turn is free from here on, so this must follow the call.
        if self.state.swap(FREE, SeqCst) == WANTED {
            // A thread that has written WANTED has the lock until it sleeps. So the notification must follow the lock, else it may come
            // before the sleep.
            drop(lock(&self.lock));
            self.given.notify_one();
        }
    }
}
