//! How a thread sleeps until its end is woken.

use super::pause::Pause;
use std::sync::atomic::{AtomicU32, Ordering::SeqCst};
use std::sync::{Condvar, Mutex, MutexGuard, PoisonError};
use std::time::Instant;

const CLEAR: u32 = 0;
const ASLEEP: u32 = 1;
const SET: u32 = 2;

/// Locks, whether a thread has panicked or not: no data here is ever halfway.
pub(super) fn lock<M>(mutex: &Mutex<M>) -> MutexGuard<'_, M> {
    mutex.lock().unwrap_or_else(PoisonError::into_inner)
}

/// Sleeps on the condition variable, until the time at most.
pub(super) fn sleep_on<'a, M>(asleep: &Condvar, guard: MutexGuard<'a, M>, until: Option<Instant>) -> MutexGuard<'a, M> {
    let Some(until) = until else {
        return asleep.wait(guard).unwrap_or_else(PoisonError::into_inner);
    };
    let left = until.saturating_duration_since(Instant::now());
    asleep.wait_timeout(guard, left).unwrap_or_else(PoisonError::into_inner).0
}

/// Whether the time is over.
pub(super) fn is_over(until: Option<Instant>) -> bool {
    until.is_some_and(|until| Instant::now() >= until)
}

/// The token of an end. A thread that wakes the end sets it. The thread that is in a call of the end waits for it, and clears it. No other
/// data lies in its line of the cache.
#[repr(align(128))]
pub(super) struct Token {
    state: AtomicU32,
    lock: Mutex<()>,
    woken: Condvar,
}

impl Token {
    pub(super) fn new() -> Token {
        Token {
            state: AtomicU32::new(CLEAR),
            lock: Mutex::new(()),
            woken: Condvar::new(),
        }
    }

    /// Sets the token, and wakes the thread that sleeps on it.
    pub(super) fn set(&self) {
        // What this thread wrote before is there for the thread that takes the token.
        if self.state.swap(SET, SeqCst) == ASLEEP {
            // The sleeper has the lock from before it writes ASLEEP until it sleeps. So the notification must follow the lock, else it may
            // come before the sleep.
            drop(lock(&self.lock));
            self.woken.notify_one();
        }
    }

    /// Waits until the token is set, and clears it. False if the time was over before.
    pub(super) fn wait(&self, until: Option<Instant>) -> bool {
        let mut pause = Pause::new();
        while !pause.is_long() {
            if self.take() {
                return true;
            }
            pause.pause();
        }
        self.sleep(until)
    }

    // The load keeps a look at a token that is clear from taking its line of the cache.
    fn take(&self) -> bool {
        self.state.load(SeqCst) == SET && self.state.compare_exchange(SET, CLEAR, SeqCst, SeqCst).is_ok()
    }

    fn sleep(&self, until: Option<Instant>) -> bool {
        let mut guard = lock(&self.lock);
        // It must follow the lock (see `set`). It fails only if the token was set since the last look.
        if self.state.compare_exchange(CLEAR, ASLEEP, SeqCst, SeqCst).is_err() {
            return self.take();
        }
        while !is_over(until) {
            guard = sleep_on(&self.woken, guard, until);
            if self.take() {
                return true;
            }
        }
        // The time is over. A token that was set at the last moment is taken all the same.
        self.state.swap(CLEAR, SeqCst) == SET
    }
}
