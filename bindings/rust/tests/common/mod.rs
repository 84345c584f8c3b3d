//! What tests of several files share.

use std::sync::atomic::{AtomicUsize, Ordering::SeqCst};

/// How many `Token`s were dropped.
pub static TOKEN_DROPS: AtomicUsize = AtomicUsize::new(0);

/// An item without bytes, whose drop is counted. One test of a program uses it.
pub struct Token;

impl Drop for Token {
    fn drop(&mut self) {
        TOKEN_DROPS.fetch_add(1, SeqCst);
    }
}
