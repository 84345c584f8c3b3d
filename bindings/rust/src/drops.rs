//! Drops of items that are left, of which some may panic.

/// Drops all items. A drop that panics keeps no other item from its drop. The first panic goes on once all are dropped, and further ones
/// end here, as all do if the thread was panicking before.
#[cfg(feature = "std")]
pub(crate) fn drop_all(items: impl Iterator) {
    use core::mem::forget;
    use std::panic::{catch_unwind, resume_unwind, AssertUnwindSafe};
    use std::thread::panicking;

    let mut first = None;
    for item in items {
        match catch_unwind(AssertUnwindSafe(|| drop(item))) {
            Ok(()) => {}
            Err(panic) if first.is_none() => first = Some(panic),
            // Not dropped: the drop of a payload may panic too.
            Err(panic) => forget(panic),
        }
    }
    match first {
        Some(panic) if panicking() => forget(panic),
        Some(panic) => resume_unwind(panic),
        None => {}
    }
}

/// Drops all items. A drop that panics keeps no other item from its drop. A second panic aborts, since nothing here can catch the first.
#[cfg(not(feature = "std"))]
pub(crate) fn drop_all(items: impl Iterator) {
    // What a panic leaves over.
    struct Rest<I: Iterator>(I);

    impl<I: Iterator> Drop for Rest<I> {
        fn drop(&mut self) {
            self.0.by_ref().for_each(drop);
        }
    }

    let mut rest = Rest(items);
    rest.0.by_ref().for_each(drop);
}
