//! What tells pools and crews of workers apart.

use core::sync::atomic::{AtomicUsize, Ordering::Relaxed};

/// No key is used twice, and none is 0.
static LAST_KEY: AtomicUsize = AtomicUsize::new(0);

/// A key that nothing else has. That `Slots` lends each element once stands on it.
///
/// # Panics
///
/// If the process has made as many as a word can tell apart.
pub(crate) fn new_key() -> usize {
    let counted = LAST_KEY.fetch_update(Relaxed, Relaxed, |last| last.checked_add(1));
    counted.expect("fewer pools than a word can tell apart") + 1
}
