// Erased by bindings/rust/erase from crates/tool_work/src/progress.rt, sha256 d0b2c6981e0b5450b026c7652653f7a18f06ff7e116a0e6fd44cbec4f101f6c0.
//! A sign that long work goes on, for whoever looks on.

use crate::kit::convert::AsStr;
use crate::kit::io::Write;
use crate::kit::sync::atomic::{AtomicBool, Ordering};
use crate::kit::thread;
use crate::kit::thread::Threads;
use crate::kit::time::{Clock, Duration};

/// How often a second it is looked whether the work is done.
const LOOKS_A_SECOND: u64 = 20;

/// Returns whether the words ask for work that may take long: a check, a migration, a page, a drawing, or who holds numbers.
pub fn may_take_long<S: AsStr>(words: &[S]) -> bool {
    match words.get(1) {
        Some(word) => matches!(
            word.as_str(),
            "check" | "migrate" | "show" | "draw" | "held"
        ),
        None => false,
    }
}

/// Writes a dot for each second until the work is done, and then an end of line if there are dots.
pub fn tell_until<C: Clock, E: Write>(clock: &C, done: &AtomicBool, errors: &mut E) {
    let mut reported = false;
    for look in 1..u64::MAX {
        if done.load(Ordering::SeqCst) {
            break;
        }
        thread::sleep(clock, Duration::from_millis(1_000 / LOOKS_A_SECOND));
        if look % LOOKS_A_SECOND == 0 {
            // A standard error that takes no dot gets none.
            if errors.write_all(b".").is_ok() {
                reported = true;
            }
        }
    }
    if reported {
        let _ = errors.write_all(b"\n");
    }
}

/// Does the work and returns what it gives. A thread of its own writes dots meanwhile (`tell_until`).
pub fn in_sight<R: Threads + Clock + Sync, E: Write + Send, T, F: FnOnce() -> T>(
    rt: &R,
    errors: E,
    work: F,
) -> T {
    let done = AtomicBool::new(false);
    let mut errors = errors;
    let (_, made) = thread::join(
        rt,
        || tell_until(rt, &done, &mut errors),
        || {
            let made = work();
            done.store(true, Ordering::SeqCst);
            made
        },
    );
    made
}
