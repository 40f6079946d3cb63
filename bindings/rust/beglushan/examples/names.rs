//! Threads with identities of 64 bits, each of which counts at a place of one small array. The place is the thread's name, so the array
//! is as long as the names, and nobody shares a place.

use beglushan::{Names, Seat};
use std::sync::atomic::{AtomicU64, Ordering::Relaxed};
use std::thread;

const THREADS: usize = 4;
const HITS: u64 = 1000;

/// Each name of four threads is at most `2 * 4 - 1`.
static COUNTERS: [AtomicU64; 2 * THREADS - 1] = [const { AtomicU64::new(0) }; 2 * THREADS - 1];

fn count(seat: Seat) {
    let mine = &COUNTERS[seat.name() - 1];
    for _ in 0..HITS {
        // Nobody else writes here, so no count is lost.
        mine.store(mine.load(Relaxed) + 1, Relaxed);
    }
}

fn main() -> Result<(), beglushan::Error> {
    let mut names = Names::new(THREADS)?;
    let mut seats = Vec::new();
    for identity in [u64::MAX, 3, 0x9e37_79b9_7f4a_7c15, 1 << 40] {
        seats.push(names.deal(identity)?);
    }
    thread::scope(|scope| {
        for seat in seats {
            scope.spawn(|| count(seat));
        }
    });
    let counts = COUNTERS.each_ref().map(|counter| counter.load(Relaxed));
    let used = counts.iter().filter(|count| **count != 0).count();
    let places = counts.len();
    println!("{THREADS} threads counted at {used} of {places} places");
    println!("counts: {}", counts.iter().sum::<u64>());
    Ok(())
}
