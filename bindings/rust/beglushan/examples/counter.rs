//! Counters of threads that come and go, and one sum. No counter is written by two threads at once.

use beglushan::PerThread;
use std::cell::Cell;
use std::thread;

fn main() {
    const AT_ONCE: usize = 4;
    let hits = PerThread::<Cell<u64>>::new();
    let work = || {
        for _ in 0..1000 {
            hits.with(|mine| mine.set(mine.get() + 1));
        }
    };
    for _ in 0..25 {
        thread::scope(|threads| {
            let running: Vec<_> = (0..AT_ONCE).map(|_| threads.spawn(work)).collect();
            // A thread that is joined has given its number back.
            running.into_iter().for_each(|thread| {
                thread.join().expect("nothing panics");
            });
        });
    }
    let counters = hits.into_inner();
    assert!(counters.len() <= AT_ONCE);
    println!("100 threads, {AT_ONCE} at once: at most {AT_ONCE} counters");
    println!("sum: {}", counters.iter().map(Cell::get).sum::<u64>());
}
