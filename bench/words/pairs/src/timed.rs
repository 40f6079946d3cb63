//! The time of pairs of acquire and release.

use std::sync::Barrier;
use std::time::Instant;

/// How many pairs a run makes, over all its threads.
const PAIRS: usize = 2_000_000;

/// Nanoseconds of wall time a pair, the best of seven runs; each thread has a state of its own.
pub fn timed<S>(name: &str, threads: usize, make: impl Fn() -> S + Sync, pair: impl Fn(&mut S) + Sync) -> f64 {
    let mut best = f64::MAX;
    for _ in 0..7 {
        let gate = Barrier::new(threads + 1);
        let span = std::thread::scope(|scope| {
            let workers: Vec<_> = (0..threads)
                .map(|_| {
                    scope.spawn(|| {
                        let mut state = make();
                        gate.wait();
                        for _ in 0..PAIRS / threads {
                            pair(&mut state);
                        }
                    })
                })
                .collect();
            gate.wait();
            let from = Instant::now();
            for worker in workers {
                worker.join().expect("no worker panics");
            }
            from.elapsed()
        });
        best = best.min(span.as_nanos() as f64 / PAIRS as f64);
    }
    println!("{name:<44} {threads} threads  {best:>8.1} ns a pair");
    best
}
