//! The time of many short works in many threads.

use std::sync::Barrier;
use std::time::{Duration, Instant};

/// How many slices a thread times in a run, and how many works are in one.
const SLICES: usize = 100;
const WORKS: usize = 10_000;

/// A thread's state, with no other thread's beside it.
#[repr(align(128))]
struct Alone<S>(S);

/// Times one run, and prints its line: nanoseconds of wall time that a work takes as its thread sees it, by the median of the thread's
/// slices, of the slowest thread. A slice in which the thread did not run is no median. Each thread has a state of its own.
pub fn timed<S>(name: &str, threads: usize, state: impl Fn(usize) -> S + Sync, work: impl Fn(&mut S) + Sync) {
    let gate = Barrier::new(threads);
    let slowest = std::thread::scope(|scope| {
        let workers: Vec<_> = (0..threads)
            .map(|thread| {
                let (gate, state, work) = (&gate, &state, &work);
                scope.spawn(move || {
                    let mut mine = Alone(state(thread));
                    (0..WORKS).for_each(|_| work(&mut mine.0));
                    gate.wait();
                    let mut slices = [0; SLICES];
                    for slice in &mut slices {
                        let from = Instant::now();
                        for _ in 0..WORKS {
                            work(&mut mine.0);
                        }
                        *slice = from.elapsed().as_nanos();
                    }
                    slices.sort_unstable();
                    slices[SLICES / 2]
                })
            })
            .collect();
        workers.into_iter().map(|worker| worker.join().expect("no worker panics")).max()
    });
    line(name, threads, slowest.expect("a thread") as f64 / WORKS as f64);
}

/// The same for works that may be short or long, each of which is so many in one: a thread times slices of half a millisecond.
pub fn timed_long<S>(name: &str, threads: usize, many: usize, state: impl Fn(usize) -> S + Sync, work: impl Fn(&mut S) + Sync) {
    let gate = Barrier::new(threads);
    let slowest = std::thread::scope(|scope| {
        let workers: Vec<_> = (0..threads)
            .map(|thread| {
                let (gate, state, work) = (&gate, &state, &work);
                scope.spawn(move || {
                    let mut mine = Alone(state(thread));
                    gate.wait();
                    median_of_slices(&mut mine.0, work)
                })
            })
            .collect();
        workers.into_iter().map(|worker| worker.join().expect("no worker panics")).fold(0.0, f64::max)
    });
    line(name, threads, slowest / many as f64);
}

/// Nanoseconds of a work, by the median of slices of as many works as fit into one.
fn median_of_slices<S>(state: &mut S, work: impl Fn(&mut S)) -> f64 {
    const LONG_SLICES: usize = 30;
    const SLICE: Duration = Duration::from_micros(500);
    let from = Instant::now();
    let mut works = 0;
    while from.elapsed() < 4 * SLICE {
        (0..10).for_each(|_| work(state));
        works += 10;
    }
    let works = (works / 4).max(1);
    let mut slices = [0; LONG_SLICES];
    for slice in &mut slices {
        let from = Instant::now();
        (0..works).for_each(|_| work(state));
        *slice = from.elapsed().as_nanos();
    }
    slices.sort_unstable();
    slices[LONG_SLICES / 2] as f64 / works as f64
}

/// Prints what a run took: what it timed, how many threads there were, and nanoseconds.
pub fn line(name: &str, threads: usize, nanoseconds: f64) {
    println!("{name}\t{threads}\t{nanoseconds:.2}");
}
