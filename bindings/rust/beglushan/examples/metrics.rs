//! Histograms of many short-lived threads: each writes to its own, one thread reads them all while they run.

use beglushan::PerThread;
use std::sync::atomic::{AtomicBool, AtomicU64, Ordering::Relaxed};
use std::thread;

const BUCKETS: usize = 4;

#[derive(Default)]
struct Histogram([AtomicU64; BUCKETS]);

impl Histogram {
    /// One more value. Only its own thread writes to it, so a load and a store do.
    fn record(&self, value: usize) {
        let bucket = &self.0[value.min(BUCKETS - 1)];
        bucket.store(bucket.load(Relaxed) + 1, Relaxed);
    }
}

fn main() {
    const AT_ONCE: usize = 4;
    let latencies = PerThread::<Histogram>::new();
    let is_over = AtomicBool::new(false);
    let total = || {
        latencies.sum(|mine| {
            mine.0
                .iter()
                .map(|bucket| bucket.load(Relaxed))
                .sum::<u64>()
        })
    };
    thread::scope(|threads| {
        threads.spawn(|| {
            let mut last = 0;
            while !is_over.load(Relaxed) {
                let now = total();
                assert!(last <= now, "a sum never falls");
                last = now;
            }
        });
        for _ in 0..50 {
            thread::scope(|requests| {
                let work =
                    || (0..100).for_each(|value| latencies.with(|mine| mine.record(value % 5)));
                let running: Vec<_> = (0..AT_ONCE).map(|_| requests.spawn(work)).collect();
                // A thread that is joined has given its number back.
                running.into_iter().for_each(|thread| {
                    thread.join().expect("nothing panics");
                });
            });
        }
        is_over.store(true, Relaxed);
    });
    assert!(latencies.iter().count() <= AT_ONCE);
    println!("200 threads, {AT_ONCE} at once: at most {AT_ONCE} histograms");
    for bucket in 0..BUCKETS {
        println!(
            "bucket {bucket}: {}",
            latencies.sum(|mine| mine.0[bucket].load(Relaxed))
        );
    }
    println!("all: {}", total());
}
