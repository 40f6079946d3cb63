//! Works of one thread, by name, so many times: what `bench/pool/counts` counts the instructions of.

use crate::plain::{PlainBits, PlainWords};
use crate::{OF_STD, WORKERS};
use beglushan::{PerThread, Pool, Slots, Workers};
use std::cell::Cell;
use std::hint::black_box;
use std::sync::atomic::{AtomicU64, Ordering::Relaxed};
use thread_local::ThreadLocal;

/// Every work that there is.
pub const WORKS: [&str; 18] = [
    "nothing",
    "near",
    "acquire",
    "least",
    "kept",
    "program",
    "plain",
    "bits",
    "slab",
    "epoch",
    "with",
    "std",
    "thread_local",
    "with_64",
    "thread_local_64",
    "ten_pools",
    "sum",
    "thread_local_sum",
];

/// Does the work so many times.
pub fn work(name: &str, times: usize) {
    let pool = Pool::new(64).expect("a size that there is");
    drop(pool.acquire_near(2));
    let words = PlainWords::new(64);
    let bits = PlainBits::new(64);
    match name {
        "nothing" => repeat(times, |turn| _ = black_box(turn)),
        "near" => repeat(times, |_| _ = pool.acquire_near(2).map(|slot| black_box(slot.number()))),
        "acquire" => repeat(times, |_| _ = pool.acquire().map(|slot| black_box(slot.number()))),
        "least" => repeat(times, |_| _ = pool.acquire_least().map(|slot| black_box(slot.number()))),
        "kept" => kept(times),
        "program" => program(times),
        "std" => repeat(times, |_| OF_STD.with(|mine| black_box(mine).set(mine.get() + 1))),
        "plain" => repeat(times, |_| words.release(black_box(words.acquire_near(2).unwrap_or(1)))),
        "bits" => repeat(times, |_| bits.release(black_box(bits.acquire_near(2).unwrap_or(1)))),
        "slab" => slab(times),
        "epoch" => epoch(times),
        "with" => values::<1>(times),
        "with_64" => values::<64>(times),
        "thread_local" => thread_locals::<1>(times),
        "thread_local_64" => thread_locals::<64>(times),
        "ten_pools" => ten_pools(times),
        "sum" | "thread_local_sum" => sums(name == "sum", times),
        _ => panic!("no work is called {name}"),
    }
}

fn repeat(times: usize, mut work: impl FnMut(usize)) {
    (0..times).for_each(|turn| work(black_box(turn)));
}

fn kept(times: usize) {
    let workers = Workers::new(64).expect("a size that there is");
    let mut worker = workers.attach().expect("one of 64");
    let elements = Slots::new(&workers, |_| 0_u64);
    repeat(times, |_| *elements.get(&mut black_box(&mut worker).stay()) += 1);
}

fn program(times: usize) {
    let elements = Slots::new(&*WORKERS, |_| 0_u64);
    repeat(times, |_| WORKERS.with(|stay| *elements.get(black_box(stay)) += 1));
}

fn ten_pools(times: usize) {
    let pools: Vec<Pool> = (0..10).map(|_| Pool::new(64).expect("a size that there is")).collect();
    repeat(times, |turn| _ = pools[turn % 10].acquire().map(|slot| black_box(slot.number())));
}

fn slab(times: usize) {
    let slab = sharded_slab::Slab::<u64>::new();
    repeat(times, |_| {
        let key = slab.insert(7).expect("room");
        slab.remove(black_box(key));
    });
}

fn epoch(times: usize) {
    let collector = crossbeam_epoch::Collector::new();
    let handle = collector.register();
    repeat(times, |_| drop(black_box(handle.pin())));
}

fn values<const COUNT: usize>(times: usize) {
    let all: Vec<PerThread<Cell<u64>>> = (0..COUNT).map(|_| PerThread::new()).collect();
    repeat(times, |turn| black_box(&all)[turn % COUNT].with(|mine| mine.set(mine.get() + 1)));
}

fn thread_locals<const COUNT: usize>(times: usize) {
    let all: Vec<ThreadLocal<AtomicU64>> = (0..COUNT).map(|_| ThreadLocal::new()).collect();
    repeat(times, |turn| {
        let mine = black_box(&all)[turn % COUNT].get_or_default();
        mine.store(mine.load(Relaxed) + 1, Relaxed);
    });
}

/// The sum over the counters of 64 threads.
fn sums(is_ours: bool, times: usize) {
    let (ours, theirs) = (PerThread::<AtomicU64>::new(), ThreadLocal::<AtomicU64>::new());
    let gate = std::sync::Barrier::new(64);
    std::thread::scope(|scope| {
        for _ in 0..64 {
            scope.spawn(|| {
                ours.with(|mine| mine.store(1, Relaxed));
                theirs.get_or_default().store(1, Relaxed);
                gate.wait();
            });
        }
    });
    let sum = || theirs.iter().map(|counter| counter.load(Relaxed)).sum::<u64>();
    if is_ours {
        repeat(times, |_| _ = black_box(black_box(&ours).sum(|counter| counter.load(Relaxed))));
    } else {
        repeat(times, |_| _ = black_box(sum()));
    }
}
