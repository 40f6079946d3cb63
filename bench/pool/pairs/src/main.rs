//! Stays in a pool and values of threads, beside what else there is.
//!
//!     pairs               times each work once, and prints a line for each: its name, its threads, its nanoseconds
//!     pairs occupancy     times the same of pools of which many numbers are held
//!     pairs works         the works of one thread, by name
//!     pairs WORK TIMES    does one of these so many times

mod bitmap;
mod counted;
mod free_list;
mod occupancy;
mod plain;
mod timed;

use beglushan::{PerThread, Pool, Slots, Workers};
use plain::{PlainBits, PlainWords};
use std::cell::Cell;
use std::cmp::Reverse;
use std::collections::BinaryHeap;
use std::hint::black_box;
use std::sync::atomic::{AtomicU64, Ordering::Relaxed};
use std::sync::{LazyLock, Mutex};
use std::time::Instant;
use thread_local::ThreadLocal;
use timed::{line, timed};

const NUMBERS: usize = 64;

/// Workers of the program.
pub static WORKERS: LazyLock<Workers> = LazyLock::new(|| Workers::new(NUMBERS).expect("a size that there is"));

thread_local!(pub static OF_STD: Cell<u64> = const { Cell::new(0) });

fn main() {
    let words: Vec<String> = std::env::args().skip(1).collect();
    match words.as_slice() {
        [] => all(),
        [held] if held == "occupancy" => occupancy::all(),
        [list] if list == "works" => println!("{}", counted::WORKS.join("\n")),
        [name, times] => counted::work(name, times.parse().expect("a count")),
        _ => panic!("pairs, pairs occupancy, pairs works, or pairs WORK TIMES"),
    }
}

fn all() {
    for threads in [1, 2, 3, 4, 8] {
        stays_near(threads);
        stays_kept(threads);
        stays_with_no_hint(threads);
        peers(threads);
        values(threads);
    }
    pools_in_turn();
    values_in_turn();
    cold_values();
    sums();
    first_uses();
}

/// Each thread alone on its own number, which is not the first.
fn stays_near(threads: usize) {
    let pool = Pool::new(NUMBERS).expect("a size that there is");
    timed("near", threads, |thread| thread + 2, |mine| {
        *mine = pool.acquire_near(*mine).map_or(1, |slot| black_box(slot.number()));
    });
    let words = PlainWords::new(NUMBERS);
    timed("plain near", threads, |thread| thread + 2, |mine| {
        *mine = words.acquire_near(*mine).unwrap_or(1);
        words.release(black_box(*mine));
    });
    let bits = PlainBits::new(NUMBERS);
    timed("bits near", threads, |thread| thread + 2, |mine| {
        *mine = bits.acquire_near(*mine).unwrap_or(1);
        bits.release(black_box(*mine));
    });
}

/// A stay of a worker that keeps its number, with its element of an array.
fn stays_kept(threads: usize) {
    let workers = Workers::new(NUMBERS).expect("a size that there is");
    let elements = Slots::new(&workers, |_| 0_u64);
    let attach = |_| workers.attach().expect("at most 64");
    timed("kept", threads, attach, |worker| {
        *elements.get(&mut black_box(worker).stay()) += 1;
    });
    let elements = Slots::new(&*WORKERS, |_| 0_u64);
    timed("program", threads, |_| (), |()| WORKERS.with(|stay| *elements.get(black_box(stay)) += 1));
}

/// As many numbers as threads, and no hint.
fn stays_with_no_hint(threads: usize) {
    let pool = Pool::new(threads).expect("a size that there is");
    let number = |slot: beglushan::Slot| black_box(slot.number());
    timed("acquire", threads, |_| (), |()| while pool.acquire().map(number).is_none() {});
    let slab = sharded_slab::Slab::<u64>::new();
    timed("slab", threads, |_| (), |()| {
        let key = slab.insert(7).expect("room");
        slab.remove(black_box(key));
    });
    let least = Pool::new(threads).expect("a size that there is");
    timed("least", threads, |_| (), |()| while least.acquire_least().map(number).is_none() {});
    let words = PlainWords::new(threads);
    timed("plain least", threads, |_| (), |()| {
        let number = loop {
            if let Some(number) = words.acquire_near(1) {
                break number;
            }
        };
        words.release(black_box(number));
    });
    let bits = PlainBits::new(threads);
    timed("bits least", threads, |_| (), |()| {
        let number = loop {
            if let Some(number) = bits.acquire_near(1) {
                break number;
            }
        };
        bits.release(black_box(number));
    });
}

/// What other crates do instead.
fn peers(threads: usize) {
    let heap = Mutex::new((1..=NUMBERS).map(Reverse).collect::<BinaryHeap<Reverse<usize>>>());
    timed("heap", threads, |_| (), |()| {
        let number = heap.lock().expect("no panic").pop();
        heap.lock().expect("no panic").extend(black_box(number));
    });
    let collector = crossbeam_epoch::Collector::new();
    timed("epoch", threads, |_| collector.register(), |handle| drop(black_box(handle.pin())));
}

/// A thread's value, after its first use.
fn values(threads: usize) {
    let ours = PerThread::<AtomicU64>::new();
    let count = |mine: &AtomicU64| mine.store(mine.load(Relaxed) + 1, Relaxed);
    timed("with", threads, |_| (), |()| black_box(&ours).with(count));
    timed("std", threads, |_| (), |()| OF_STD.with(|mine| black_box(mine).set(mine.get() + 1)));
    let theirs = ThreadLocal::<AtomicU64>::new();
    timed("thread_local", threads, |_| (), |()| count(black_box(&theirs).get_or_default()));
}

/// Many values of one thread, used in turn.
fn values_in_turn() {
    let count = |mine: &AtomicU64| mine.store(mine.load(Relaxed) + 1, Relaxed);
    for many in [1, 8, 9, 16, 64, 256, 1000] {
        let next = |turn: &mut usize| {
            *turn = if *turn + 1 == many { 0 } else { *turn + 1 };
            *turn
        };
        let ours: Vec<PerThread<AtomicU64>> = (0..many).map(|_| PerThread::new()).collect();
        timed(&format!("with, {many} in turn"), 1, |_| 0, |turn| black_box(&ours[next(turn)]).with(count));
        let theirs: Vec<ThreadLocal<AtomicU64>> = (0..many).map(|_| ThreadLocal::new()).collect();
        timed(&format!("thread_local, {many} in turn"), 1, |_| 0, |turn| count(black_box(&theirs[next(turn)]).get_or_default()));
    }
}

/// A thousand values of one thread, each used once after the caches were filled with something else.
fn cold_values() {
    const MANY: usize = 1000;
    const ROUNDS: usize = 21;
    let count = |mine: &AtomicU64| mine.store(mine.load(Relaxed) + 1, Relaxed);
    let ours: Vec<PerThread<AtomicU64>> = (0..MANY).map(|_| PerThread::new()).collect();
    let theirs: Vec<ThreadLocal<AtomicU64>> = (0..MANY).map(|_| ThreadLocal::new()).collect();
    let mut other = vec![0_u8; 1 << 26];
    let mut cold = |name: &str, use_all: &dyn Fn()| {
        use_all();
        let mut rounds = [(); ROUNDS].map(|()| {
            other.iter_mut().step_by(64).for_each(|byte| *byte = byte.wrapping_add(1));
            let from = Instant::now();
            use_all();
            from.elapsed().as_nanos()
        });
        rounds.sort_unstable();
        line(name, 1, rounds[ROUNDS / 2] as f64 / MANY as f64);
    };
    cold("with, cold", &|| ours.iter().for_each(|values| black_box(values).with(count)));
    cold("thread_local, cold", &|| theirs.iter().for_each(|values| count(black_box(values).get_or_default())));
}

/// Many pools of one thread, used in turn.
fn pools_in_turn() {
    for many in [1, 2, 10, 100] {
        let pools: Vec<Pool> = (0..many).map(|_| Pool::new(NUMBERS).expect("a size that there is")).collect();
        timed(&format!("acquire, {many} in turn"), 1, |_| 0, |turn| {
            *turn = if *turn + 1 == many { 0 } else { *turn + 1 };
            black_box(pools[*turn].acquire().map(|slot| slot.number()));
        });
    }
}

/// The sum over the counters of 64 threads.
fn sums() {
    const SUMS: u32 = 100_000;
    let ours = PerThread::<AtomicU64>::new();
    let theirs = ThreadLocal::<AtomicU64>::new();
    let gate = std::sync::Barrier::new(NUMBERS);
    std::thread::scope(|scope| {
        for _ in 0..NUMBERS {
            scope.spawn(|| {
                ours.with(|mine| mine.store(1, Relaxed));
                theirs.get_or_default().store(1, Relaxed);
                gate.wait();
            });
        }
    });
    let per_sum = |sum: &dyn Fn() -> u64| {
        let from = Instant::now();
        for _ in 0..SUMS {
            assert_eq!(black_box(sum()), NUMBERS as u64);
        }
        from.elapsed().as_nanos() as f64 / f64::from(SUMS)
    };
    line("sum", 1, per_sum(&|| ours.sum(|counter| counter.load(Relaxed))));
    line("thread_local sum", 1, per_sum(&|| theirs.iter().map(|counter| counter.load(Relaxed)).sum()));
}

/// A thread that begins and ends, and one that uses its value once between.
fn first_uses() {
    const THREADS: u32 = 5_000;
    let per_thread = |first_use: &(dyn Fn() + Sync)| {
        let from = Instant::now();
        for _ in 0..THREADS {
            std::thread::scope(|scope| {
                scope.spawn(first_use).join().expect("no panic");
            });
        }
        from.elapsed().as_nanos() as f64 / f64::from(THREADS)
    };
    line("thread", 1, per_thread(&|| ()));
    let ours = PerThread::<AtomicU64>::new();
    line("thread with", 1, per_thread(&|| ours.with(|mine| mine.store(1, Relaxed))));
    let theirs = ThreadLocal::<AtomicU64>::new();
    line("thread thread_local", 1, per_thread(&|| theirs.get_or_default().store(1, Relaxed)));
}
