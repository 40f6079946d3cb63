//! Two kinds of work over raw words, beside others that do the same.
//!
//!     word_pairs          both, one after the other
//!     word_pairs stays    nanoseconds for a pair of acquire and release at 1, 2 and 4 threads: the proved pool over raw words, the
//!                         same walk over plain words in Rust, and a heap of free numbers under a mutex
//!     word_pairs names    nanoseconds for a name where 1 to 64 threads race: the proved names, the same program over plain words in
//!                         Rust, and the same under a mutex that is held for a name or for each access

mod accesses;
mod plain;
mod plain_names;
mod proved;
mod proved_names;
mod races;
mod timed;

use plain::PlainWords;
use proved::ProvedPool;
use std::cmp::Reverse;
use std::collections::BinaryHeap;
use std::hint::black_box;
use std::sync::Mutex;
use timed::timed;

const NUMBERS: u64 = 64;

fn main() {
    match std::env::args().nth(1).as_deref() {
        None => {
            stays();
            races::names();
        }
        Some("stays") => stays(),
        Some("names") => races::names(),
        Some(_) => panic!("word_pairs, word_pairs stays, or word_pairs names"),
    }
}

fn stays() {
    for threads in [1, 2, 4] {
        for near in [false, true] {
            let how = if near { "hint" } else { "from 1" };
            let pool = ProvedPool::new(NUMBERS);
            let proved = timed(
                &format!("proved pool, {how}"),
                threads,
                || (pool.handle(), 1),
                |(handle, last)| {
                    let number = handle.acquire(if near { *last } else { 1 });
                    *last = black_box(number);
                    handle.release();
                },
            );
            let words = PlainWords::new(NUMBERS);
            let plain = timed(
                &format!("plain words, {how}"),
                threads,
                || 1,
                |last| {
                    let number = words.acquire(if near { *last } else { 1 });
                    *last = black_box(number);
                    words.release(number);
                },
            );
            println!("{:<44} {threads} threads  {:>8.2}", "proved over plain", proved / plain);
        }
        let heap = Mutex::new((1..=NUMBERS).map(Reverse).collect::<BinaryHeap<Reverse<u64>>>());
        timed(
            "mutex round a heap of free numbers",
            threads,
            || (),
            |()| {
                let number = heap.lock().unwrap().pop();
                black_box(number);
                heap.lock().unwrap().extend(number);
            },
        );
    }
}
