//! A compare-exchange and a load of atomic words, and a mutex round a counter, by so many threads, so many of each.
use std::env;
use std::hint::black_box;
use std::sync::Mutex;
use std::sync::atomic::{AtomicU64, Ordering::SeqCst};
use std::thread;

fn by_threads(threads: u64, turns: u64, call: impl Fn(u64) -> u64 + Sync) -> u64 {
    thread::scope(|scope| {
        let workers: Vec<_> = (0..threads)
            .map(|_| scope.spawn(|| (0..turns).map(|turn| black_box(call(turn))).fold(0, u64::wrapping_add)))
            .collect();
        workers.into_iter().map(|worker| worker.join().unwrap()).fold(0, u64::wrapping_add)
    })
}

fn main() {
    let words: Vec<String> = env::args().collect();
    let (threads, turns): (u64, u64) = (words[2].parse().unwrap(), words[3].parse().unwrap());
    let table: Vec<AtomicU64> = (0..127).map(|_| AtomicU64::new(7)).collect();
    let counter = Mutex::new(0u64);
    let done = match words[1].as_str() {
        "posts" => by_threads(threads, turns, |turn| {
            table[(turn % 127) as usize].compare_exchange(0, 7, SeqCst, SeqCst).is_err() as u64
        }),
        "confirms" => by_threads(threads, turns, |turn| (table[(turn % 127) as usize].load(SeqCst) == 7) as u64),
        "events" => by_threads(threads, turns / threads, |_| {
            let mut held = counter.lock().unwrap();
            *held += 1;
            *held
        }),
        _ => 0,
    };
    println!("{done}");
}
