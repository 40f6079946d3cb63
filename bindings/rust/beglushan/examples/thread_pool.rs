//! A pool of workers that take jobs from one channel. A worker has a slot, and by it a buffer that nobody else has, which it hands
//! to each of its jobs; a worker that comes later finds the buffer of its slot as it was left.

use beglushan::{Pool, Slots};
use std::sync::{mpsc, Mutex, PoisonError};
use std::thread;
use std::time::Duration;

const WORKERS: usize = 3;
const JOBS: usize = 300;

type Job = Box<dyn FnOnce(&mut Vec<u8>) + Send>;

/// Takes jobs until there are no more senders.
fn work(pool: &Pool, buffers: &Slots<Vec<u8>>, jobs: &Mutex<mpsc::Receiver<Job>>) {
    let slot = pool.acquire_timeout(Duration::from_secs(60));
    let mut slot = slot.expect("a worker that ends gives its number back");
    let buffer = buffers.get(&mut slot);
    loop {
        let job = jobs.lock().unwrap_or_else(PoisonError::into_inner).recv();
        let Ok(job) = job else { return };
        buffer.clear();
        job(buffer);
    }
}

fn main() -> Result<(), beglushan::Error> {
    let pool = Pool::new(WORKERS)?;
    let buffers = Slots::new(&pool, |_| Vec::with_capacity(64));
    let (send, receive) = mpsc::channel::<Job>();
    let (done, results) = mpsc::channel();
    for number in 0..JOBS {
        let done = done.clone();
        let job: Job = Box::new(move |buffer| {
            buffer.extend_from_slice(number.to_string().as_bytes());
            done.send(buffer.len()).expect("results are awaited");
        });
        send.send(job).expect("workers are to come");
    }
    drop((send, done));
    let receive = Mutex::new(receive);
    thread::scope(|threads| {
        // Twice as many as there are numbers: the others wait for theirs.
        for _ in 0..2 * WORKERS {
            threads.spawn(|| work(&pool, &buffers, &receive));
        }
    });
    println!("buffers: {}", buffers.len());
    println!(
        "digits of {JOBS} numbers: {}",
        results.iter().sum::<usize>()
    );
    Ok(())
}
