//! Eight threads, each with a buffer that no other thread has, and no lock.

use beglushan::{Slots, Workers};

fn main() -> Result<(), beglushan::Error> {
    let workers = Workers::new(8)?;
    let buffers = Slots::new(&workers, |_| Vec::new());
    std::thread::scope(|threads| {
        for job in 0..8 {
            let (workers, buffers) = (&workers, &buffers);
            threads.spawn(move || {
                let mut worker = workers.attach().expect("eight for eight threads");
                buffers.get(&mut worker.stay()).push(job); // `&mut Vec`, nobody else's during this stay
            });
        }
    });
    let jobs: usize = buffers.into_inner().iter().map(Vec::len).sum();
    println!("{jobs} jobs");
    Ok(())
}
