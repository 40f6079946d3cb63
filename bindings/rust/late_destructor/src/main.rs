//! The crate `thread_local` gives one `&Cell` to two threads, from safe code: a thread keeps the reference for the destructor of a
//! thread-local that runs after the thread's number is given back, and by then the next thread has the number.
//!
//! The program says the version of `thread_local` that it was built with, and whether two threads had one cell at once. The same is
//! refused by type for `beglushan::PerThread`, as a doctest of its page shows.

use std::cell::Cell;
use std::ptr;
use std::sync::mpsc::{channel, Sender};
use std::sync::{Arc, Barrier, LazyLock};
use std::thread;
use thread_local::ThreadLocal;

static VALUES: LazyLock<ThreadLocal<Cell<u64>>> = LazyLock::new(ThreadLocal::new);

/// What a thread keeps until it ends: its value, and how it tells the other thread of it.
#[derive(Default)]
struct Kept {
    mine: Cell<Option<&'static Cell<u64>>>,
    told: Cell<Option<(Arc<Barrier>, Sender<usize>)>>,
}

thread_local!(static KEPT: Kept = Kept::default());

impl Drop for Kept {
    fn drop(&mut self) {
        let mine = self.mine.get().expect("it was put there");
        let (gate, told) = self.told.take().expect("it was put there");
        gate.wait();
        // The other thread takes its value now.
        gate.wait();
        told.send(address(mine)).expect("the program waits for it");
        gate.wait();
    }
}

fn address(cell: &Cell<u64>) -> usize {
    ptr::from_ref(cell) as usize
}

fn main() {
    let gate = Arc::new(Barrier::new(2));
    let (tell, told) = channel();
    let theirs = Arc::clone(&gate);
    let ending = thread::spawn(move || {
        // What a thread uses first is dropped last.
        KEPT.with(|kept| kept.told.set(Some((theirs, tell))));
        let mine = VALUES.get_or_default();
        KEPT.with(|kept| kept.mine.set(Some(mine)));
    });
    let next = thread::spawn(move || {
        gate.wait();
        let mine = address(VALUES.get_or_default());
        gate.wait();
        gate.wait();
        mine
    });
    let first = told.recv().expect("it is told");
    let second = next.join().expect("nothing panics");
    ending.join().expect("nothing panics");
    let is_one = if first == second {
        "one cell"
    } else {
        "a cell of its own"
    };
    println!("thread_local: each of two threads at once had {is_one}");
}
