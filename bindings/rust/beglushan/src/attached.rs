//! Workers of the whole program, to which a thread is attached by its first stay.

use crate::error::Error;
use crate::workers::{Stay, Worker, Workers};
use std::cell::{Cell, RefCell};

/// A worker of this thread that is in no stay: which workers it is of, and its number. The key is 0 if there is none.
struct Near {
    key: Cell<usize>,
    number: Cell<usize>,
}

/// The workers of this thread. They are dropped when it ends.
struct Kept(RefCell<Vec<Entry>>);

struct Entry {
    worker: Worker<'static>,
    number: usize,
    /// Whether it is in no stay, and is not the near one.
    is_idle: bool,
}

thread_local! {
    /// It has no destructor, which makes it quick.
    static NEAR: Near = const {
        Near {
            key: Cell::new(0),
            number: Cell::new(0),
        }
    };
    static KEPT: Kept = const { Kept(RefCell::new(Vec::new())) };
}

impl Drop for Kept {
    fn drop(&mut self) {
        // What runs later in this thread must not find a number that is given back.
        NEAR.with(|near| near.key.set(0));
    }
}

impl Workers {
    /// Calls with a stay of this thread. The first call of a thread attaches it. Then it keeps its number until it ends.
    ///
    /// A stay within a stay is allowed: it has a number of its own.
    ///
    /// ```
    /// use beglushan::{Slots, Workers};
    /// use std::sync::LazyLock;
    ///
    /// static WORKERS: LazyLock<Workers> = LazyLock::new(|| Workers::new(64).expect("memory for 64"));
    /// static LINES: LazyLock<Slots<Vec<String>>> = LazyLock::new(|| Slots::new(&*WORKERS, |_| Vec::new()));
    ///
    /// fn log(line: &str) {
    ///     WORKERS.with(|stay| LINES.get(stay).push(line.to_owned()));
    /// }
    ///
    /// log("from this thread");
    /// std::thread::spawn(|| log("from another")).join().expect("nothing panics");
    /// ```
    ///
    /// # Panics
    ///
    /// Where [`try_with`](Workers::try_with) returns an error.
    #[inline]
    pub fn with<R>(&'static self, call: impl FnOnce(&mut Stay<'_>) -> R) -> R {
        match self.try_with(call) {
            Ok(told) => told,
            Err(why) => refused(why),
        }
    }

    /// [`with`](Workers::with), with an error in place of a panic.
    ///
    /// # Errors
    ///
    /// - Those of [`attach`](Workers::attach).
    /// - [`Error::NoMemory`]: an allocation failed.
    /// - [`Error::Nested`]: the call came from an allocator that this thread's first stay calls.
    ///
    /// A thread that is attached, and is in no stay, gets none.
    #[inline]
    pub fn try_with<R>(&'static self, call: impl FnOnce(&mut Stay<'_>) -> R) -> Result<R, Error> {
        let key = self.key();
        // The near worker is taken out, so that a stay within this one does not find it.
        let is_near = NEAR.with(|near| near.key.get() == key && near.key.replace(0) != 0);
        if !is_near {
            return self.call_aside(call);
        }
        let number = NEAR.with(|near| near.number.get());
        let _back = Back { key, number };
        Ok(call(&mut Stay::of(number, key)))
    }

    /// Calls with a stay of a worker that is not the near one.
    #[cold]
    #[inline(never)]
    fn call_aside<R>(&'static self, call: impl FnOnce(&mut Stay<'_>) -> R) -> Result<R, Error> {
        let key = self.key();
        match KEPT.try_with(|kept| kept.take_out(self)) {
            Ok(number) => {
                let number = number?;
                let _back = Back { key, number };
                Ok(call(&mut Stay::of(number, key)))
            }
            // The thread is about to end, and keeps no worker.
            Err(_) => Ok(call(&mut self.attach()?.stay())),
        }
    }
}

impl Kept {
    /// The number of a worker that is in no stay, and is taken out for one.
    fn take_out(&self, workers: &'static Workers) -> Result<usize, Error> {
        // An allocator that makes a stay may be called from below.
        let mut entries = self.0.try_borrow_mut().map_err(|_| Error::Nested)?;
        let (key, number) = NEAR.with(|near| (near.key.replace(0), near.number.get()));
        put_aside(&mut entries, key, number);
        let is_ours = |entry: &&mut Entry| entry.is_idle && entry.worker.key() == workers.key();
        if let Some(entry) = entries.iter_mut().find(is_ours) {
            entry.is_idle = false;
            return Ok(entry.number);
        }
        entries.try_reserve(1).map_err(|_| Error::NoMemory)?;
        let mut worker = workers.attach()?;
        let number = worker.stay().number();
        entries.push(Entry {
            worker,
            number,
            is_idle: false,
        });
        Ok(number)
    }
}

/// Lets the worker of this number be found among all, if it is one.
fn put_aside(entries: &mut [Entry], key: usize, number: usize) {
    let is_it = |entry: &&mut Entry| entry.worker.key() == key && entry.number == number;
    if let Some(entry) = entries.iter_mut().find(is_it) {
        entry.is_idle = true;
    }
}

#[cold]
#[inline(never)]
fn refused(why: Error) -> ! {
    panic!("this thread can't be attached: {why}")
}

/// Puts a worker back after its stay, in a panic too.
struct Back {
    key: usize,
    number: usize,
}

impl Drop for Back {
    #[inline]
    fn drop(&mut self) {
        let is_near = NEAR.with(|near| {
            let is_free = near.key.get() == 0;
            if is_free {
                near.key.set(self.key);
                near.number.set(self.number);
            }
            is_free
        });
        if !is_near {
            self.put_aside();
        }
    }
}

impl Back {
    #[cold]
    #[inline(never)]
    fn put_aside(&self) {
        // A thread that is about to end keeps none.
        let _ = KEPT.try_with(|kept| put_aside(&mut kept.0.borrow_mut(), self.key, self.number));
    }
}
