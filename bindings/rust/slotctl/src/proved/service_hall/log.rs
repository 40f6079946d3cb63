// Erased by bindings/rust/erase from crates/service_hall/src/log.rt, sha256 f2c2641fcdd29b136685217cee18d110f959853ab89d0e171d1e31b5c23a799e.
//! Exchanges in order, which store their views apart.

use crate::kit::alloc::Allocator;
use crate::kit::Clone;
use crate::kit::Vec;
use crate::proved::model_asked::event::Event;
use crate::proved::model_asked::exchange::Exchange;
use crate::proved::model_asked::reply::Reply;
use crate::proved::model_steps::refusal::NoMemory;
use crate::proved::model_steps::view::View;
use crate::proved::service_hall::entry::{shorten, shown, Entry};

/// Exchanges in order. Each takes 40 bytes, and a kilobyte more if its reply shows a view or is of a rare kind.
pub struct Log<A: Allocator> {
    entries: Vec<Entry, A>,
    apart: Vec<Reply<View>, A>,
}

impl<A: Allocator + Clone> Log<A> {
    /// Makes a log of no exchange. This allocates nothing.
    ///
    /// # Errors
    ///
    /// `NoMemory`: the allocator could not be cloned.
    pub fn new(alloc: A) -> Result<Log<A>, NoMemory> {
        let Ok(other) = alloc.clone() else {
            return Err(NoMemory);
        };
        Ok(Log {
            entries: Vec::new(other),
            apart: Vec::new(alloc),
        })
    }
}

impl<A: Allocator> Log<A> {
    /// Returns the number of exchanges.
    pub fn len(&self) -> usize {
        self.entries.len()
    }

    /// Returns the exchange at a place, from 0, or `None` if there are fewer.
    pub fn get(&self, place: usize) -> Option<Exchange> {
        let entry = *self.entries.get(place)?;
        Some(Exchange {
            event: entry.event,
            reply: shown(&self.apart, entry.reply),
        })
    }

    /// Makes room for one more exchange, and returns false if the allocation failed. The exchanges stay as they are.
    pub fn reserve(&mut self) -> bool {
        self.entries.reserve(1).is_ok() && self.apart.reserve(1).is_ok()
    }

    /// Appends an event with its reply, for which there is room. A reply that shows a view shows `view`.
    pub fn push_reserved(&mut self, event: Event, reply: Reply<()>, view: &View) {
        let reply = shorten(&mut self.apart, reply, view);
        self.entries.push_reserved(Entry { event, reply });
    }
}
