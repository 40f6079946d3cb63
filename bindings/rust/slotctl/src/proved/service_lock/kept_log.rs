// Erased by bindings/rust/erase from crates/service_lock/src/kept_log.rt, sha256 9c100cca4960fa6441366a67b5112dc55b8116ce1a6eb77f205c6df5e879cffa.
//! What a caller has kept, in order.

use crate::kit::alloc::Global;
use crate::kit::Vec;
use crate::proved::model_asked::event::Event;
use crate::proved::model_asked::reply::Reply;
use crate::proved::model_steps::refusal::NoMemory;
use crate::proved::model_steps::view::View;
use crate::proved::service_hall::log::Log;
use crate::proved::service_lock::kept::Kept;

/// Accepted events in order, with the first name among their replies. An event takes 48 bytes, without its view.
pub struct KeptLog {
    places: Vec<usize>,
    log: Log<Global>,
    name: Option<u64>,
}

/// The name that a reply gives.
fn name_given(reply: Reply<()>) -> Option<u64> {
    match reply {
        Reply::Named(name, ()) => Some(name),
        _ => None,
    }
}

impl KeptLog {
    /// Makes a list with no event. This allocates nothing.
    pub(crate) fn new(alloc: Global) -> Result<KeptLog, NoMemory> {
        let log = Log::new(alloc)?;
        Ok(KeptLog {
            places: Vec::new(alloc),
            log,
            name: None,
        })
    }

    /// Returns the number of events.
    pub fn len(&self) -> usize {
        self.places.len()
    }

    /// Returns the event with this index, from 0, in order.
    pub fn get(&self, at: usize) -> Option<Kept> {
        let exchange = self.log.get(at)?;
        Some(Kept {
            place: self.places[at],
            exchange,
        })
    }

    /// Allocates room for one more event, and returns whether there is room.
    pub(crate) fn reserve(&mut self) -> bool {
        self.places.reserve(1).is_ok() && self.log.reserve()
    }

    /// Appends an event with its place and its reply, for which there is room. The reply's view is `view`.
    pub(crate) fn push_reserved(
        &mut self,
        place: usize,
        event: Event,
        reply: Reply<()>,
        view: &View,
    ) {
        self.name = self.name.or(name_given(reply));
        self.places.push_reserved(place);
        self.log.push_reserved(event, reply, view);
    }
}
