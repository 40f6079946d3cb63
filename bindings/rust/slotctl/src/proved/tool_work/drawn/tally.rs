// Erased by bindings/rust/erase from crates/tool_work/src/drawn/tally.rt, sha256 ae0a79eeeca59c564be81ab16d060816d39df70b32412af648867ff182c8c6a2.
//! The numbers of a run.

use crate::proved::model_asked::event::Event;
use crate::proved::model_asked::reply::Reply;

/// How many participants of a run have begun, were named and were spent.
#[derive(Clone, Copy, Debug, PartialEq, Eq)]
pub struct Tally {
    /// Those that have begun.
    pub begun: u64,
    /// Those that were named.
    pub named: u64,
    /// Those that have used up their proposals.
    pub spent: u64,
}

impl Tally {
    /// Makes the numbers of a run with no event.
    pub fn new() -> Tally {
        Tally {
            begun: 0,
            named: 0,
            spent: 0,
        }
    }

    /// Counts an event by its reply.
    pub fn count(&mut self, event: Event, reply: Reply<()>) {
        match (event, reply) {
            (Event::Begin(_), Reply::Ok) => self.begun += 1,
            (_, Reply::Named(_, ())) => self.named += 1,
            (_, Reply::Spent) => self.spent += 1,
            _ => {}
        }
    }
}
