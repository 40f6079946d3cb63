// Erased by bindings/rust/erase from crates/service_follow/src/gathering.rt, sha256 6586ddaaff33a1fb6d012f44b3a98e52dc2aec3a0f6e0a894f2c63e9fa1e1207.
//! A compaction of which not all was read.

use crate::kit::alloc::{AllocError, Global};
use crate::proved::model_asked::config::Config;
use crate::proved::service_follow::machine::HallMachine;
use crate::proved::service_follow::marks::head_at;
use crate::proved::service_follow::reply_queue::ReplyQueue;
use crate::proved::service_log::machine::{ApplyFault, Machine};

/// The hall to which the entries of a compaction that were read lead, and the token and the count of the last of them.
pub(crate) struct Gathering {
    pub(crate) halls: HallMachine,
    pub(crate) head: [u8; 49],
}

impl Gathering {
    /// Makes one with a hall with no event, behind this entry.
    pub(crate) fn new(
        alloc: Global,
        config: Config,
        entry: &[u8],
    ) -> Result<Gathering, AllocError> {
        let Ok(halls) = HallMachine::new(alloc, config) else {
            return Err(AllocError);
        };
        Ok(Gathering {
            halls,
            head: head_at(entry, 0),
        })
    }

    /// Takes one more entry, and says nothing.
    pub(crate) fn take(
        &mut self,
        entry: &[u8],
        reply_queue: &mut ReplyQueue,
    ) -> Result<(), ApplyFault> {
        self.halls.apply(entry, reply_queue)?;
        reply_queue.clear();
        self.head = head_at(entry, 0);
        Ok(())
    }
}
