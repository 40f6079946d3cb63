// Erased by bindings/rust/erase from crates/service_hall/src/rebuilding.rt, sha256 3e85c7432127b82571d929af39d25b43c95eeacd8d49e8feb15a9e1b76f11f7f.
//! A hall under construction.

use crate::kit::alloc::Global;
use crate::proved::model_asked::config::Config;
use crate::proved::model_asked::event::Event;
use crate::proved::model_asked::reply::Reply;
use crate::proved::model_steps::view::View;
use crate::proved::service_hall::hall::Hall;
use crate::proved::service_hall::slots_copy::SlotsCopy;
use crate::proved::service_hall::stuck::Stuck;

/// A hall, with a copy of its pool and slots.
pub(crate) struct Rebuilding {
    pub(crate) hall: Hall,
    pub(crate) slots: SlotsCopy,
    view: View,
}

impl Rebuilding {
    /// Makes a hall of this config with no event.
    pub(crate) fn new(alloc: Global, config: Config) -> Result<Rebuilding, Stuck> {
        Ok(Rebuilding {
            hall: Hall::new(alloc, config)?,
            slots: SlotsCopy::new(alloc, config.world.most_numbers(), config.k)?,
            view: View::new(),
        })
    }

    /// Applies an event, and returns the reply. The error is `Stuck` if the hall refuses it.
    pub(crate) fn take(&mut self, event: Event) -> Result<Reply<()>, Stuck> {
        let reply = self.hall.apply_short(event, &mut self.view);
        if reply.is_refusal() {
            return Err(Stuck);
        }
        self.slots.follow(event)?;
        Ok(reply)
    }
}
