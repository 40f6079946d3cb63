// Erased by bindings/rust/erase from crates/service_follow/src/lasting.rt, sha256 4f4b8eb1233a62f0dd157248137c75434f3fe0262e24c5931a8e051fbefecff4.
//! How much of a history no compaction makes shorter.

use crate::proved::model_asked::event::Event;
use crate::proved::service_hall::hall::{Hall, MOST_EVENTS};

/// How many events of a history are of renaming, which no compaction makes fewer. It is told to people alone.
pub(crate) struct Lasting {
    /// How many events were looked at.
    seen: usize,
    /// How many of these were of renaming.
    renaming: usize,
    /// How many tenths of a history's room these take.
    tenths: u8,
}

impl Lasting {
    /// Nothing was looked at.
    pub(crate) fn new() -> Lasting {
        Lasting {
            seen: 0,
            renaming: 0,
            tenths: 0,
        }
    }

    /// Looks at the events that came since the last look. If the history is shorter than it was then, it looks at all of it.
    pub(crate) fn look(&mut self, hall: &Hall) {
        if hall.len() < self.seen {
            self.seen = 0;
            self.renaming = 0;
        }
        for at in self.seen..hall.len() {
            let Some(exchange) = hall.get(at) else {
                break;
            };
            if matches!(exchange.event, Event::Begin(_) | Event::Step(_)) {
                self.renaming = self.renaming.saturating_add(1);
            }
        }
        self.seen = hall.len();
        self.tenths = u8::try_from(self.renaming / (MOST_EVENTS / 10)).unwrap_or(u8::MAX);
    }

    /// How many tenths of a history's room they took at the last look.
    pub(crate) fn tenths(&self) -> u8 {
        self.tenths
    }
}
