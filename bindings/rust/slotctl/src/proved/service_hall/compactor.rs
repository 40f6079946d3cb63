// Erased by bindings/rust/erase from crates/service_hall/src/compactor.rt, sha256 e9239233b8a6dab22afab00987d97642019a3445f6a2dbbd12defe8d3db09dca.
//! When a history is compacted.

use crate::kit::alloc::Global;
use crate::proved::service_hall::compacting::compacted;
use crate::proved::service_hall::hall::Hall;
use crate::proved::service_hall::hall::MOST_EVENTS;

/// The length of a history, in events, at which a compaction is due.
pub const DUE_EVENTS: usize = 900_000;

/// Compacts the history of one hall when it has grown long.
///
/// - The first compaction is due at more than 450,000 events, a later one at 900,000.
/// - After one that left more than 800,000 events, the next is due when half of the remaining room is used up.
/// - If this half is fewer than 10,000 events, none is due any more. The hall is then full of renaming.
pub struct Compactor {
    due: usize,
    /// Whether the result of the last compaction could not be stored.
    put_off: bool,
}

/// Returns the length of a history at which the next compaction is due, after one that left `left` events.
fn due_after(left: usize) -> usize {
    let room = MOST_EVENTS.saturating_sub(left) / 2;
    if room < 10_000 {
        return usize::MAX;
    }
    DUE_EVENTS.max(left.saturating_add(room))
}

impl Compactor {
    /// Makes a compactor for a hall that was just opened.
    pub fn new() -> Compactor {
        Compactor {
            due: DUE_EVENTS / 2 + 1,
            put_off: false,
        }
    }

    /// Returns true if and only if the hall's history is long enough for a compaction.
    pub fn is_due(&self, hall: &Hall) -> bool {
        self.due <= hall.len()
    }

    /// Records that the result of a compaction could not be stored. The next is due when another tenth of the room is
    /// used up, and not at each event.
    pub fn put_off(&mut self, hall: &Hall) {
        let room = MOST_EVENTS.saturating_sub(hall.len());
        self.due = hall.len().saturating_add(room / 10 + 1);
        self.put_off = true;
    }

    /// Returns true if and only if the result of the last compaction could not be stored.
    pub fn is_put_off(&self) -> bool {
        self.put_off
    }

    /// Returns what `compacted` makes of a hall, and sets when the next compaction is due.
    pub fn compacted(&mut self, alloc: Global, hall: &Hall) -> Option<Hall> {
        let new = compacted(alloc, hall);
        let left = match &new {
            Some(shorter) => shorter.len(),
            None => hall.len(),
        };
        self.due = due_after(left);
        self.put_off = false;
        new
    }
}
