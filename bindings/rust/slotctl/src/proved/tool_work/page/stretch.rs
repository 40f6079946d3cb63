// Erased by bindings/rust/erase from crates/tool_work/src/page/stretch.rt, sha256 f81265797c1989eecc592c43bc1a104504b039cada7dd4b1ad64498864fbb4c9.
//! Which events of a record a page shows.

/// Which events of a record a page shows, numbered from 1.
#[derive(Clone, Copy, Debug, PartialEq, Eq)]
pub struct Stretch {
    /// The number of the first. 0 means 1.
    pub from: u64,
    /// How many they are at most.
    pub count: u64,
}

impl Stretch {
    /// Returns whether the event with `before` events before it is the first that the stretch may have.
    pub fn begins_after(self, before: u64) -> bool {
        before == self.from.saturating_sub(1)
    }

    /// Returns whether the stretch has none of the first `seen` events.
    pub fn is_past(self, seen: u64) -> bool {
        seen <= self.from.saturating_sub(1)
    }

    /// Returns whether the stretch has the event with `before` events before it.
    pub fn has(self, before: u64) -> bool {
        let first = self.from.saturating_sub(1);
        first <= before && before - first < self.count
    }
}
