// Erased by bindings/rust/erase from crates/model_snapshot/src/scan.rt, sha256 357f8a477ee3082390dcff247df019d5f85e46320a53bf2297f841d136a9c8b4.
//! A scan.

use crate::proved::model_snapshot::sightings::{Met, Sighting, Sightings};
use crate::proved::model_snapshot::walk::SegmentWalk;
use crate::proved::model_steps::place::Place;
use crate::proved::model_steps::record::Record;
use crate::proved::model_steps::view::View;

/// A scan under way, in the form of the unbounded snapshot (Afek et al. 1993).
///
/// Collects follow each other until the scan has a view:
///
/// - A collect shows no change since the one before. Its values are the view.
/// - A segment changes for the second time in this scan. Its record then has a view that was scanned within this scan.
#[derive(Debug)]
pub struct Scan<K> {
    /// The walk of the present collect.
    pub walk: K,
    /// Whether the present collect is the first. No collect is before it to compare with.
    pub is_first: bool,
    /// Whether the present collect differs from the one before.
    pub differs: bool,
    /// What the scan knows of each segment that it met.
    pub sightings: Sightings,
}

impl<K: SegmentWalk + Copy> Scan<K> {
    /// Makes a scan that has read nothing. Its first collect takes this walk.
    pub fn new(walk: K) -> Self {
        Scan {
            walk,
            is_first: true,
            differs: false,
            sightings: Sightings::new(),
        }
    }

    /// Makes this a scan that has read nothing. Its first collect takes this walk.
    pub fn restart(&mut self, walk: K) {
        self.walk = walk;
        self.is_first = true;
        self.differs = false;
        self.sightings.clear();
    }

    /// Notes a record that was read at a place. Returns false if the record shows the segment's second change: then
    /// nothing has changed.
    ///
    /// The scan compares each record as it meets it, and not all numbers at the end of a collect. Both give the same
    /// result. A segment that the collect before did not reach counts as number 0. One that it met was written before
    /// this collect began, so this collect meets it again.
    #[inline(never)]
    fn meet(&mut self, place: Place, found: &Record) -> bool {
        let at = self.sightings.find(place);
        let known = self.sightings.get(place, at);
        let differs = !self.is_first && known.before != found.number;
        if differs && known.changed {
            return false;
        }
        self.differs = self.differs || differs;
        let sighting = Sighting {
            place,
            before: known.before,
            now: Some(Met::of(found)),
            changed: known.changed || differs,
        };
        self.sightings.put(at, sighting);
        true
    }

    /// Notes the record that was read, if there is one. Returns false if it shows a second change: then nothing has
    /// changed.
    #[inline(always)]
    fn meet_read(&mut self, got: &K::Value) -> bool {
        let Some(place) = self.walk.place() else {
            return true;
        };
        let Some(found) = K::content(got) else {
            return true;
        };
        self.meet(place, found)
    }

    /// Begins another collect, which takes this walk. It is a function of its own, since few reads end a collect.
    #[inline(never)]
    fn begin_collect(&mut self, walk: K) {
        self.walk = walk;
        self.is_first = false;
        self.differs = false;
        self.sightings.carry_over();
    }

    /// Ends a collect. Returns its values if it equals the one before; otherwise another collect begins.
    fn end_collect(&mut self, walk: K) -> Option<View> {
        if !self.is_first && !self.differs {
            return Some(self.sightings.view());
        }
        self.begin_collect(walk);
        None
    }

    /// Takes the value that the walk read, and returns the view if the scan has ended. The next collect takes this
    /// walk.
    pub fn resume(&mut self, got: &K::Value, walk: K) -> Option<View> {
        if let Some(place) = self.walk.place() {
            if let Some(found) = K::content(got) {
                if !self.meet(place, found) {
                    return Some(found.view);
                }
            }
        }
        if self.walk.resume(got) {
            self.end_collect(walk)
        } else {
            None
        }
    }

    /// Takes the value that the walk read, without a copy, if the scan then goes on. The next collect takes this walk.
    ///
    /// Returns whether it did. If not, nothing has changed, and `resume` takes the value.
    #[inline(always)]
    pub fn read_on(&mut self, got: &K::Value, walk: K) -> bool {
        let mut next = self.walk;
        let over = next.resume(got);
        if over && !self.is_first && !self.differs {
            return false;
        }
        if !self.meet_read(got) {
            return false;
        }
        self.walk = next;
        if !over {
            return true;
        }
        self.begin_collect(walk);
        true
    }
}
