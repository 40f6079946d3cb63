// Erased by bindings/rust/erase from crates/model_snapshot/src/sightings.rt, sha256 052362eaa0f1f1130632375c095abbe19c4f38b27e3fd3b7dc163d55c920ab4d.
//! What a scan keeps of the segments that it met.

use crate::proved::model_steps::place::Place;
use crate::proved::model_steps::record::Record;
use crate::proved::model_steps::view::View;

/// What a collect keeps of the record of a segment: its identity, value and sequence number.
#[derive(Clone, Copy, Debug)]
pub struct Met {
    /// The identity that wrote the record.
    pub identity: u64,
    /// The value that it wrote.
    pub value: u64,
    /// The sequence number of the write in its segment, from 1.
    pub number: u32,
}

impl Met {
    /// Returns what a collect keeps of this record.
    pub fn of(found: &Record) -> Self {
        Met {
            identity: found.identity,
            value: found.value,
            number: found.number,
        }
    }
}

/// What a scan knows of the segment at a place.
#[derive(Clone, Copy, Debug)]
pub struct Sighting {
    /// The place of the segment.
    pub place: Place,
    /// The sequence number in the collect before, or 0 if the segment was empty or not reached.
    pub before: u32,
    /// What the present collect met, or `None` if the segment was empty or is not reached.
    pub now: Option<Met>,
    /// Whether the scan has seen the segment change.
    pub changed: bool,
}

impl Sighting {
    /// Returns what a scan knows of a segment that it has not met.
    fn unknown(place: Place) -> Self {
        Sighting {
            place,
            before: 0,
            now: None,
            changed: false,
        }
    }

    /// Goes on to the next collect: the present one becomes the collect before.
    fn carry_over(&mut self) {
        self.before = match self.now {
            Some(met) => met.number,
            None => 0,
        };
        self.now = None;
    }
}

/// What a scan knows of at most 64 segments, each at most once. They are stored in the value itself, without
/// allocation.
#[derive(Debug)]
pub struct Sightings {
    entries: [Sighting; 64],
    len: usize,
    // The index at which `find` looks first. It is after the entry that was put last, since each collect meets the
    // segments in one order.
    next: usize,
}

/// Returns the index of the segment at a place.
fn find(entries: &[Sighting], place: Place) -> Option<usize> {
    for (i, entry) in entries.iter().enumerate() {
        if entry.place == place {
            return Some(i);
        }
    }
    None
}

/// Takes every entry into the next collect.
fn carry_over_all(entries: &mut [Sighting]) {
    for entry in entries.iter_mut() {
        entry.carry_over();
    }
}

/// Puts what was met of a segment into a view.
fn show(view: &mut View, met: Option<Met>) {
    if let Some(met) = met {
        view.insert(met.identity, met.value);
    }
}

impl Sightings {
    /// Makes sightings of no segment. Each segment counts as empty and unchanged.
    pub fn new() -> Self {
        Sightings {
            entries: [Sighting::unknown(0); 64],
            len: 0,
            next: 0,
        }
    }

    /// Returns the index of the segment at a place, for `get` and `put`, or `None` if nothing is known of it.
    pub fn find(&self, place: Place) -> Option<usize> {
        if self.next < self.len && self.entries[self.next].place == place {
            return Some(self.next);
        }
        find(&self.entries[..self.len], place)
    }

    /// Returns what is known of the segment at a place, where `at` is what `find` returns for it.
    pub fn get(&self, place: Place, at: Option<usize>) -> Sighting {
        match at {
            Some(i) => self.entries[i],
            None => Sighting::unknown(place),
        }
    }

    /// Puts this in place of what was known of its segment, where `at` is what `find` returns for it. A 65th segment is
    /// left out.
    pub fn put(&mut self, at: Option<usize>, sighting: Sighting) {
        match at {
            Some(i) => {
                self.entries[i] = sighting;
                self.next = i + 1;
            }
            None => {
                if self.len < 64 {
                    self.entries[self.len] = sighting;
                    self.len += 1;
                    self.next = self.len;
                }
            }
        }
    }

    /// Removes all that is known.
    pub fn clear(&mut self) {
        self.len = 0;
        self.next = 0;
    }

    /// Returns the view that the present collect met.
    pub fn view(&self) -> View {
        let mut view = View::new();
        for entry in &self.entries[..self.len] {
            show(&mut view, entry.now);
        }
        view
    }

    /// Goes on to the next collect: the present one becomes the collect before.
    pub fn carry_over(&mut self) {
        carry_over_all(&mut self.entries[..self.len]);
        self.next = 0;
    }
}
