// Erased by bindings/rust/erase from crates/model_splitter/src/grid/walker.rt, sha256 22fd84028405d4564dda6ce303e4cff5f368b1851cf3e4e7d727f0f768e2dc23.
//! A walk from door to door.

use crate::proved::model_splitter::grid::door::Door;
use crate::proved::model_splitter::visitor::Visitor;
use crate::proved::model_splitter::way::Way;
use crate::proved::model_steps::access::{Access, Answer};
use crate::proved::model_steps::note::Note;
use crate::proved::model_steps::place::Place;
use crate::proved::model_steps::program::StepProgram;

/// A walk of one identity, which is not 0, through a grid of splitters (Moir and Anderson 1995).
///
/// If the visit to a door ends right or down, the next step makes the first access to the next door that way. If the
/// visit stops, the walk ends, and the door is the place of the identity.
#[derive(Clone, Copy, Debug, PartialEq, Eq)]
pub struct Walker {
    /// Its visit to that door.
    pub visitor: Visitor<usize>,
    /// The door that it visits, or visits next.
    pub door: Door,
}

impl Walker {
    /// Makes a walk that has made no access to this door.
    pub fn new(identity: u64, door: Door) -> Walker {
        Walker {
            visitor: Visitor::new(identity, door.x(), door.y()),
            door,
        }
    }
}

impl StepProgram for Walker {
    type Reg = usize;

    type Value = u64;

    type Output = Place;

    fn next(&self) -> Access<usize, u64> {
        self.visitor.next()
    }

    #[inline(always)]
    fn resume(&mut self, got: Answer<u64>) -> Note<Place> {
        match self.visitor.resume(got) {
            Note::Ended(Way::Stop) => Note::Ended(Place::from(self.door.number())),
            Note::Ended(Way::Right) => {
                *self = Walker::new(self.visitor.identity, self.door.right());
                Note::Quiet
            }
            Note::Ended(Way::Down) => {
                *self = Walker::new(self.visitor.identity, self.door.down());
                Note::Quiet
            }
            Note::Quiet => Note::Quiet,
        }
    }
}
