// Erased by bindings/rust/erase from crates/model_splitter/src/tree/walker.rt, sha256 6c998367ad21fee0a26b4574eb2b7660f7b9b7012b3ff45eca77ee14c19f7b67.
//! A walk from node to node.

use crate::proved::model_splitter::tree::register::{TreeRegister, TreeValue, MARKED, ROOT};
use crate::proved::model_splitter::visitor::Visitor;
use crate::proved::model_splitter::way::Way;
use crate::proved::model_steps::access::{Access, Answer};
use crate::proved::model_steps::note::Note;
use crate::proved::model_steps::place::Place;
use crate::proved::model_steps::program::StepProgram;

/// The child that down leads to. A number that does not fit, which no tree reaches, is the greatest.
fn left_child(place: Place) -> Place {
    place.saturating_mul(2)
}

/// The child that right leads to.
fn right_child(place: Place) -> Place {
    left_child(place).saturating_add(1)
}

/// The same access, on registers that may hold segments too.
fn in_words(access: Access<TreeRegister, u64>) -> Access<TreeRegister, TreeValue> {
    match access {
        Access::Read(register) => Access::Read(register),
        Access::Write(register, word) => Access::Write(register, TreeValue::Word(word)),
        Access::TestAndSet(register) => Access::TestAndSet(register),
        Access::Clear(register) => Access::Clear(register),
        Access::Nothing => Access::Nothing,
    }
}

/// The part of an answer that a visit takes.
fn reported(got: Answer<TreeValue>) -> Answer<u64> {
    match got {
        Answer::Value(TreeValue::Word(word)) => Answer::Value(word),
        Answer::Value(TreeValue::Contents(_)) => Answer::Done,
        Answer::WasSet(was) => Answer::WasSet(was),
        Answer::Done => Answer::Done,
    }
}

/// A walk of one identity, which is not 0, down a tree of splitters (Moir and Anderson 1995) from its root.
///
/// At each node it first writes the mark, which makes the node if it does not exist, and then visits the node's
/// splitter. A visit that ends down leads to the left child, and one that ends right to the right child. If the visit
/// stops, the walk ends, and the node is the place of the identity. (The mark is this project's own.)
#[derive(Clone, Copy, Debug, PartialEq, Eq)]
pub struct Walker {
    /// Its visit to that node.
    pub visitor: Visitor<TreeRegister>,
    /// The number of the node that it visits, or visits next.
    pub place: Place,
    /// Whether the next access writes the mark.
    pub is_marking: bool,
}

impl Walker {
    /// Makes a walk that is at the root and has made no access.
    pub fn new(identity: u64) -> Walker {
        Walker::before(identity, ROOT)
    }

    /// A walk that has made no access to this node.
    fn before(identity: u64, place: Place) -> Walker {
        Walker {
            visitor: Visitor::new(identity, TreeRegister::X(place), TreeRegister::Y(place)),
            place,
            is_marking: true,
        }
    }

    /// Returns the place at which the walk has ended, or `None` if it goes on.
    pub fn place(&self) -> Option<Place> {
        self.visitor.stage.place_at(self.place)
    }

    /// Takes the answer to an access of the visit.
    pub(crate) fn resume_visit(&mut self, got: Answer<u64>) -> Note<Place> {
        match self.visitor.resume(got) {
            Note::Ended(Way::Stop) => Note::Ended(self.place),
            Note::Ended(Way::Right) => {
                *self = Walker::before(self.visitor.identity, right_child(self.place));
                Note::Quiet
            }
            Note::Ended(Way::Down) => {
                *self = Walker::before(self.visitor.identity, left_child(self.place));
                Note::Quiet
            }
            Note::Quiet | Note::Said(_) => Note::Quiet,
        }
    }
}

impl StepProgram for Walker {
    type Reg = TreeRegister;

    type Value = TreeValue;

    type Output = Place;

    fn next(&self) -> Access<TreeRegister, TreeValue> {
        if self.is_marking {
            Access::Write(TreeRegister::Mark(self.place), TreeValue::Word(MARKED))
        } else {
            in_words(self.visitor.next())
        }
    }

    fn resume(&mut self, got: Answer<TreeValue>) -> Note<Place> {
        if self.is_marking {
            self.is_marking = false;
            return Note::Quiet;
        }
        self.resume_visit(reported(got))
    }
}
