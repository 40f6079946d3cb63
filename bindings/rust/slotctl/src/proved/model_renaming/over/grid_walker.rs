// Erased by bindings/rust/erase from crates/model_renaming/src/over/grid_walker.rt, sha256 45093fa07542ed36cb7608672f39f6c88be23c75200c56db7d1479ea2143b034.
//! A way through the doors of a grid.

use crate::proved::model_renaming::over::grid_register::{GridRegister, GridValue};
use crate::proved::model_snapshot::places::PlaceWalker;
use crate::proved::model_splitter::grid::walker::Walker;
use crate::proved::model_steps::access::{Access, Answer};
use crate::proved::model_steps::note::Note;
use crate::proved::model_steps::place::Place;
use crate::proved::model_steps::program::StepProgram;

/// A walk through the doors of a grid, over the registers of a grid with segments (Moir and Anderson 1995).
#[derive(Clone, Copy, Debug, PartialEq, Eq)]
pub struct GridWalker {
    /// The walk, over the registers of the doors alone.
    pub walker: Walker,
}

impl StepProgram for GridWalker {
    type Reg = GridRegister;

    type Value = GridValue;

    type Output = Place;

    fn next(&self) -> Access<GridRegister, GridValue> {
        match self.walker.next() {
            Access::Read(r) => Access::Read(GridRegister::Door(r)),
            Access::Write(r, word) => Access::Write(GridRegister::Door(r), GridValue::Word(word)),
            Access::TestAndSet(r) => Access::TestAndSet(GridRegister::Door(r)),
            Access::Clear(r) => Access::Clear(GridRegister::Door(r)),
            Access::Nothing => Access::Nothing,
        }
    }

    fn resume(&mut self, got: Answer<GridValue>) -> Note<Place> {
        let word = match got {
            Answer::Value(GridValue::Word(word)) => Answer::Value(word),
            Answer::Value(GridValue::Contents(_)) => Answer::Done,
            Answer::WasSet(was) => Answer::WasSet(was),
            Answer::Done => Answer::Done,
        };
        self.walker.resume(word)
    }
}

impl PlaceWalker for GridWalker {
    fn place(&self) -> Option<Place> {
        self.walker.place()
    }
}
