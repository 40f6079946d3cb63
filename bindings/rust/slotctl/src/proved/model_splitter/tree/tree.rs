// Erased by bindings/rust/erase from crates/model_splitter/src/tree/tree.rt, sha256 300f19b2fb1d8fa70e3e569a54b415a395e5e2c52625831c5dfff3ace5356fa0.
//! A tree of nodes as a memory.

use crate::kit::alloc::Allocator;
use crate::kit::collections::HashMap;
use crate::kit::hash::{BuildHasherDefault, FoldHasher};
use crate::kit::Clone;
use crate::proved::model_splitter::tree::node_registers::NodeRegisters;
use crate::proved::model_splitter::tree::register::{
    TreeRegister, TreeValue, WrittenValue, MARKED, ROOT,
};
use crate::proved::model_splitter::tree::walker::Walker;
use crate::proved::model_steps::access::{Access, Answer};
use crate::proved::model_steps::memory::StepMemory;
use crate::proved::model_steps::note::Note;
use crate::proved::model_steps::place::Place;
use crate::proved::model_steps::program::StepProgram;
use crate::proved::model_steps::refusal::NoMemory;

/// A tree of splitters as a memory: the nodes that were made, by their numbers. Contracts see a map from numbers to nodes.
pub struct Tree<A: Allocator> {
    nodes: HashMap<Place, NodeRegisters, BuildHasherDefault<FoldHasher>, A>,
    /// The value of a mark that is set, to be lent.
    set: TreeValue,
    /// The value of a mark that is not set.
    clear: TreeValue,
}

impl<A: Allocator> Tree<A> {
    /// Makes a tree with no node. This allocates nothing.
    pub fn new(alloc: A) -> Tree<A> {
        Tree {
            nodes: HashMap::new(alloc),
            set: TreeValue::Word(MARKED),
            clear: TreeValue::Word(0),
        }
    }

    /// Returns the registers of the node with this number, or `None` if it does not exist. This is no access: it is for
    /// observers.
    pub fn registers_at(&self, place: Place) -> Option<&NodeRegisters> {
        self.nodes.get(&place)
    }

    /// Returns the value of a register. This is no access: it is for observers.
    pub fn read(&self, register: TreeRegister) -> TreeValue {
        match self.registers_at(register.node()) {
            Some(registers) => registers.read(register),
            None => match register {
                TreeRegister::Mark(_) => TreeValue::Word(0),
                TreeRegister::X(_) => TreeValue::Word(0),
                TreeRegister::Y(_) => TreeValue::Word(0),
                TreeRegister::Contents(_) => TreeValue::Contents(None),
            },
        }
    }
}

impl<A: Allocator + Clone> Tree<A> {
    /// Whether a node may exist: it is the root, or its parent exists.
    fn may_have(&self, place: Place) -> bool {
        place == ROOT || self.registers_at(place / 2).is_some()
    }

    /// Makes a node that does not exist.
    ///
    /// # Errors
    ///
    /// `NoMemory`: the allocation failed. Nothing has changed.
    fn make(&mut self, place: Place) -> Result<(), NoMemory> {
        match self.nodes.insert(place, NodeRegisters::new()) {
            Ok(_) => Ok(()),
            Err(_) => Err(NoMemory),
        }
    }

    /// Writes into a register. A write that sets the mark of a node makes the node, if it is the root or its parent exists.
    ///
    /// # Errors
    ///
    /// `NoMemory`: the node would be made and the allocation failed. Nothing has changed.
    fn write(&mut self, register: TreeRegister, value: WrittenValue) -> Result<(), NoMemory> {
        let place = register.node();
        if let Some(registers) = self.nodes.get_mut(&place) {
            registers.write(register, value);
            return Ok(());
        }
        if !register.is_set_by(value) || !self.may_have(place) {
            return Ok(());
        }
        self.make(place)
    }

    /// Returns the word in a register of a node that exists.
    fn word(&self, register: TreeRegister) -> Option<u64> {
        match self.registers_at(register.node()) {
            Some(registers) => registers.word(register),
            None => None,
        }
    }

    /// Takes a step of a visit, as `walk_on` does.
    fn visit_on(&mut self, walker: &mut Walker) -> Result<Option<Note<Place>>, NoMemory> {
        match walker.visitor.next() {
            Access::Read(register) => match self.word(register) {
                Some(word) => Ok(Some(walker.resume_visit(Answer::Value(word)))),
                None => Ok(None),
            },
            Access::Write(register, word) => {
                let written = WrittenValue::Word(word);
                match self.write(register, written) {
                    Ok(()) => Ok(Some(walker.resume_visit(Answer::Done))),
                    Err(refused) => Err(refused),
                }
            }
            Access::TestAndSet(_) | Access::Clear(_) | Access::Nothing => Ok(None),
        }
    }

    /// Takes the next step of a walk in place, so that no segment is copied, and returns the walk's note.
    ///
    /// Returns `None` if it takes no such step. Nothing has then changed.
    ///
    /// # Errors
    ///
    /// `NoMemory`: the step makes a node and the allocation failed. Nothing has changed, and the step is still to be
    /// taken.
    pub fn walk_on(&mut self, walker: &mut Walker) -> Result<Option<Note<Place>>, NoMemory> {
        if !walker.is_marking {
            return self.visit_on(walker);
        }
        let mark = TreeRegister::Mark(walker.place);
        let marked = WrittenValue::Word(MARKED);
        match self.write(mark, marked) {
            Ok(()) => {
                walker.is_marking = false;
                Ok(Some(Note::Quiet))
            }
            Err(refused) => Err(refused),
        }
    }
}

impl<A: Allocator + Clone> StepMemory for Tree<A> {
    type Reg = TreeRegister;

    type Value = TreeValue;

    fn access(
        &mut self,
        a: Access<TreeRegister, TreeValue>,
    ) -> Result<Answer<TreeValue>, NoMemory> {
        Ok(match a {
            Access::Read(register) => Answer::Value(self.read(register)),
            Access::Write(register, value) => {
                self.write(register, value.to_write())?;
                Answer::Done
            }
            Access::TestAndSet(_) => Answer::WasSet(false),
            Access::Clear(_) => Answer::Done,
            Access::Nothing => Answer::Done,
        })
    }

    fn look(&self, register: &TreeRegister) -> Option<&TreeValue> {
        match (*register, self.registers_at(register.node())) {
            (TreeRegister::Mark(_), Some(_)) => Some(&self.set),
            (TreeRegister::Mark(_), None) => Some(&self.clear),
            (TreeRegister::Contents(_), Some(registers)) => Some(registers.segment.value()),
            _ => None,
        }
    }
}
