// Erased by bindings/rust/erase from crates/model_splitter/src/tree/node_registers.rt, sha256 bed1d8e2f8567c18778c153d190e397c1758fa3e416f9c4ab5278aeaffd34d2e.
//! What a node holds.

use crate::proved::model_splitter::tree::kept_segment::KeptSegment;
use crate::proved::model_splitter::tree::register::{
    TreeRegister, TreeValue, WrittenValue, MARKED,
};

/// The registers of a node: its splitter's X and Y, and its segment. Its mark is set as long as the node exists.
#[derive(Clone, Copy, Debug)]
pub struct NodeRegisters {
    /// X: 0 at first, then an identity.
    pub x: u64,
    /// Y: 0 at first, and 1 once it is set.
    pub y: u64,
    /// The segment of the participant whose place the node is.
    pub segment: KeptSegment,
}

impl NodeRegisters {
    /// Makes a splitter that no participant has entered, and an empty segment.
    pub fn new() -> NodeRegisters {
        NodeRegisters {
            x: 0,
            y: 0,
            segment: KeptSegment::of(None),
        }
    }

    /// Returns the value of a register of this node.
    pub fn read(&self, register: TreeRegister) -> TreeValue {
        match register {
            TreeRegister::Mark(_) => TreeValue::Word(MARKED),
            TreeRegister::X(_) => TreeValue::Word(self.x),
            TreeRegister::Y(_) => TreeValue::Word(self.y),
            TreeRegister::Contents(_) => *self.segment.value(),
        }
    }

    /// Returns the word in a register of this node, or `None` if the register is the segment.
    pub fn word(&self, register: TreeRegister) -> Option<u64> {
        match register {
            TreeRegister::Mark(_) => Some(MARKED),
            TreeRegister::X(_) => Some(self.x),
            TreeRegister::Y(_) => Some(self.y),
            TreeRegister::Contents(_) => None,
        }
    }

    /// Writes into a register of this node. A mark that is set stays set. A value of the wrong kind changes nothing.
    pub fn write(&mut self, register: TreeRegister, value: WrittenValue) {
        match (register, value) {
            (TreeRegister::X(_), WrittenValue::Word(word)) => self.x = word,
            (TreeRegister::Y(_), WrittenValue::Word(word)) => self.y = word,
            (TreeRegister::Contents(_), WrittenValue::Contents(segment)) => {
                self.segment = KeptSegment::of(*segment);
            }
            (TreeRegister::Mark(_), WrittenValue::Word(_)) => {}
            (TreeRegister::Mark(_), WrittenValue::Contents(_)) => {}
            (TreeRegister::X(_), WrittenValue::Contents(_)) => {}
            (TreeRegister::Y(_), WrittenValue::Contents(_)) => {}
            (TreeRegister::Contents(_), WrittenValue::Word(_)) => {}
        }
    }
}
