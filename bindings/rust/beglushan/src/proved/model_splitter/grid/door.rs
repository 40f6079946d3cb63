// Erased by bindings/rust/erase from crates/model_splitter/src/grid/door.rt, sha256 5949de0bdfe85372e9aca71b2b85474c2661167afa420c59f49b1c29d10167f0.
//! Where the doors of a grid lie, and how they are numbered.

/// A door of the grid, by its depth and its column. Its depth is the sum of its row and its column.
#[derive(Clone, Copy, Debug, PartialEq, Eq)]
pub struct Door {
    /// How many doors a walk has passed before it.
    pub depth: u8,
    /// How many of these it left down: at most the depth.
    pub column: u8,
}

impl Door {
    /// Returns the door at which every walk begins.
    pub fn corner() -> Door {
        Door {
            depth: 0,
            column: 0,
        }
    }

    /// Returns the number of the door. Numbers go from 0, diagonal by diagonal, and along each by rising column. (This
    /// order is this project's own.)
    pub fn number(self) -> u16 {
        u16::from(self.depth) * (u16::from(self.depth) + 1) / 2 + u16::from(self.column)
    }

    /// Returns the register of the door's X.
    pub fn x(self) -> usize {
        2 * usize::from(self.number())
    }

    /// Returns the register of the door's Y.
    pub fn y(self) -> usize {
        self.x() + 1
    }

    /// Returns the door to the right: the next row, the same column. A depth of 255, which no grid has, stays 255.
    pub fn right(self) -> Door {
        Door {
            depth: self.depth.saturating_add(1),
            column: self.column,
        }
    }

    /// Returns the door below: the same row, the next column. A depth of 255, which no grid has, stays 255.
    pub fn down(self) -> Door {
        Door {
            depth: self.depth.saturating_add(1),
            column: self.column.saturating_add(1),
        }
    }
}
