// Erased by bindings/rust/erase from crates/model_asked/src/kind.rt, sha256 cae57617c262323c10983aec65399cf0e3bfbe388072a4c14c303d18dab03cbd.
//! The worlds.

/// The worlds, as the help of a command line lists them.
pub const ANY_WORLD: &str = "what is played: splitter, grid, rename or tree";

/// The worlds that commands are played in.
#[derive(Clone, Copy, Debug, PartialEq, Eq)]
pub enum WorldKind {
    /// One splitter, which each participant visits once.
    Splitter,
    /// A triangular grid of splitters, in which each participant gets a place.
    Grid,
    /// Renaming over the places of a triangular grid.
    Rename,
    /// Renaming over the places of a tree of splitters, which grows on demand.
    Tree,
    /// Renaming as in `Rename`, beside a pool of many numbers. Servers alone play it.
    Wide,
}

impl WorldKind {
    /// Returns all of them.
    pub fn all() -> [WorldKind; 5] {
        [
            WorldKind::Splitter,
            WorldKind::Grid,
            WorldKind::Rename,
            WorldKind::Tree,
            WorldKind::Wide,
        ]
    }

    /// Returns its name, in the command line and in records: at most 8 letters.
    pub fn name(self) -> &'static str {
        match self {
            WorldKind::Splitter => "splitter",
            WorldKind::Grid => "grid",
            WorldKind::Rename => "rename",
            WorldKind::Tree => "tree",
            WorldKind::Wide => "wide",
        }
    }

    /// Returns the world with this name, or `None` if no world has it.
    pub fn named(word: &str) -> Option<WorldKind> {
        if word == WorldKind::Splitter.name() {
            Some(WorldKind::Splitter)
        } else if word == WorldKind::Grid.name() {
            Some(WorldKind::Grid)
        } else if word == WorldKind::Rename.name() {
            Some(WorldKind::Rename)
        } else if word == WorldKind::Tree.name() {
            Some(WorldKind::Tree)
        } else if word == WorldKind::Wide.name() {
            Some(WorldKind::Wide)
        } else {
            None
        }
    }

    /// Whether its participants get their places in a tree, which grows on demand.
    pub fn is_tree(self) -> bool {
        match self {
            WorldKind::Splitter => false,
            WorldKind::Grid => false,
            WorldKind::Rename => false,
            WorldKind::Tree => true,
            WorldKind::Wide => false,
        }
    }

    /// Whether it gives names, over the places of a grid or of a tree.
    #[inline(always)]
    pub fn gives_names(self) -> bool {
        match self {
            WorldKind::Splitter => false,
            WorldKind::Grid => false,
            WorldKind::Rename => true,
            WorldKind::Tree => true,
            WorldKind::Wide => true,
        }
    }

    /// Returns the most participants: 64 over a tree, 16 otherwise.
    pub fn most(self) -> u64 {
        match self {
            WorldKind::Splitter => 16,
            WorldKind::Grid => 16,
            WorldKind::Rename => 16,
            WorldKind::Tree => 64,
            WorldKind::Wide => 16,
        }
    }

    /// Returns the most numbers of its pool: 65,536 in the wide world, 64 otherwise.
    pub fn most_numbers(self) -> u64 {
        match self {
            WorldKind::Splitter => 64,
            WorldKind::Grid => 64,
            WorldKind::Rename => 64,
            WorldKind::Tree => 64,
            WorldKind::Wide => 65_536,
        }
    }

    /// Whether its pool may have many numbers, and `seek` is known.
    #[inline(always)]
    pub fn is_wide(self) -> bool {
        match self {
            WorldKind::Splitter => false,
            WorldKind::Grid => false,
            WorldKind::Rename => false,
            WorldKind::Tree => false,
            WorldKind::Wide => true,
        }
    }

    /// Whether it gives names over places that serve the world `served`.
    pub fn is_played_over(self, served: WorldKind) -> bool {
        self.gives_names() && self.is_tree() == served.is_tree()
    }
}
