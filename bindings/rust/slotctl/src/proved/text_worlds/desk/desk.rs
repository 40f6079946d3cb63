// Erased by bindings/rust/erase from crates/text_worlds/src/desk/desk.rt, sha256 41a6ec7026cc9ba7c5a6a0a8fcef3ac5f82c73bbe617c1133998395d001620bc.
//! A desk of either world.

use crate::kit::alloc::Allocator;
use crate::kit::Clone;
use crate::proved::model_asked::config::Config;
use crate::proved::model_asked::event::Event;
use crate::proved::model_asked::reply::Reply;
use crate::proved::model_pool::slots::slots::Slots;
use crate::proved::model_renaming::over::grid::Grid;
use crate::proved::model_renaming::over::tree::TreePlaces;
use crate::proved::model_steps::place::Place;
use crate::proved::model_steps::refusal::Refusal;
use crate::proved::model_steps::view::View;
use crate::proved::text_worlds::desk::coming::{coming_in_grid, coming_in_tree, Coming, Register};
use crate::proved::text_worlds::desk::held::{
    held_by_grid, held_by_tree, register_in_grid, register_in_tree,
};
use crate::proved::text_worlds::desk::over::DeskOver;

/// A desk over a grid, or one over a tree.
enum Parts<G, T> {
    Grid(G),
    Tree(T),
}

/// One renaming world, over the places of a grid or of a tree, and slots over a pool.
pub struct Desk<A: Allocator + Clone> {
    parts: Parts<DeskOver<Grid<A>, A>, DeskOver<TreePlaces<A>, A>>,
}

impl<A: Allocator + Clone> Desk<A> {
    /// Makes a desk of this configuration, on which nothing was done; each slot holds 0.
    ///
    /// Over a grid, no other call allocates. Over a tree, a step that makes a node does.
    ///
    /// # Errors
    ///
    /// The first that applies is returned:
    ///
    /// - `OutOfRange`: the world of `config` gives no names.
    /// - `NoMemory`: an allocation failed.
    pub fn new(alloc: A, config: Config) -> Result<Self, Refusal> {
        if config.world.is_tree() {
            return match DeskOver::new(alloc, config) {
                Ok(desk) => Ok(Desk {
                    parts: Parts::Tree(desk),
                }),
                Err(why) => Err(why),
            };
        }
        match DeskOver::new(alloc, config) {
            Ok(desk) => Ok(Desk {
                parts: Parts::Grid(desk),
            }),
            Err(why) => Err(why),
        }
    }

    /// Takes one event, makes at most one access, and returns the reply.
    ///
    /// A reply `Refused` changes nothing. `Refused(NoMemory)` is returned only if the event is a step that makes a node
    /// of a tree, the allocation failed, and no other refusal applies. The caller may repeat the event.
    pub fn apply(&mut self, event: Event) -> Reply<View> {
        let mut view = View::new();
        self.apply_short(event, &mut view).with(&view)
    }

    /// Takes one event as `apply` does, and returns a reply of a few bytes. If the reply has a view, the view is put
    /// into `view`.
    #[inline(always)]
    pub fn apply_short(&mut self, event: Event, view: &mut View) -> Reply<()> {
        match &mut self.parts {
            Parts::Grid(desk) => desk.apply_short(event, view),
            Parts::Tree(desk) => desk.apply_short(event, view),
        }
    }

    /// Returns the refusal that `apply` would return for an event, failed allocations aside, or `None`.
    pub fn refusal(&self, event: Event) -> Option<Refusal> {
        match &self.parts {
            Parts::Grid(desk) => desk.refusal(event),
            Parts::Tree(desk) => desk.refusal(event),
        }
    }

    /// Returns the access that a participant makes next, or `None` if the identity has not begun. This makes no access.
    pub fn coming(&self, id: u64) -> Option<Coming> {
        match &self.parts {
            Parts::Grid(desk) => match desk.next_access(id) {
                Some(access) => Some(coming_in_grid(access)),
                None => None,
            },
            Parts::Tree(desk) => match desk.next_access(id) {
                Some(access) => Some(coming_in_tree(access)),
                None => None,
            },
        }
    }

    /// Returns what a register holds: the word of X, of Y or of a mark, or the proposal in a segment. This makes no
    /// access.
    ///
    /// Returns `None` if the segment is empty, or if a grid has no such register.
    pub fn held(&self, register: Register) -> Option<u64> {
        match &self.parts {
            Parts::Grid(desk) => match register_in_grid(register) {
                Some(register) => held_by_grid(desk.places().value(register)),
                None => None,
            },
            Parts::Tree(desk) => held_by_tree(desk.places().value(register_in_tree(register))),
        }
    }

    /// Returns the place of a participant, which is the number of its splitter, or `None` if it has none.
    pub fn place_of(&self, id: u64) -> Option<Place> {
        match &self.parts {
            Parts::Grid(desk) => desk.place_of(id),
            Parts::Tree(desk) => desk.place_of(id),
        }
    }

    /// Returns the name of a participant, or `None` if it has none.
    pub fn name_of(&self, id: u64) -> Option<u64> {
        match &self.parts {
            Parts::Grid(desk) => desk.name_of(id),
            Parts::Tree(desk) => desk.name_of(id),
        }
    }

    /// Returns the slots over their pool, for observers.
    pub fn slots(&self) -> &Slots<u64, A> {
        match &self.parts {
            Parts::Grid(desk) => &desk.slots,
            Parts::Tree(desk) => &desk.slots,
        }
    }

    /// Returns `Owner`, with the identity that has this name or with `None`, and changes nothing.
    ///
    /// Returns `Refused(OutOfRange)` if the number is not from 1 to `2m - 1`, for at most `m` participants.
    pub fn owner(&self, number: u64) -> Reply<View> {
        match &self.parts {
            Parts::Grid(desk) => desk.owner(number),
            Parts::Tree(desk) => desk.owner(number),
        }
    }
}
