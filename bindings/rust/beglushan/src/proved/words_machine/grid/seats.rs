// Erased by bindings/rust/erase from crates/words_machine/src/grid/seats.rt, sha256 922e82d99a5af8d923d1d20fe1c922490b9f820cf62ed880750ce9c4b4ade70c.
//! The seats of a grid, before they are dealt and before and after their walks, and claims of their places.

use crate::proved::model_splitter::grid::walker::Walker;
use crate::proved::model_steps::place::Place;

/// The seats of a grid that are not dealt yet, by rising number.
pub type GridDealer = crate::proved::words_machine::seats::Dealer<Walker>;

/// A seat that has not entered. `enter` takes it, so no seat enters twice.
pub type FreshGridSeat = crate::proved::words_machine::seats::FreshSeat<Walker>;

/// A seat that has entered, with the door at which its walk stopped.
pub struct EnteredGridSeat {
    pub(crate) seat: crate::proved::words_machine::seats::EnteredSeat<Walker>,
}

impl EnteredGridSeat {
    /// Returns its place: the number of the door at which the walk stopped. Numbers go from 0, diagonal by diagonal.
    ///
    /// Where `b` walks had begun when this one ended, the place is below `b(b + 1)/2` and the walk made at most `4b`
    /// accesses.
    pub fn place(&self) -> Place {
        Place::from(self.seat.end().door.number())
    }
}
