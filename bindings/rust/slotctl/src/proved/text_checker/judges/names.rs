// Erased by bindings/rust/erase from crates/text_checker/src/judges/names.rt, sha256 de7498ee4281037e6675c0b53d74cb434311b7a35ef722295215dadd12b0396a.
//! The state of the renaming object.

use crate::kit::alloc::{AllocError, Global};
use crate::proved::model_steps::participant::Participant;
use crate::proved::model_steps::place::Place;
use crate::proved::model_steps::refusal::Refusal;
use crate::proved::text_checker::judges::moments::{
    is_crowded, with_number, Moments, Row, NUMBERS,
};
use crate::proved::text_checker::judges::people::People;
use crate::proved::text_checker::judges::standing::{Standing, Turn};
use crate::proved::text_records::pairs::Pairs;

/// The state of the renaming object: the participants that have begun, what they have, and the moments.
pub struct Names {
    participants: People<Standing>,
    moments: Moments,
    most: u64,
    limit: u64,
}

/// Whether this is the place that is held.
fn is_place(held: Option<Place>, place: Place) -> bool {
    held == Some(place)
}

/// Whether this is the number that is held.
pub fn is_number(held: Option<u64>, number: u64) -> bool {
    held == Some(number)
}

/// Whether a participant has this place.
fn is_given(participants: &[Participant<Standing>], place: Place) -> bool {
    participants
        .iter()
        .any(|participant| is_place(participant.program.place, place))
}

/// Whether a participant has this name.
fn is_named(participants: &[Participant<Standing>], name: u64) -> bool {
    participants
        .iter()
        .any(|participant| is_number(participant.program.name, name))
}

/// Whether the identity of each pair is above `id`, if the pairs rise.
fn is_above(id: u64, pairs: &[(u64, u64)]) -> bool {
    match pairs {
        [] => true,
        [first, ..] => id < first.0,
    }
}

/// Whether the identities rise strictly.
fn is_rising(pairs: &[(u64, u64)]) -> bool {
    for i in 0..pairs.len() {
        if !is_above(pairs[i].0, &pairs[i + 1..]) {
            return false;
        }
    }
    true
}

impl Names {
    /// Makes the state in which none has begun, with room for the moments of `lines` lines.
    ///
    /// # Errors
    ///
    /// `AllocError`: the allocation failed.
    pub fn new(alloc: Global, most: u64, limit: u64, lines: usize) -> Result<Names, AllocError> {
        let proposals = most.saturating_mul(limit);
        let room = (lines as u64).min(proposals) as usize;
        Ok(Names {
            moments: Moments::new(alloc, room)?,
            participants: People::new(alloc),
            most,
            limit,
        })
    }

    /// Returns the error that `begin` of an identity must return, or `None`.
    pub fn begin_refusal(&self, id: u64) -> Option<Refusal> {
        self.participants
            .entry_refusal(id, self.most, Refusal::AlreadyBegun, Refusal::Full)
    }

    /// Returns the error that a step of an identity must return, failed allocations aside, or `None`.
    pub fn step_refusal(&self, id: u64) -> Option<Refusal> {
        let Some(standing) = self.participants.find(id) else {
            return Some(Refusal::NotBegun);
        };
        if standing.name.is_some() {
            Some(Refusal::Finished)
        } else if standing.spent {
            Some(Refusal::Spent)
        } else {
            None
        }
    }

    /// Records that an identity, which may begin, begins.
    ///
    /// # Errors
    ///
    /// `AllocError`: the allocation failed.
    pub fn begin(&mut self, id: u64) -> Result<(), AllocError> {
        let turn = Turn {
            seat: self.participants.count(),
            count: 0,
            since: 0,
            number: 0,
        };
        let program = Standing {
            place: None,
            name: None,
            spent: false,
            turn,
        };
        self.participants.push(id, program)
    }

    /// Gives a place to an identity that may step, and returns whether it may have it. If not, nothing changes.
    pub fn place(&mut self, id: u64, place: Place) -> bool {
        let Some(standing) = self.participants.find(id) else {
            return false;
        };
        if standing.place.is_some() {
            return false;
        }
        if is_given(self.participants.list(), place) {
            return false;
        }
        let placed = Standing {
            place: Some(place),
            ..standing
        };
        self.participants.put(id, placed);
        true
    }

    /// Whether an identity has proposed and has proposals left.
    pub fn has_turns(&self, id: u64) -> bool {
        match self.participants.find(id) {
            Some(standing) => 1 <= standing.turn.count && standing.turn.count < self.limit,
            None => false,
        }
    }

    /// Whether an identity that has begun has made its last proposal.
    pub fn is_last_turn(&self, id: u64) -> bool {
        match self.participants.find(id) {
            Some(standing) => standing.turn.count == self.limit,
            None => false,
        }
    }

    /// Whether an identity that may step may propose a number.
    pub fn may_propose(&self, id: u64, number: u64) -> bool {
        let Some(standing) = self.participants.find(id) else {
            return false;
        };
        let many = self.participants.count();
        1 <= number && number < 2 * many as u64 && standing.turn.count < self.limit
    }

    /// Records that an identity proposes a number that it may propose.
    ///
    /// # Errors
    ///
    /// `AllocError`: the allocation failed. The state is then of no use.
    pub fn propose(&mut self, id: u64, number: u64) -> Result<(), AllocError> {
        let Some(standing) = self.participants.find(id) else {
            return Ok(());
        };
        let turn = standing.turn;
        let number = number.min(255) as u8;
        self.moments.propose(turn.seat, number)?;
        let next = Turn {
            seat: turn.seat,
            count: turn.count.saturating_add(1),
            since: self.moments.last(),
            number,
        };
        let proposed = Standing {
            turn: next,
            ..standing
        };
        self.participants.put(id, proposed);
        Ok(())
    }

    /// Whether another identity proposes the same in some moment since the last proposal of an identity that has made
    /// one.
    pub fn has_conflict(&self, id: u64) -> bool {
        match self.participants.find(id) {
            Some(standing) => self
                .moments
                .was_crowded(standing.turn.since, standing.turn.number),
            None => false,
        }
    }

    /// Records that an identity, which may step, is spent.
    pub fn spend(&mut self, id: u64) {
        let Some(standing) = self.participants.find(id) else {
            return;
        };
        let spent = Standing {
            spent: true,
            ..standing
        };
        self.participants.put(id, spent);
    }

    /// Gives a name to an identity that may step.
    pub fn name(&mut self, id: u64, name: u64) {
        let Some(standing) = self.participants.find(id) else {
            return;
        };
        let named = Standing {
            name: Some(name),
            ..standing
        };
        self.participants.put(id, named);
    }

    /// The seat of an identity that has begun, if the number is one that may be proposed.
    fn seat_for(&self, id: u64, number: u64) -> Option<usize> {
        let standing = self.participants.find(id)?;
        if number < 1 || NUMBERS as u64 <= number {
            return None;
        }
        Some(standing.turn.seat)
    }

    /// The row of a view whose identities rise.
    fn row_of(&self, view: &[(u64, u64)]) -> Option<Row> {
        let mut row: Row = [0; 64];
        let mut i = view.len();
        while i > 0 {
            i -= 1;
            let (id, number) = view[i];
            let Some(seat) = self.seat_for(id, number) else {
                return None;
            };
            row = with_number(&row, seat, number.min(255) as u8);
        }
        Some(row)
    }

    /// The row of a view, if it is a moment from `since` on.
    fn row_since(&self, since: usize, view: &[(u64, u64)]) -> Option<Row> {
        if !is_rising(view) {
            return None;
        }
        let row = self.row_of(view)?;
        if !self.moments.has_shown(since, &row) {
            return None;
        }
        Some(row)
    }

    /// Whether a view is a moment since the last proposal of an identity that has made one, and another proposes the
    /// same in it.
    pub fn shows_conflict(&self, id: u64, view: &[(u64, u64)]) -> bool {
        let Some(standing) = self.participants.find(id) else {
            return false;
        };
        let turn = standing.turn;
        match self.row_since(turn.since, view) {
            Some(row) => is_crowded(&row, turn.number),
            None => false,
        }
    }

    /// Whether a view is a moment since the last proposal of an identity that has made one, and it alone proposes this
    /// number in it.
    fn shows_sole(&self, id: u64, number: u64, view: &[(u64, u64)]) -> bool {
        let Some(standing) = self.participants.find(id) else {
            return false;
        };
        let turn = standing.turn;
        if u64::from(turn.number) != number {
            return false;
        }
        match self.row_since(turn.since, view) {
            Some(row) => !is_crowded(&row, turn.number),
            None => false,
        }
    }

    /// Whether an identity that may step may be given a name, by the view `shown` if there is one.
    pub fn may_name(&self, id: u64, name: u64, shown: Option<&Pairs>) -> bool {
        let Some(standing) = self.participants.find(id) else {
            return false;
        };
        let turn = standing.turn;
        let many = self.participants.count() as u64;
        if turn.count < 1 || u64::from(turn.number) != name || 2 * many <= name {
            return false;
        }
        if is_named(self.participants.list(), name) {
            return false;
        }
        match shown {
            Some(view) => self.shows_sole(id, name, view.as_slice()),
            None => self.moments.was_quiet(turn.since, turn.number),
        }
    }
}
