// Erased by bindings/rust/erase from crates/model_renaming/src/world.rt, sha256 9fa1f8867422a2e264206bcd8e90cc2ae8a89279f5c228ed5f3de3499a16bf80.
//! A renaming world, taken step by step.

use crate::kit::alloc::{AllocError, Allocator};
use crate::kit::Clone;
use crate::kit::Vec;
use crate::proved::model_asked::config::Config;
use crate::proved::model_renaming::places::RenamePlaces;
use crate::proved::model_renaming::reply::Reply;
use crate::proved::model_renaming::round::{Round, Wish};
use crate::proved::model_renaming::step::{ask, take};
use crate::proved::model_snapshot::world::SnapWorld;
use crate::proved::model_steps::hints::Hints;
use crate::proved::model_steps::participant::Participant;
use crate::proved::model_steps::refusal::Refusal;
use crate::proved::model_steps::view::View;

/// Participants that get names in `1..=2b - 1` by rounds of proposals, where `b` have begun (Attiya et al. 1990).
pub struct RenameWorld<W: RenamePlaces<A>, A: Allocator> {
    snap: SnapWorld<W, A>,
    rounds: Vec<Participant<Round>, A>,
    hints: Hints,
    limit: u64,
}

/// Returns the index of the round of `id` if it may take a step, or the error of the step, failed allocations aside.
#[inline(always)]
fn open_round(hints: &Hints, rounds: &[Participant<Round>], id: u64) -> Result<usize, Refusal> {
    let Some(i) = hints.find(rounds, id) else {
        return Err(Refusal::NotBegun);
    };
    match rounds[i].program.stage.refusal() {
        None => Ok(i),
        Some(refusal) => Err(refusal),
    }
}

/// Returns the name that the round of an identity has ended with.
fn name_among(hints: &Hints, rounds: &[Participant<Round>], id: u64) -> Option<u64> {
    let Some(i) = hints.find(rounds, id) else {
        return None;
    };
    rounds[i].program.name()
}

/// Returns the identity whose round has ended with this name.
fn owner_among(rounds: &[Participant<Round>], number: u64) -> Option<u64> {
    for participant in rounds {
        if participant.program.has_name(number) {
            return Some(participant.identity);
        }
    }
    None
}

/// A vector with room for this many rounds.
fn room_for<A: Allocator + Clone>(
    alloc: &A,
    most: usize,
) -> Result<Vec<Participant<Round>, A>, AllocError> {
    match alloc.clone() {
        Ok(other) => Vec::with_capacity(other, most),
        Err(error) => Err(error),
    }
}

impl<W: RenamePlaces<A>, A: Allocator> RenameWorld<W, A> {
    /// Returns the snapshot object, for observers.
    pub fn snap(&self) -> &SnapWorld<W, A> {
        &self.snap
    }

    /// Returns the error that `step` would return, failed allocations aside, or `None`.
    pub fn step_refusal(&self, id: u64) -> Option<Refusal> {
        open_round(&self.hints, &self.rounds, id).err()
    }

    /// Returns the name of a participant, or `None` if it has none.
    pub fn name_of(&self, id: u64) -> Option<u64> {
        name_among(&self.hints, &self.rounds, id)
    }

    /// Returns the identity that has this name, or `None` if no identity has it.
    pub fn owner_of(&self, number: u64) -> Option<u64> {
        owner_among(&self.rounds, number)
    }

    /// Returns the most participants: at most 64, as many as a view has room for.
    pub fn most(&self) -> u64 {
        self.snap.most() as u64
    }

    /// Returns the error that `begin` would return, or `None` if it would succeed.
    pub fn begin_refusal(&self, id: u64) -> Option<Refusal> {
        self.snap.begin_refusal(id)
    }
}

impl<W: RenamePlaces<A>, A: Allocator> RenameWorld<W, A>
where
    W::Walker: Copy,
    W::Walk: Copy,
{
    /// Makes a step, and takes its reply.
    #[inline(always)]
    fn take_step(&mut self, id: u64, view: &mut View) -> Result<Reply<()>, Refusal> {
        match open_round(&self.hints, &self.rounds, id) {
            Ok(at) => take(&mut self.snap, &mut self.rounds[at], self.limit, view),
            Err(refusal) => Err(refusal),
        }
    }

    /// Makes one step as `step` does, and returns a reply of a few bytes. If the reply has a view, the view is put into
    /// `view`.
    ///
    /// # Errors
    ///
    /// Those of `step`, in that order.
    #[inline(always)]
    pub fn step_short(&mut self, id: u64, view: &mut View) -> Result<Reply<()>, Refusal> {
        self.take_step(id, view)
    }

    /// Adds a participant, and begins what it can do at once.
    fn take_begin(&mut self, id: u64) -> Result<(), Refusal> {
        self.snap.begin(id)?;
        let placed = self.snap.place_of(id).is_some();
        ask(&mut self.snap, id, Wish::first(placed));
        self.hints.note(id, self.rounds.len());
        self.rounds.push_reserved(Participant {
            identity: id,
            program: Round::first(placed),
            ended: false,
        });
        Ok(())
    }

    /// Adds participant `id`. This makes no access.
    ///
    /// # Errors
    ///
    /// An error changes nothing. The first that applies is returned:
    ///
    /// - `ZeroIdentity`: `id` is 0.
    /// - `AlreadyBegun`: `id` has begun.
    /// - `Full`: as many participants as the world takes have begun.
    pub fn begin(&mut self, id: u64) -> Result<(), Refusal> {
        self.take_begin(id)
    }
}

impl<W: RenamePlaces<A>, A: Allocator + Clone> RenameWorld<W, A>
where
    W::Walker: Copy,
    W::Walk: Copy,
{
    /// Makes a world in which no participant has begun. Over a grid and over segments in a row, no other call
    /// allocates. Over a tree, a step that makes a node does.
    ///
    /// # Errors
    ///
    /// The first that applies is returned:
    ///
    /// - `OutOfRange`: the world of `config` gives no names, or exactly one of it and these places is a tree.
    /// - `NoMemory`: an allocation failed.
    pub fn new(alloc: A, config: Config) -> Result<Self, Refusal> {
        if !config.world.is_played_over(W::world()) {
            return Err(Refusal::OutOfRange);
        }
        Self::with_room(alloc, config.m as usize, config.limit)
    }

    /// A snapshot object over places for `most` participants, in which none has begun; `NoMemory` if an allocation
    /// failed.
    fn empty_snap(alloc: A, most: usize) -> Result<SnapWorld<W, A>, Refusal> {
        let Ok(other) = alloc.clone() else {
            return Err(Refusal::NoMemory);
        };
        match W::empty(other, most) {
            Ok(places) => SnapWorld::new(alloc, places),
            Err(refusal) => Err(refusal),
        }
    }

    /// A world for `most` participants, in which none has begun; `NoMemory` if an allocation failed.
    fn with_room(alloc: A, most: usize, limit: u64) -> Result<Self, Refusal> {
        let Ok(rounds) = room_for(&alloc, most) else {
            return Err(Refusal::NoMemory);
        };
        match Self::empty_snap(alloc, most) {
            Ok(snap) => Ok(RenameWorld {
                snap,
                rounds,
                hints: Hints::new(),
                limit,
            }),
            Err(refusal) => Err(refusal),
        }
    }
}
