// Erased by bindings/rust/erase from crates/model_steps/src/world.rt, sha256 b826a23e07016f6d4081a9bd271a8544dcbaa439da98f05fbfa423b80162befb.
//! Participants that take steps on one memory.

use crate::kit::alloc::Allocator;
use crate::kit::Vec;
use crate::proved::model_steps::hints::Hints;
use crate::proved::model_steps::memory::StepMemory;
use crate::proved::model_steps::note::Note;
use crate::proved::model_steps::participant::Participant;
use crate::proved::model_steps::program::{Request, StepProgram};
use crate::proved::model_steps::refusal::{NoMemory, Refusal};
use crate::proved::model_steps::shortcut::Shortcut;

/// A memory, and the participants that take steps on it, each in its own program.
pub struct World<P, S, A: Allocator> {
    memory: S,
    most: usize,
    participants: Vec<Participant<P>, A>,
    hints: Hints,
}

impl<P, S, A: Allocator> World<P, S, A> {
    /// Whether an identity has begun.
    fn has_begun(&self, id: u64) -> bool {
        self.hints.find(&self.participants, id).is_some()
    }

    /// Returns the error that `begin` would return, or `None` if it would succeed.
    pub fn begin_refusal(&self, id: u64) -> Option<Refusal> {
        if id == 0 {
            Some(Refusal::ZeroIdentity)
        } else if self.has_begun(id) {
            Some(Refusal::AlreadyBegun)
        } else if self.most <= self.participants.len() {
            Some(Refusal::Full)
        } else {
            None
        }
    }

    /// Returns the program of a participant, or `None` if the identity has not begun.
    pub fn program(&self, id: u64) -> Option<&P> {
        let Some(i) = self.hints.find(&self.participants, id) else {
            return None;
        };
        Some(&self.participants[i].program)
    }

    /// Returns the most participants of this world.
    pub fn most(&self) -> usize {
        self.most
    }

    /// Returns the memory, for observers of the world.
    pub fn memory(&self) -> &S {
        &self.memory
    }

    /// Returns the participants, in the order in which they began.
    pub fn participants(&self) -> &[Participant<P>] {
        &self.participants
    }

    /// Makes a request of a participant's program, in place and with no access. The participant has then not ended.
    ///
    /// # Errors
    ///
    /// `NotBegun`: `id` has not begun. Nothing has changed.
    pub fn ask<Q: Request<P>>(&mut self, id: u64, request: Q) -> Result<(), Refusal> {
        let Some(i) = self.hints.find(&self.participants, id) else {
            return Err(Refusal::NotBegun);
        };
        self.participants[i].ask(request);
        Ok(())
    }
}

impl<P, S, A: Allocator> World<P, S, A> {
    /// Adds participant `id`, at the start of its program. This makes no access.
    ///
    /// # Errors
    ///
    /// An error changes nothing. The first that applies is returned:
    ///
    /// - `ZeroIdentity`: `id` is 0.
    /// - `AlreadyBegun`: `id` has begun.
    /// - `Full`: as many participants as the world takes have begun.
    pub fn begin(&mut self, id: u64, program: P) -> Result<(), Refusal> {
        if let Some(refusal) = self.begin_refusal(id) {
            return Err(refusal);
        }
        self.hints.note(id, self.participants.len());
        self.participants.push_reserved(Participant {
            identity: id,
            program,
            ended: false,
        });
        Ok(())
    }
}

impl<P: StepProgram, S: StepMemory<Reg = P::Reg, Value = P::Value>, A: Allocator> World<P, S, A> {
    /// Makes a world with no participant, and allocates room for `most`.
    ///
    /// # Errors
    ///
    /// `NoMemory`: the allocation failed.
    pub fn new(alloc: A, memory: S, most: usize) -> Result<Self, NoMemory> {
        match Vec::with_capacity(alloc, most) {
            Ok(participants) => Ok(World {
                memory,
                most,
                participants,
                hints: Hints::new(),
            }),
            Err(_) => Err(NoMemory),
        }
    }

    /// Makes one step of participant `id`: the one access that its program names. The program takes the answer.
    ///
    /// # Errors
    ///
    /// An error changes nothing. The first that applies is returned:
    ///
    /// - `NotBegun`: `id` has not begun.
    /// - `Finished`: the program of `id` has ended.
    /// - `NoMemory`: the access needed memory and the allocation failed. The caller may repeat the step.
    pub fn step(&mut self, id: u64) -> Result<Note<P::Output>, Refusal> {
        let Some(i) = self.hints.find(&self.participants, id) else {
            return Err(Refusal::NotBegun);
        };
        let participant = &self.participants[i];
        if participant.ended {
            return Err(Refusal::Finished);
        }
        let Ok(got) = self.memory.access(participant.program.next()) else {
            return Err(Refusal::NoMemory);
        };
        Ok(self.participants[i].resume(got))
    }

    /// Makes one step of participant `id` without a copy, if it is a read after which the program goes on with no
    /// output.
    ///
    /// Returns whether it did. If not, nothing has changed, and `step` makes the step or returns its error.
    pub fn read_on(&mut self, id: u64) -> bool {
        let Some(i) = self.hints.find(&self.participants, id) else {
            return false;
        };
        let reader = &self.participants[i];
        if reader.ended {
            return false;
        }
        let Some(register) = reader.program.reads() else {
            return false;
        };
        let Some(value) = self.memory.look(&register) else {
            return false;
        };
        self.participants[i].read_on(value)
    }

    /// Makes one step of participant `id` by the shortcut `Q`, and returns what the shortcut reports. Nothing is
    /// copied.
    ///
    /// Returns `None` if the shortcut does not take this step. Nothing has then changed, and `step` makes it or returns
    /// its error.
    ///
    /// # Errors
    ///
    /// `NoMemory`: the access needed memory and the allocation failed. Nothing has changed, and the caller may repeat
    /// the step.
    pub fn take<Q: Shortcut<P, S>>(&mut self, id: u64) -> Result<Option<Q::Reported>, NoMemory> {
        let Some(i) = self.hints.find(&self.participants, id) else {
            return Ok(None);
        };
        let walker = &self.participants[i];
        if walker.ended {
            return Ok(None);
        }
        self.participants[i].take::<Q, S>(&mut self.memory)
    }
}
