// Erased by bindings/rust/erase from crates/service_follow/src/keeping.rt, sha256 cb8a968ffafc9c0cb9da179c9d6cabfc893cc139c6b019f1c13dc33c00ce6910.
//! The front ends that keep stays in the pool, as a log tells.

use crate::kit::alloc::{AllocError, Global};
use crate::kit::Vec;
use crate::proved::model_asked::event::Event;
use crate::proved::service_follow::front_end_stay::{enters, leaves, FrontEndStay};
use crate::proved::service_follow::note::{Asked, Note};

/// The stays in the pool, each with the front end that keeps it, and how many entries were applied.
pub(crate) struct Keeping {
    pub(crate) kept: Vec<FrontEndStay>,
    pub(crate) entries: u64,
}

/// An entry of a front end was applied behind so many others.
fn hear_all(kept: &mut [FrontEndStay], token: &[u8; 32], place: u64) {
    for stay in kept.iter_mut() {
        stay.hear(token, place);
    }
}

impl Keeping {
    /// Makes one of a pool for which nobody competes, with no entry applied.
    pub(crate) fn new(alloc: Global) -> Keeping {
        Keeping {
            kept: Vec::new(alloc),
            entries: 0,
        }
    }

    // Removes the stay of an identity.
    fn forget(&mut self, id: u64) {
        self.kept.retain(|stay| stay.identity != id);
    }

    // Notes that an entry of this front end keeps the stay of an identity.
    fn keep(&mut self, token: &[u8; 32], id: u64) -> Result<(), AllocError> {
        self.forget(id);
        let stay = FrontEndStay {
            identity: id,
            token: *token,
            last: self.entries,
        };
        match self.kept.push(stay) {
            Ok(()) => Ok(()),
            Err(_) => Err(AllocError),
        }
    }

    // Notes what was said to a request of an entry of this front end.
    fn note(&mut self, token: &[u8; 32], note: &Note) -> Result<(), AllocError> {
        match note.asked() {
            Asked::ToTake(Event::Enter(id)) => {
                if enters(note.reply()) {
                    return self.keep(token, id);
                }
            }
            Asked::ToTake(Event::Leave(id)) => {
                if leaves(note.reply()) {
                    self.forget(id);
                }
            }
            Asked::ToTake(
                Event::Begin(_)
                | Event::Step(_)
                | Event::Probe(_)
                | Event::Seek(_)
                | Event::Put(_, _)
                | Event::Get(_)
                | Event::Widen(_),
            ) => {}
            Asked::ToTell(_) => {}
        }
        Ok(())
    }

    /// Notes an entry of this front end, and what was said to its requests.
    pub(crate) fn learn(&mut self, token: &[u8; 32], notes: &[Note]) -> Result<(), AllocError> {
        hear_all(&mut self.kept, token, self.entries);
        for note in notes {
            self.note(token, note)?;
        }
        self.entries = self.entries.wrapping_add(1);
        Ok(())
    }
}
