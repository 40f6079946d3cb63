// Erased by bindings/rust/erase from crates/service_follow/src/note.rt, sha256 1d0ac1b6f42c4e11ae2db59d80dfdc6a27240d18fdb2392b979e0b17c43521c7.
//! A request, with what was said to it.

use crate::kit::alloc::{AllocError, Global};
use crate::kit::Box;
use crate::proved::model_asked::event::Event;
use crate::proved::model_asked::reply::Reply;
use crate::proved::model_steps::refusal::Refusal;
use crate::proved::model_steps::view::View;

/// A request that was asked.
#[derive(Clone, Copy, Debug)]
pub enum Asked {
    /// To take an event.
    ToTake(Event),
    /// To tell who has the name of this number.
    ToTell(u64),
}

/// Whether a reply shows the view that stands beside it.
fn shows_view(reply: Reply<()>) -> bool {
    matches!(reply, Reply::Saw(()) | Reply::Named(_, ()))
}

/// Whether a reply says that memory was refused.
pub(crate) fn lacks_memory(reply: Reply<()>) -> bool {
    matches!(reply, Reply::Refused(Refusal::NoMemory))
}

/// The view that is kept of a reply: none where it shows none.
fn kept_view(
    alloc: Global,
    reply: Reply<()>,
    view: &View,
) -> Result<Option<Box<View>>, AllocError> {
    if !shows_view(reply) {
        return Ok(None);
    }
    Ok(Some(Box::new(alloc, *view)?))
}

/// A request that was asked, and what was said to it. A view takes a kilobyte, and is kept only where it is shown.
pub struct Note {
    asked: Asked,
    reply: Reply<()>,
    view: Option<Box<View>>,
}

impl Note {
    /// A note of a request, and of the reply to it, with the view beside it.
    ///
    /// # Errors
    ///
    /// `AllocError`: the allocation for the view failed.
    pub fn new(
        alloc: Global,
        asked: Asked,
        reply: Reply<()>,
        view: &View,
    ) -> Result<Note, AllocError> {
        let view = kept_view(alloc, reply, view)?;
        Ok(Note { asked, reply, view })
    }

    /// Whether it is of this request.
    pub fn is_of(&self, asked: Asked) -> bool {
        match (self.asked, asked) {
            (Asked::ToTake(event), Asked::ToTake(other)) => event == other,
            (Asked::ToTell(number), Asked::ToTell(other)) => number == other,
            _ => false,
        }
    }

    /// What was asked.
    pub(crate) fn asked(&self) -> Asked {
        self.asked
    }

    /// What was said, without the view that stands beside it.
    pub(crate) fn reply(&self) -> Reply<()> {
        self.reply
    }

    /// What was said, with the view beside it.
    pub fn tell(&self, view: &mut View) -> Reply<()> {
        match &self.view {
            Some(kept) => *view = **kept,
            None => *view = View::new(),
        }
        self.reply
    }
}
