// Erased by bindings/rust/erase from crates/service_follow/src/reply_queue.rt, sha256 4e72eb9418cbbe6a53656460237c8b1ba96cfcc4729412e0db0bf302c6239211.
//! What was said to requests, and is said again.

use crate::kit::alloc::Global;
use crate::kit::Vec;
use crate::proved::model_asked::event::Event;
use crate::proved::model_asked::reply::Reply;
use crate::proved::model_steps::refusal::Refusal;
use crate::proved::model_steps::view::View;
use crate::proved::service_follow::note::{Asked, Note};
use crate::proved::text_player::service::Service;

/// What was said to requests, in order. As a service it says it again, to whoever asks the same in the same order. Where another request is
/// asked than the next, and only then, it is poisoned, and what it says then is to be sent to nobody. Contracts see the requests that are left, with what
/// was said to each.
pub struct ReplyQueue {
    notes: Vec<Note>,
    next: usize,
    poisoned: bool,
}

impl ReplyQueue {
    /// A queue of replies with nothing on it.
    pub fn new(alloc: Global) -> ReplyQueue {
        ReplyQueue {
            notes: Vec::new(alloc),
            next: 0,
            poisoned: false,
        }
    }

    /// Whether all that was on it was said again, to just those who asked for it.
    pub fn is_used_up(&self) -> bool {
        !self.poisoned && self.next >= self.notes.len()
    }

    /// Returns what it says from now on.
    pub(crate) fn notes(&self) -> &[Note] {
        if self.notes.len() < self.next {
            return &[];
        }
        &self.notes[self.next..]
    }

    /// Says nothing.
    pub fn clear(&mut self) {
        self.notes.clear();
        self.next = 0;
        self.poisoned = false;
    }

    /// Says what these notes say from now on, and gives what it had in place of them.
    pub(crate) fn take_notes(&mut self, notes: &mut Vec<Note>) {
        std::mem::swap(&mut self.notes, notes);
        self.next = 0;
        self.poisoned = false;
    }

    // Says what was said to the next request, if it is this one.
    fn say(&mut self, asked: Asked, view: &mut View) -> Reply<()> {
        let Some(note) = self.notes.get(self.next) else {
            self.poisoned = true;
            return Reply::Refused(Refusal::NoMemory);
        };
        if !note.is_of(asked) {
            self.poisoned = true;
            return Reply::Refused(Refusal::NoMemory);
        }
        self.next += 1;
        note.tell(view)
    }
}

impl<R> Service<R> for ReplyQueue {
    fn apply(&mut self, _rt: &R, event: Event, view: &mut View) -> Reply<()> {
        self.say(Asked::ToTake(event), view)
    }

    fn owner(&mut self, _rt: &R, n: u64) -> Reply<View> {
        let mut view = View::new();
        self.say(Asked::ToTell(n), &mut view).with(&view)
    }
}
