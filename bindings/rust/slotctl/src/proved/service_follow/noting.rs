// Erased by bindings/rust/erase from crates/service_follow/src/noting.rt, sha256 1380a139edd581426fc3842c7b62bccdabb8272b2bed45c1a9fa28f42dadd4dc.
//! A hall of which each answer is noted.

use crate::kit::alloc::{AllocError, Global};
use crate::kit::Vec;
use crate::proved::model_asked::config::Config;
use crate::proved::model_asked::event::Event;
use crate::proved::model_asked::reply::Reply;
use crate::proved::model_steps::refusal::Refusal;
use crate::proved::model_steps::view::View;
use crate::proved::service_follow::note::{lacks_memory, Asked, Note};
use crate::proved::service_follow::reply_queue::ReplyQueue;
use crate::proved::service_hall::hall::Hall;
use crate::proved::service_hall::reads::Reads;
use crate::proved::service_hall::rules::Rules;
use crate::proved::text_player::service::Service;

/// A hall of which each answer is noted, until memory is refused.
pub(crate) struct Noting {
    alloc: Global,
    hall: Hall,
    notes: Vec<Note>,
    lost: bool,
    /// By which rules it is asked.
    rules: Rules,
}

impl Noting {
    /// A hall of this config with no event, of which nothing is noted.
    pub(crate) fn new(alloc: Global, config: Config) -> Result<Noting, Refusal> {
        let hall = Hall::new(alloc, config)?;
        Ok(Noting {
            alloc,
            hall,
            notes: Vec::new(alloc),
            lost: false,
            rules: Rules::all(Reads::Logged),
        })
    }

    /// The hall.
    pub(crate) fn hall(&self) -> &Hall {
        &self.hall
    }

    /// Nothing is noted so far, and it is asked by these rules from then on.
    pub(crate) fn begin(&mut self, rules: Rules) {
        self.notes.clear();
        self.lost = false;
        self.rules = rules;
    }

    /// Has a queue of replies say what was noted; an error where memory was refused.
    pub(crate) fn put_on(&mut self, reply_queue: &mut ReplyQueue) -> Result<(), AllocError> {
        if self.lost {
            return Err(AllocError);
        }
        reply_queue.take_notes(&mut self.notes);
        Ok(())
    }

    // Notes a request, and the reply to it with the view beside it.
    fn note(&mut self, asked: Asked, reply: Reply<()>, view: &View) {
        if self.lost || lacks_memory(reply) {
            self.lost = true;
            return;
        }
        let Ok(note) = Note::new(self.alloc, asked, reply, view) else {
            self.lost = true;
            return;
        };
        self.lost = self.notes.push(note).is_err();
    }
}

impl<R> Service<R> for Noting {
    fn apply(&mut self, _rt: &R, event: Event, view: &mut View) -> Reply<()> {
        let reply = self.hall.serve_short(self.rules, event, view);
        self.note(Asked::ToTake(event), reply, view);
        reply
    }

    fn owner(&mut self, _rt: &R, n: u64) -> Reply<View> {
        let mut view = View::new();
        let reply = self.hall.owner(n).shorten(&mut view);
        self.note(Asked::ToTell(n), reply, &view);
        reply.with(&view)
    }
}
