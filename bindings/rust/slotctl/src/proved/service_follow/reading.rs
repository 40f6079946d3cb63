// Erased by bindings/rust/erase from crates/service_follow/src/reading.rt, sha256 2a57790edd99e7605e4112530f6d1176cca5fedd540bcd39f88f704fb311796f.
//! Reads that are answered with no entry of their own.

use crate::kit::alloc::{AllocError, Global};
use crate::kit::Vec;
use crate::proved::model_asked::event::Event;
use crate::proved::model_asked::kind::WorldKind;
use crate::proved::model_asked::reply::Reply;
use crate::proved::model_steps::refusal::Refusal;
use crate::proved::model_steps::view::View;
use crate::proved::service_follow::machine::play;
use crate::proved::service_follow::note::{Asked, Note};
use crate::proved::service_follow::reply_queue::ReplyQueue;
use crate::proved::service_hall::hall::Hall;
use crate::proved::text_lines::replies::Replies;
use crate::proved::text_player::responder::Responder;
use crate::proved::text_player::service::Service;

/// A request that changes nothing of a hall.
#[derive(Clone, Copy, Debug, PartialEq, Eq)]
pub(crate) enum Read {
    /// `get ID`.
    Get(u64),
    /// `owner N`.
    Owner(u64),
}

impl Read {
    // The read that an event is, if it is one.
    fn of(event: Event) -> Option<Read> {
        match event {
            Event::Get(id) => Some(Read::Get(id)),
            Event::Begin(_)
            | Event::Step(_)
            | Event::Enter(_)
            | Event::Probe(_)
            | Event::Seek(_)
            | Event::Leave(_)
            | Event::Put(_, _)
            | Event::Widen(_) => None,
        }
    }

    // What is asked.
    fn asked(self) -> Asked {
        match self {
            Read::Get(id) => Asked::ToTake(Event::Get(id)),
            Read::Owner(number) => Asked::ToTell(number),
        }
    }

    // What a hall says to it. A reply that shows a view shows the one that this call stores in `view`.
    fn reply(self, hall: &Hall, view: &mut View) -> Reply<()> {
        match self {
            Read::Get(id) => hall.read(id),
            Read::Owner(number) => hall.owner(number).shorten(view),
        }
    }

    // A note of what a hall says to it.
    fn note(self, alloc: Global, hall: &Hall) -> Result<Note, AllocError> {
        let mut view = View::new();
        let reply = self.reply(hall, &mut view);
        Note::new(alloc, self.asked(), reply, &view)
    }
}

/// Notes the reads that it is asked for, and answers nothing.
struct Asking {
    reads: Vec<Read>,
    /// Whether it was asked for nothing else.
    only: bool,
    /// Whether memory was refused.
    lost: bool,
}

impl Asking {
    // It was asked for nothing.
    fn new(alloc: Global) -> Asking {
        Asking {
            reads: Vec::new(alloc),
            only: true,
            lost: false,
        }
    }

    // Notes a read.
    fn note(&mut self, read: Read) {
        if self.lost || !self.only {
            return;
        }
        self.lost = self.reads.push(read).is_err();
    }

    // It is asked for a read.
    fn ask(&mut self, read: Read) {
        self.note(read);
    }

    // It is asked to take an event.
    fn take(&mut self, event: Event) {
        let Some(read) = Read::of(event) else {
            self.only = false;
            return;
        };
        self.ask(read);
    }

    // The reads, if it was asked for nothing else.
    fn reads(self) -> Result<Option<Vec<Read>>, AllocError> {
        let Asking { reads, only, lost } = self;
        if lost {
            return Err(AllocError);
        }
        if !only {
            return Ok(None);
        }
        Ok(Some(reads))
    }
}

impl<R> Service<R> for Asking {
    fn apply(&mut self, _rt: &R, event: Event, _view: &mut View) -> Reply<()> {
        self.take(event);
        Reply::Refused(Refusal::NoMemory)
    }

    fn owner(&mut self, _rt: &R, n: u64) -> Reply<View> {
        self.ask(Read::Owner(n));
        Reply::Refused(Refusal::NoMemory)
    }
}

/// Returns the reads that lines ask for, in order, if they ask for nothing else, and else `None`.
///
/// # Errors
///
/// `AllocError`: an allocation failed.
pub(crate) fn reads_in(
    alloc: Global,
    kind: WorldKind,
    lines: &[u8],
) -> Result<Option<Vec<Read>>, AllocError> {
    let Ok(mut responder) = Responder::new(alloc, kind) else {
        return Err(AllocError);
    };
    let Ok(mut replies) = Replies::new(alloc) else {
        return Err(AllocError);
    };
    let mut view = View::new();
    let mut asking = Asking::new(alloc);
    play(&mut asking, &mut responder, &mut view, &mut replies, lines);
    asking.reads()
}

/// Has a queue of replies say what a hall says to reads, in order.
///
/// # Errors
///
/// `AllocError`: an allocation failed. The queue of replies is as it was.
pub(crate) fn put_replies(
    alloc: Global,
    hall: &Hall,
    reads: &[Read],
    reply_queue: &mut ReplyQueue,
) -> Result<(), AllocError> {
    let mut notes = Vec::new(alloc);
    for read in reads {
        notes.push(read.note(alloc, hall)?)?;
    }
    reply_queue.take_notes(&mut notes);
    Ok(())
}
