// Erased by bindings/rust/erase from crates/service_loop/src/attended.rt, sha256 046c9cb042d08406ada3db7ab2ad625666828fb322a55ef93bc4f8ef4e363eaf.
//! A service, and who keeps the stays in its pool.

use crate::kit::alloc::Global;
use crate::proved::model_asked::event::Event;
use crate::proved::model_asked::reply::Reply;
use crate::proved::model_pool::stays::stays::Stays;
use crate::proved::model_steps::refusal::Refusal;
use crate::proved::model_steps::view::View;
use crate::proved::service_loop::audit::Audit;
use crate::proved::service_loop::feed::Feed;
use crate::proved::text_player::service::Service;

/// The number of no connection. It keeps a stay that may have begun, though no connection may be answered so.
pub const NOBODY: u64 = 0;

/// How a connection ended.
#[derive(Clone, Copy, Debug, PartialEq, Eq)]
pub struct Ending {
    /// The number of the connection, which no other ever has.
    pub number: u64,
    /// Whether it said `quit`.
    pub by_quit: bool,
}

/// A service, and who keeps the stays in its pool: connections, each by its number.
pub struct Attended<D> {
    /// The service.
    pub service: D,
    /// Who keeps each stay.
    pub stays: Stays,
    /// Whether it is noted who keeps a stay.
    pub keeps: bool,
    /// The number of the connection whose turn it is.
    pub speaker: u64,
    /// Whether an allocation failed, so that a stay may lack in the table.
    pub lacks: bool,
    /// What is told of numbers and refusals.
    pub audit: Audit,
    /// What changes of who holds numbers.
    pub changes: Feed,
}

// Whether who said `enter` keeps the stay, by the reply to it.
fn keeps_by(reply: &Reply<()>) -> bool {
    matches!(reply, Reply::Ok | Reply::Refused(Refusal::AlreadyCompeting))
}

// Whether a stay has ended, by the reply to `leave`.
fn gives_back(reply: &Reply<()>) -> bool {
    matches!(reply, Reply::Left(_))
}

impl<D> Attended<D> {
    /// A service with these stays. Where it does not keep them, they stay as they are.
    pub fn new(alloc: Global, service: D, stays: Stays, keeps: bool, audit: Audit) -> Attended<D> {
        Attended {
            service,
            stays,
            keeps,
            speaker: 0,
            lacks: false,
            audit,
            changes: Feed::new(alloc),
        }
    }

    /// From now on the connection of this number has its turn.
    pub fn listen_to(&mut self, number: u64) {
        self.speaker = number;
    }

    /// A connection ended at this tick.
    pub fn end(&mut self, ending: Ending, tick: u64) {
        self.audit.let_go(ending.number);
        if !self.keeps {
            return;
        }
        if ending.by_quit {
            self.stays.quit(ending.number);
        } else {
            self.stays.ended(ending.number, tick);
        }
    }

    /// These connections ended at this tick, in this order.
    pub fn end_all(&mut self, endings: &[Ending], tick: u64) {
        for ending in endings {
            self.end(*ending, tick);
        }
    }

    /// Where an answer was lost, nobody keeps the stays from this tick on that may have begun by it.
    pub fn end_lost(&mut self, lost: bool, tick: u64) {
        if lost {
            let number = NOBODY;
            self.end(
                Ending {
                    number,
                    by_quit: false,
                },
                tick,
            );
        }
    }

    /// The stay of this identity has ended.
    pub fn forget(&mut self, identity: u64) {
        if self.keeps {
            self.stays.left(identity);
        }
    }

    // Who has its turn said `enter` of this identity, and keeps the stay.
    fn note_entered(&mut self, identity: u64) {
        if self.stays.entered(identity, self.speaker).is_err() {
            self.lacks = true;
        }
    }

    /// An `enter` of this identity may have been applied, and its answer was lost. Unless a connection keeps the stay nobody does (`NOBODY`).
    pub fn note_lost(&mut self, identity: u64) {
        if !self.keeps || self.stays.is_kept(identity) {
            return;
        }
        if self.stays.entered(identity, NOBODY).is_err() {
            self.lacks = true;
        }
    }

    // Notes what an event that was answered by this reply says of stays.
    fn hear(&mut self, event: Event, reply: &Reply<()>) {
        if !self.keeps {
            return;
        }
        match event {
            Event::Enter(identity) if keeps_by(reply) => self.note_entered(identity),
            Event::Leave(identity) if gives_back(reply) => self.forget(identity),
            _ => {}
        }
    }
}

// An event is applied, and what the reply says of stays is noted.
#[inline(never)]
fn apply_and_hear<R, D: Service<R>>(
    attended: &mut Attended<D>,
    rt: &R,
    event: Event,
    view: &mut View,
) -> Reply<()> {
    let reply = attended.service.apply(rt, event, view);
    attended.audit.note(attended.speaker, event, &reply);
    attended.changes.note(event, &reply);
    attended.hear(event, &reply);
    reply
}

impl<R, D: Service<R>> Service<R> for Attended<D> {
    // Where no stay is noted the reply goes on as it is. Each line of clients comes by here, so it is no call of its own.
    #[inline(always)]
    fn apply(&mut self, rt: &R, event: Event, view: &mut View) -> Reply<()> {
        if !self.keeps {
            let reply = self.service.apply(rt, event, view);
            self.audit.note(self.speaker, event, &reply);
            self.changes.note(event, &reply);
            return reply;
        }
        apply_and_hear(self, rt, event, view)
    }

    fn owner(&mut self, rt: &R, n: u64) -> Reply<View> {
        let reply = self.service.owner(rt, n);
        if let Reply::Refused(why) = &reply {
            self.audit.count_refusal(*why);
        }
        reply
    }
}
