// Erased by bindings/rust/erase from crates/service_loop/src/audit.rt, sha256 f836a8a93a615ef7111440e978a3113517c4f4512ddc877931c2609fdcb84091.
//! What is counted of refusals and of numbers that were given back, and told of them in a log.

use crate::kit::alloc::{AllocError, Global};
use crate::kit::format;
use crate::kit::net::SocketAddr;
use crate::kit::rt::Clock;
use crate::kit::Vec;
use crate::proved::model_asked::event::Event;
use crate::proved::model_asked::reply::Reply;
use crate::proved::model_steps::refusal::Refusal;
use crate::proved::service_loop::audit_lines::{refused_act, AuditLines};
use crate::proved::service_loop::change::identity_of;
use crate::proved::service_watch::numbers::{Releases, REFUSALS};

/// Who has the service apply events.
#[derive(Clone, Copy, Debug, PartialEq, Eq)]
pub enum Asker {
    /// A client, which is told each reply.
    Client,
    /// A client by a line `take` whose answers were prefetched. No refusal is told to it behind the answer.
    Taker { answered: bool },
    /// The server, which ends a stay whose grace time is over. Nobody is told the replies.
    Grace,
}

/// Why a number was given back.
#[derive(Clone, Copy, Debug, PartialEq, Eq)]
enum Cause {
    /// A client said `leave`.
    Client,
    /// The grace time of the keeper was over.
    Grace,
    /// The front end of the keeper was gone.
    FrontEnd,
}

impl Cause {
    // The word of a line.
    fn word(self) -> &'static str {
        match self {
            Cause::Client => "client",
            Cause::Grace => "grace",
            Cause::FrontEnd => "front_end",
        }
    }
}

/// Counts refusals and numbers that were given back. Where a log is wanted it has the lines that are not written yet.
///
/// Not proved: anything of it. No clause speaks of what it holds, so those of a service and of its stays are what they are without it.
pub struct Audit {
    alloc: Global,
    releases: Releases,
    /// How often each refusal was told, by its number less 1.
    refusals: [u64; REFUSALS],
    asker: Asker,
    /// The identities that the persister was to end the stays of, and that had one then.
    due: Vec<u64>,
    lines: Option<AuditLines>,
}

// One more.
fn count(counted: &mut u64) {
    *counted = counted.saturating_add(1);
}

impl Audit {
    /// Nothing was told yet. Lines are kept where a log of them is wanted.
    pub fn new(alloc: Global, logs: bool) -> Audit {
        Audit {
            alloc,
            releases: Releases {
                client: 0,
                grace: 0,
                front_end: 0,
            },
            refusals: [0; REFUSALS],
            asker: Asker::Client,
            due: Vec::new(alloc),
            lines: if logs {
                Some(AuditLines::new(alloc))
            } else {
                None
            },
        }
    }

    /// How many numbers were given back, by the cause.
    pub fn releases(&self) -> Releases {
        self.releases
    }

    /// How often each refusal was told, by its number less 1.
    pub fn refusals(&self) -> [u64; REFUSALS] {
        self.refusals
    }

    /// How many lines were lost, where a log is wanted.
    pub fn lost(&self) -> Option<u64> {
        match &self.lines {
            Some(lines) => Some(lines.lost()),
            None => None,
        }
    }

    /// The lines that are not written yet.
    pub fn lines(&self) -> &[u8] {
        match &self.lines {
            Some(lines) => lines.text(),
            None => &[],
        }
    }

    /// The lines so far were written, or lost.
    pub fn settle(&mut self, written: bool) {
        if let Some(lines) = &mut self.lines {
            lines.settle(written);
        }
    }

    /// From now on lines tell the present time, by the clock of the system.
    pub fn note_time<R: Clock>(&mut self, rt: &R) {
        if let Some(lines) = &mut self.lines {
            lines.note_time(rt);
        }
    }

    /// From now on events are applied for this one.
    pub fn listen_to(&mut self, asker: Asker) {
        self.asker = asker;
    }

    /// The connection of this number comes from there: from this machine, where it is no address. Numbers rise.
    ///
    /// # Errors
    ///
    /// `AllocError`: an allocation failed.
    pub fn admit(&mut self, number: u64, address: Option<SocketAddr>) -> Result<(), AllocError> {
        match &mut self.lines {
            Some(lines) => lines.admit(number, address),
            None => Ok(()),
        }
    }

    /// The connection of this number says nothing more.
    pub fn let_go(&mut self, number: u64) {
        if let Some(lines) = &mut self.lines {
            lines.let_go(number);
        }
    }

    /// The connection of this number is closed, since it said nothing for long.
    pub fn note_idle(&mut self, number: u64) {
        if let Some(lines) = &mut self.lines {
            let act = format!(in self.alloc; "\"act\":\"closed\",\"cause\":\"idle\"");
            lines.add(Some(number), act);
        }
    }

    /// Notes what an event was answered, whose connection has this number. Most replies say nothing of numbers, and each line of clients comes by here.
    #[inline(always)]
    pub fn note(&mut self, speaker: u64, event: Event, reply: &Reply<()>) {
        match reply {
            Reply::Got(_) | Reply::Left(_) | Reply::Refused(_) => {
                self.note_act(speaker, event, reply)
            }
            _ => {}
        }
    }

    // The same, of a reply that says something.
    #[inline(never)]
    fn note_act(&mut self, speaker: u64, event: Event, reply: &Reply<()>) {
        match reply {
            Reply::Got(number) => self.note_got(speaker, event, *number),
            Reply::Left(number) => self.note_left(speaker, event, *number),
            Reply::Refused(why) => self.note_refused(speaker, event, *why),
            _ => {}
        }
    }

    // Whose line it is: nobody's, where the server asks.
    fn speaker(&self, speaker: u64) -> Option<u64> {
        match self.asker {
            Asker::Grace => None,
            Asker::Client | Asker::Taker { .. } => Some(speaker),
        }
    }

    // Notes that a number was taken.
    fn note_got(&mut self, speaker: u64, event: Event, number: u32) {
        let speaker = self.speaker(speaker);
        if let Asker::Taker { .. } = self.asker {
            self.asker = Asker::Taker { answered: true };
        }
        if let Some(lines) = &mut self.lines {
            let id = identity_of(event);
            let act = format!(in self.alloc; "\"act\":\"got\",\"id\":{id},\"number\":{number}");
            lines.add(speaker, act);
        }
    }

    // Notes that a number was given back.
    fn note_left(&mut self, speaker: u64, event: Event, number: u32) {
        let speaker = self.speaker(speaker);
        let cause = match self.asker {
            Asker::Grace => Cause::Grace,
            Asker::Client | Asker::Taker { .. } => Cause::Client,
        };
        self.count_release(cause);
        if let Some(lines) = &mut self.lines {
            let id = identity_of(event);
            let word = cause.word();
            let act = format!(in self.alloc;
                "\"act\":\"left\",\"id\":{id},\"number\":{number},\"cause\":\"{word}\""
            );
            lines.add(speaker, act);
        }
    }

    // Counts a number that was given back.
    fn count_release(&mut self, cause: Cause) {
        match cause {
            Cause::Client => count(&mut self.releases.client),
            Cause::Grace => count(&mut self.releases.grace),
            Cause::FrontEnd => count(&mut self.releases.front_end),
        }
    }

    // Notes a refusal, where somebody is told it.
    fn note_refused(&mut self, speaker: u64, event: Event, why: Refusal) {
        match self.asker {
            Asker::Client => {}
            Asker::Taker { answered: false } => self.asker = Asker::Taker { answered: true },
            Asker::Taker { answered: true } | Asker::Grace => return,
        }
        self.count_refusal(why);
        if let Some(lines) = &mut self.lines {
            if let Some(act) = refused_act(self.alloc, event, why) {
                lines.add(Some(speaker), act);
            }
        }
    }

    /// Counts a refusal that a client is told.
    pub fn count_refusal(&mut self, why: Refusal) {
        let at = (why.number() as usize).saturating_sub(1);
        if at < REFUSALS {
            count(&mut self.refusals[at]);
        }
    }

    /// The persister is to end the stays of others than these: nothing is due.
    pub fn clear_due(&mut self) {
        self.due.clear();
    }

    /// The persister is to end the stay of this identity, which has one.
    pub fn note_due(&mut self, identity: u64) {
        let _ = self.due.push(identity);
    }

    /// The stay of this identity is no more. Where it was due, the persister ended it.
    pub fn note_ended(&mut self, identity: u64) {
        if self.due.contains(&identity) {
            self.note_end(identity, Cause::Grace);
        }
    }

    /// The persister ended the stays of these identities, since their front ends are gone.
    pub fn note_gone(&mut self, gone: &[u64]) {
        for identity in gone {
            self.note_end(*identity, Cause::FrontEnd);
        }
    }

    // The persister ended the stay of this identity, whose number only the log tells.
    fn note_end(&mut self, identity: u64, cause: Cause) {
        self.count_release(cause);
        if let Some(lines) = &mut self.lines {
            let word = cause.word();
            let act = format!(in self.alloc;
                "\"act\":\"left\",\"id\":{identity},\"cause\":\"{word}\""
            );
            lines.add(None, act);
        }
    }
}
