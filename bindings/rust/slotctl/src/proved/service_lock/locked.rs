// Erased by bindings/rust/erase from crates/service_lock/src/locked.rt, sha256 238b8a1bffaed8b4fd8bdf813bea3a7b1e494861dc4e8011e4b0fc769a15963e.
//! What is done under the lock: a hall with its callers.

use crate::kit::alloc::Global;
use crate::kit::sync::ledger::{Blank, Share};
use crate::kit::sync::Wait;
use crate::kit::Vec;
use crate::proved::model_asked::config::Config;
use crate::proved::model_asked::event::Event;
use crate::proved::model_asked::exchange::Exchange;
use crate::proved::model_asked::reply::Reply;
use crate::proved::model_steps::refusal::Refusal;
use crate::proved::model_steps::view::View;
use crate::proved::service_hall::hall::Hall;
use crate::proved::service_lock::book::{Front, Opened};
use crate::proved::service_lock::kept_log::KeptLog;
use crate::proved::service_lock::parts::{Clerk, LockName, Locked, MOST_CALLERS};
use crate::proved::service_lock::telling::{show, tell, Reported};

impl<L: LockName> Clerk<L> {
    /// A clerk that has kept no event, and has seen the history so far.
    fn new(kept: KeptLog, share: Share<L>, seen: Front<L, Exchange>) -> Clerk<L> {
        Clerk {
            kept,
            next: 0,
            share,
            seen,
        }
    }
}

/// The error of an event before it is applied: the hall's, or `NoMemory` if no room to keep it can be allocated.
fn refusal_of(
    hall: &Hall,
    kept: &mut KeptLog,
    marks: &mut Vec<bool>,
    event: Event,
) -> Option<Refusal> {
    if let Some(refusal) = hall.refusal(event) {
        return Some(refusal);
    }
    if !kept.reserve() || marks.reserve(1).is_err() {
        return Some(Refusal::NoMemory);
    }
    None
}

impl<L: LockName> Locked<L> {
    /// Makes a hall of this configuration with no event, and no caller.
    ///
    /// # Errors
    ///
    /// An error drops the blank and the history. The first that applies is returned:
    ///
    /// - `OutOfRange`: the world of `config` gives no names.
    /// - `NoMemory`: an allocation failed.
    pub fn new(
        alloc: Global,
        config: Config,
        blank: Blank,
        history: Opened<Exchange>,
    ) -> Result<Locked<L>, Refusal> {
        let (count, rest) = blank.open::<L>();
        let (book, front) = history.named::<L>();
        let hall = Hall::new(alloc, config)?;
        Ok(Locked {
            hall,
            marks: Vec::new(alloc),
            count,
            rest,
            opened: 0,
            book,
            front,
        })
    }

    /// Returns the number of callers that are open.
    pub fn opened(&self) -> u64 {
        self.opened
    }

    /// Applies one event of a caller, which the hall answers. An accepted event is added to the history, and the caller
    /// keeps it.
    ///
    /// If the reply has a view, the view is put into `view`. The caller has then seen the history.
    pub fn apply<R: Wait>(
        &mut self,
        rt: &R,
        clerk: &mut Clerk<L>,
        event: Event,
        view: &mut View,
    ) -> Reply<()> {
        let Locked {
            hall,
            count,
            marks,
            book,
            front,
            ..
        } = self;
        let Clerk {
            kept,
            next,
            share,
            seen,
        } = clerk;
        show(rt, front, seen);
        let place = hall.len();
        if let Some(refusal) = refusal_of(hall, kept, marks, event) {
            return Reply::Refused(refusal);
        }
        let reply = hall.apply_short(event, view);
        if reply.is_refusal() {
            return reply;
        }
        tell(
            rt,
            book,
            front,
            seen,
            &Reported {
                _event: event,
                _reply: reply,
                _view: view,
            },
        );
        count.add(share, 1);
        kept.push_reserved(place, event, reply, view);
        marks.push_reserved(false);
        *next = place + 1;
        reply
    }

    /// Opens one more clerk.
    ///
    /// # Errors
    ///
    /// - `Full`: 1,000,000 callers were opened.
    /// - `NoMemory`: an allocation failed.
    pub fn open(&mut self, alloc: Global) -> Result<Clerk<L>, Refusal> {
        if self.opened >= MOST_CALLERS {
            return Err(Refusal::Full);
        }
        let kept = KeptLog::new(alloc)?;
        // Called for its clause `lawful`: the history satisfies the specification.
        let _ = self.hall.len();
        let seen = self.front.again();
        let Locked { rest, opened, .. } = self;
        let share = rest.split_off(1, 0);
        *opened += 1;
        Ok(Clerk::new(kept, share, seen))
    }

    /// Returns the identity that has a name, and shows the caller the history so far.
    pub fn tell_owner<R: Wait>(&self, rt: &R, clerk: &mut Clerk<L>, number: u64) -> Reply<View> {
        show(rt, &self.front, &mut clerk.seen);
        // Called for its clause `lawful`: the history satisfies the specification.
        let _ = self.hall.len();
        self.hall.owner(number)
    }
}
