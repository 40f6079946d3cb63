// Erased by bindings/rust/erase from crates/service_lock/src/matching.rt, sha256 c6af905033853414535d6029f2dbe5c45cc5ddcacb88a58e7f008da010d0c0b0.
//! The end of a history: it is compared with what its callers kept.

use crate::kit::sync::ledger::Share;
use crate::kit::Vec;
use crate::proved::service_hall::hall::Hall;
use crate::proved::service_hall::same::is_same;
use crate::proved::service_lock::kept::Kept;
use crate::proved::service_lock::kept_log::KeptLog;
use crate::proved::service_lock::parts::{Clerk, LockName, Locked, Session};

/// A history that is closed, with all 1,000,001 parts of its lock's ledger. Each caller had one, so none was left out.
pub struct Closed<L: LockName> {
    /// The hall, with the history.
    pub _hall: Hall,
    _whole: Share<L>,
}

/// The rest of a share, with the shares of these clerks.
fn with_clerks<L: LockName>(rest: Share<L>, clerks: Vec<Clerk<L>>) -> Share<L> {
    let mut whole = rest;
    for clerk in clerks {
        whole.merge(clerk.into_share());
    }
    whole
}

/// The rest of a share, with the shares of these sessions.
fn with_sessions<L: LockName>(rest: Share<L>, sessions: Vec<Session<L>>) -> Share<L> {
    let mut whole = rest;
    for session in sessions {
        let Session { _id: _, clerk } = session;
        whole.merge(clerk.into_share());
    }
    whole
}

impl<L: LockName> Clerk<L> {
    /// Returns its share of the lock's count.
    pub(crate) fn into_share(self) -> Share<L> {
        let Clerk { share, .. } = self;
        share
    }
}

/// Whoever called a lock, with the events that it kept.
trait Caller: Sized {
    /// Returns what it kept.
    fn kept_log(&self) -> &KeptLog;
}

impl<L: LockName> Caller for Clerk<L> {
    fn kept_log(&self) -> &KeptLog {
        &self.kept
    }
}

impl<L: LockName> Caller for Session<L> {
    fn kept_log(&self) -> &KeptLog {
        &self.clerk.kept
    }
}

/// Whether what was kept is in the history, at its place.
fn fits(hall: &Hall, kept: &Kept) -> bool {
    match hall.get(kept.place) {
        Some(exchange) => is_same(&exchange, &kept.exchange),
        None => false,
    }
}

/// Marks the place of a kept event, if it is in the history there and was not marked before.
fn mark(hall: &Hall, marks: &mut [bool], kept: &Kept) -> bool {
    let place = kept.place;
    if place >= marks.len() || marks[place] || !fits(hall, kept) {
        return false;
    }
    marks[place] = true;
    true
}

/// Marks the places of all that one caller kept.
fn mark_all(hall: &Hall, marks: &mut [bool], kept: &KeptLog) -> bool {
    for i in 0..kept.len() {
        let Some(k) = kept.get(i) else {
            return false;
        };
        if !mark(hall, marks, &k) {
            return false;
        }
    }
    true
}

/// Marks the places of what one caller kept, if at most `left` are left, and returns how many are left then.
fn mark_list(hall: &Hall, marks: &mut [bool], left: usize, kept: &KeptLog) -> Option<usize> {
    if kept.len() > left || !mark_all(hall, marks, kept) {
        return None;
    }
    Some(left - kept.len())
}

/// Marks what these callers kept, and returns how many places are left.
fn mark_each<C: Caller>(
    hall: &Hall,
    marks: &mut [bool],
    left: usize,
    callers: &Vec<C>,
) -> Option<usize> {
    let mut now = left;
    for caller in callers {
        now = mark_list(hall, marks, now, caller.kept_log())?;
    }
    Some(now)
}

/// Whether every place is marked.
fn all_marked(marks: &[bool]) -> bool {
    marks.iter().all(|mark| *mark)
}

/// Whether each place of the history was kept by exactly one of these, and no other place was. No place was marked
/// before.
fn mark_callers<L: LockName>(
    hall: &Hall,
    marks: &mut [bool],
    sessions: &Vec<Session<L>>,
    clerks: &Vec<Clerk<L>>,
) -> bool {
    let Some(middle) = mark_each(hall, marks, hall.len(), sessions) else {
        return false;
    };
    let Some(left) = mark_each(hall, marks, middle, clerks) else {
        return false;
    };
    if left != 0 {
        return false;
    }
    all_marked(marks)
}

impl<L: LockName> Locked<L> {
    /// Returns the closed history. The sessions and the clerks are all callers that were opened.
    pub fn closed(self, sessions: Vec<Session<L>>, clerks: Vec<Clerk<L>>) -> Closed<L> {
        let Locked { hall, rest, .. } = self;
        let whole = with_clerks(with_sessions(rest, sessions), clerks);
        Closed {
            _hall: hall,
            _whole: whole,
        }
    }

    /// Whether each place of the history was kept by exactly one of these callers, and no other place was.
    pub fn agrees(&mut self, sessions: &Vec<Session<L>>, clerks: &Vec<Clerk<L>>) -> bool {
        let Locked { hall, marks, .. } = self;
        // Called for its clause `lawful`: the history satisfies the specification.
        let _ = hall.len();
        let agrees = mark_callers(hall, marks, sessions, clerks);
        marks.fill(false);
        agrees
    }
}
