// Erased by bindings/rust/erase from crates/service_loop/src/watching.rt, sha256 7935ba7650cca8faf9504791581a33c5abbead4d8092aa2c02650b516f385fb8.
//! Those who watch a server.

use crate::kit::io;
use crate::kit::net::SocketAddr;
use crate::proved::service_watch::numbers::{Numbers, Releases, Tally, REFUSALS};
use crate::proved::service_watch::scrapers::Scrapers;

/// Those who watch, and what is remembered for them.
pub struct Watch {
    scrapers: Scrapers,
    /// At which tick the persister was last asked how much there is.
    looked: u64,
    /// The place of the log then, and the tick at which it came there.
    place: Option<u64>,
    placed: u64,
}

/// What the loop itself knows of what is reported.
#[derive(Clone, Copy, Debug)]
pub struct LoopNumbers {
    /// How many clients are there.
    pub clients: u64,
    /// How many connections were accepted.
    pub accepted: u64,
    /// How many of them ended by a fault.
    pub faults: u64,
    /// How many lines were taken.
    pub lines: u64,
    /// How many seconds were counted.
    pub ticks: u64,
    /// How many numbers were given back, by the cause.
    pub releases: Releases,
    /// How many lines were answered by each refusal, by its number less 1.
    pub refusals: [u64; REFUSALS],
    /// How many lines of the audit log were lost, where one is written.
    pub audit_lines_lost: Option<u64>,
    /// Whether the answers that clients wanted last were prefetched.
    pub learnt: bool,
}

// Whether clients are answered, as far as it is by the log.
fn may_answer(answers: Option<bool>) -> bool {
    match answers {
        Some(answers) => answers,
        None => true,
    }
}

// How long ago a place of the log came, where there is one.
fn age_of(place: Option<u64>, tick: u64, placed: u64) -> Option<u64> {
    match place {
        Some(_) => Some(tick.saturating_sub(placed)),
        None => None,
    }
}

/// What those who ask get, where the place of the log came at this tick.
pub fn numbers_of(loops: &LoopNumbers, tally: &Tally, placed: u64) -> Numbers {
    Numbers {
        clients: loops.clients,
        accepted: loops.accepted,
        faults: loops.faults,
        lines: loops.lines,
        ticks: loops.ticks,
        releases: loops.releases,
        refusals: loops.refusals,
        audit_lines_lost: loops.audit_lines_lost,
        ready: loops.learnt && may_answer(tally.log_answers),
        tally: *tally,
        log_age: age_of(tally.log_place, loops.ticks, placed),
    }
}

impl Watch {
    /// By those who ask.
    pub fn new(scrapers: Scrapers) -> Watch {
        Watch {
            scrapers,
            looked: 0,
            place: None,
            placed: 0,
        }
    }

    /// Those who ask.
    pub fn scrapers(&mut self) -> &mut Scrapers {
        &mut self.scrapers
    }

    /// The address that is listened on.
    ///
    /// # Errors
    ///
    /// What the system says.
    pub fn address(&self) -> io::Result<SocketAddr> {
        self.scrapers.local_addr()
    }

    /// Whether any of those who ask may go on with no word of the system.
    pub fn is_due(&self) -> bool {
        self.scrapers.is_due()
    }

    /// Whether it is to be looked how much there is: some may go on, or a second has passed.
    pub fn wants_look(&self, tick: u64) -> bool {
        self.is_due() || self.looked != tick
    }

    /// Notes how much there is.
    pub fn note(&mut self, tally: &Tally, tick: u64) {
        if self.looked != tick {
            self.looked = tick;
            self.scrapers.tick();
        }
        if self.place != tally.log_place {
            self.place = tally.log_place;
            self.placed = tick;
        }
    }

    /// What those who ask get.
    pub fn numbers(&self, loops: &LoopNumbers, tally: &Tally) -> Numbers {
        numbers_of(loops, tally, self.placed)
    }
}
