// Erased by bindings/rust/erase from crates/text_checker/src/checker.rt, sha256 562e8bda70495981d4d9cbf47f26bea5d703678aeba70c36d5b8ba582db71b4f.
//! Judges lines one after the other.

use crate::kit::alloc::{AllocError, Global};
use crate::proved::model_asked::config::Config;
use crate::proved::model_asked::event::Event;
use crate::proved::model_steps::place::Place;
use crate::proved::model_steps::refusal::Refusal;
use crate::proved::text_checker::fault::Fault;
use crate::proved::text_checker::judges::names::Names;
use crate::proved::text_checker::judges::stays::Stays;
use crate::proved::text_checker::reason::Reason;
use crate::proved::text_records::line::Line;
use crate::proved::text_records::pairs::Pairs;
use crate::proved::text_records::reported::is_step;
use crate::proved::text_records::reported::Reported;

/// The state of the objects after the lines so far: the renaming object, the pool and the slots.
pub struct Checker {
    names: Names,
    stays: Stays,
    grows: bool,
}

/// Whether the number of a refusal is that of the one due, or, if none is due, that of an allocation failure that may
/// occur.
fn is_reported_rightly(due: Option<Refusal>, lacks: bool, number: u64) -> bool {
    match due {
        Some(refusal) => u64::from(refusal.number()) == number,
        None => lacks && u64::from(Refusal::NoMemory.number()) == number,
    }
}

/// Whether a refusal is reported if and only if one is due, with its number.
fn is_refused_as_due(due: Option<Refusal>, lacks: bool, reported: &Reported) -> bool {
    match reported {
        Reported::Refused(number) => is_reported_rightly(due, lacks, *number),
        _ => due.is_none(),
    }
}

impl Checker {
    /// Makes the state before the first line of a record of this configuration, with room for `lines` lines.
    ///
    /// # Errors
    ///
    /// `AllocError`: the allocation failed.
    pub fn new(alloc: Global, config: Config, lines: usize) -> Result<Checker, AllocError> {
        Ok(Checker {
            stays: Stays::new(alloc, config.world.most_numbers(), config.k)?,
            names: Names::new(alloc, config.m, config.limit, lines)?,
            grows: config.world.is_tree(),
        })
    }

    /// The refusal that is due to an event, failed allocations aside, or `None`.
    fn refusal_due(&self, event: Event) -> Option<Refusal> {
        match event {
            Event::Begin(id) => self.names.begin_refusal(id),
            Event::Step(id) => self.names.step_refusal(id),
            Event::Enter(id) => self.stays.enter_refusal(id),
            Event::Probe(id) | Event::Seek(id) => self.stays.probe_refusal(id),
            Event::Leave(id) => self.stays.number_of(id).err(),
            Event::Put(id, _) => self.stays.number_of(id).err(),
            Event::Get(id) => self.stays.number_of(id).err(),
            Event::Widen(more) => self.stays.widen_refusal(more),
        }
    }

    /// Whether an allocation failure may be reported of an event to which no other refusal is due.
    fn may_lack(&self, event: Event) -> bool {
        self.grows && is_step(event)
    }

    /// Judges that a participant, which may begin, begins.
    fn begin(&mut self, id: u64) -> Result<(), Fault> {
        self.names.begin(id)?;
        Ok(())
    }

    /// Judges that a participant, which may step, gets a place.
    fn place(&mut self, id: u64, place: Place) -> Result<(), Fault> {
        if !self.names.place(id, place) {
            return Err(Fault::Unlawful(Reason::Place));
        }
        Ok(())
    }

    /// Judges that a participant, which may step, has proposed.
    fn propose(&mut self, id: u64, number: u64) -> Result<(), Fault> {
        if !self.names.may_propose(id, number) {
            return Err(Fault::Unlawful(Reason::Proposal));
        }
        self.names.propose(id, number)?;
        Ok(())
    }

    /// Judges that a participant, which may step, gets a view.
    fn see(&self, id: u64, view: &Pairs) -> Result<(), Fault> {
        if !self.names.has_turns(id) {
            return Err(Fault::Unlawful(Reason::Proposal));
        }
        if !self.names.shows_conflict(id, view.as_slice()) {
            return Err(Fault::Unlawful(Reason::View));
        }
        Ok(())
    }

    /// Judges that a participant, which may step, gets a name.
    fn name(&mut self, id: u64, name: u64, shown: Option<&Pairs>) -> Result<(), Fault> {
        if !self.names.may_name(id, name, shown) {
            return Err(Fault::Unlawful(Reason::Name));
        }
        self.names.name(id, name);
        Ok(())
    }

    /// Judges that a participant, which may step, is spent.
    fn spend(&mut self, id: u64) -> Result<(), Fault> {
        if !self.names.is_last_turn(id) {
            return Err(Fault::Unlawful(Reason::Proposal));
        }
        if !self.names.has_conflict(id) {
            return Err(Fault::Unlawful(Reason::View));
        }
        self.names.spend(id);
        Ok(())
    }

    /// Judges that an identity, which may enter, enters.
    fn enter(&mut self, id: u64) -> Result<(), Fault> {
        self.stays.enter(id)?;
        Ok(())
    }

    /// Judges that an identity, which may probe, misses.
    fn miss(&mut self, id: u64) -> Result<(), Fault> {
        if !self.stays.may_miss(id) {
            return Err(Fault::Unlawful(Reason::Pool));
        }
        self.stays.miss(id);
        Ok(())
    }

    /// Judges that an identity, which may probe, gets a number, by one probe or by as many as it takes.
    fn gain(&mut self, id: u64, number: u64) -> Result<(), Fault> {
        if !self.stays.is_free(number) {
            return Err(Fault::Unlawful(Reason::Pool));
        }
        self.stays.gain(id, number);
        Ok(())
    }

    /// Judges that the holder of a number gives it back.
    fn leave(&mut self, id: u64, number: u64) -> Result<(), Fault> {
        let Ok(held) = self.stays.number_of(id) else {
            return Err(Fault::Unlawful(Reason::Refusal));
        };
        if held != number {
            return Err(Fault::Unlawful(Reason::Pool));
        }
        self.stays.leave(id);
        Ok(())
    }

    /// Judges that the holder of a number puts a value.
    fn put(&mut self, id: u64, value: u64) -> Result<(), Fault> {
        let Ok(held) = self.stays.number_of(id) else {
            return Err(Fault::Unlawful(Reason::Refusal));
        };
        self.stays.store(held, value);
        Ok(())
    }

    /// Judges that the holder of a number gets the value in its slot.
    fn get(&self, id: u64, value: u64) -> Result<(), Fault> {
        let Ok(held) = self.stays.number_of(id) else {
            return Err(Fault::Unlawful(Reason::Refusal));
        };
        if !self.stays.has_value(held, value) {
            return Err(Fault::Unlawful(Reason::Pool));
        }
        Ok(())
    }

    /// Judges that the pool, which may, gets more numbers.
    fn widen(&mut self, more: u64) -> Result<(), Fault> {
        self.stays.widen(more)?;
        Ok(())
    }

    /// Judges the reply to a step.
    fn step(&mut self, id: u64, reported: &Reported) -> Result<(), Fault> {
        match reported {
            Reported::Place(place) => self.place(id, *place),
            Reported::Proposed(number) => self.propose(id, *number),
            Reported::Saw(view) => self.see(id, view),
            Reported::Named(name, shown) => self.name(id, *name, shown.as_ref()),
            Reported::Spent => self.spend(id),
            _ => Ok(()),
        }
    }

    /// Judges the reply to a probe.
    fn probe(&mut self, id: u64, reported: &Reported) -> Result<(), Fault> {
        match reported {
            Reported::Missed => self.miss(id),
            Reported::Got(number) => self.gain(id, *number),
            _ => Ok(()),
        }
    }

    /// Judges a reply of the event's command, of which a refusal is the one due, and updates the objects.
    fn follow(&mut self, event: Event, reported: &Reported) -> Result<(), Fault> {
        match event {
            Event::Begin(id) => match reported {
                Reported::Ok => self.begin(id),
                _ => Ok(()),
            },
            Event::Step(id) => self.step(id, reported),
            Event::Enter(id) => match reported {
                Reported::Ok => self.enter(id),
                _ => Ok(()),
            },
            Event::Probe(id) => self.probe(id, reported),
            Event::Seek(id) => match reported {
                Reported::Got(number) => self.gain(id, *number),
                _ => Ok(()),
            },
            Event::Leave(id) => match reported {
                Reported::Left(number) => self.leave(id, *number),
                _ => Ok(()),
            },
            Event::Put(id, value) => match reported {
                Reported::Ok => self.put(id, value),
                _ => Ok(()),
            },
            Event::Get(id) => match reported {
                Reported::Value(value) => self.get(id, *value),
                _ => Ok(()),
            },
            Event::Widen(more) => match reported {
                Reported::Ok => self.widen(more),
                _ => Ok(()),
            },
        }
    }

    /// Judges a line, and updates the objects.
    fn take_line(&mut self, line: &Line) -> Result<(), Fault> {
        if !line.reported.is_reply_of(line.event) {
            return Err(Fault::Unlawful(Reason::Reply));
        }
        let due = self.refusal_due(line.event);
        if !is_refused_as_due(due, self.may_lack(line.event), &line.reported) {
            return Err(Fault::Unlawful(Reason::Refusal));
        }
        self.follow(line.event, &line.reported)
    }

    /// Takes a line and returns `None`, if it can follow the lines before it. Otherwise returns the least reason that
    /// fits.
    ///
    /// After a reason or an error the checker is of no use.
    ///
    /// # Errors
    ///
    /// `AllocError`: the allocation failed.
    pub fn judge(&mut self, line: &Line) -> Result<Option<Reason>, AllocError> {
        match self.take_line(line) {
            Ok(()) => Ok(None),
            Err(fault) => fault.reported(),
        }
    }
}
