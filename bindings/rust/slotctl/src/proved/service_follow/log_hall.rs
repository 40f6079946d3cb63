// Erased by bindings/rust/erase from crates/service_follow/src/log_hall.rt, sha256 2a5daad905488571d310765804b1703481d57e2a4cb47a108b7080c3e3e082eb.
//! A hall that follows a log.

use crate::kit::alloc::Global;
use crate::kit::Vec;
use crate::proved::model_asked::config::Config;
use crate::proved::model_steps::refusal::Refusal;
use crate::proved::service_follow::front_end_stay::FrontEndStay;
use crate::proved::service_follow::hall_terms::ToldTerms;
use crate::proved::service_follow::reply_queue::ReplyQueue;
use crate::proved::service_follow::stay_machine::StayMachine;
use crate::proved::service_hall::hall::Hall;
use crate::proved::service_log::laws::law_of_following;
use crate::proved::service_log::replica::{Replica, Step};
use crate::proved::service_log::serve_fault::{Cause, ServeFault};
use crate::proved::service_log::store::Store;
use crate::proved::service_log::store_fault::StoreFault;
use crate::proved::service_loop::feed::Feed;

/// A hall of a config that follows a log: from a hall with no event it was led by the entries that stand in the log, each once, in their
/// order, up to its place. If it started at a later place than the first, it was led by those from there on (`StayMachine`).
pub struct LogHall<S: Store> {
    replica: Replica<StayMachine>,
    store: S,
    config: Config,
    /// The place from which on entries were applied.
    from: u64,
}

// Makes the machine with which a hall starts at a place of a log.
fn machine_at(alloc: Global, config: Config, place: u64) -> Result<StayMachine, Refusal> {
    if place == 0 {
        let machine = StayMachine::new(alloc, config)?;
        return Ok(machine);
    }
    let machine = StayMachine::blind(alloc, config)?;
    Ok(machine)
}

// Has a store begin with this line, where nothing stands in it, and reads the line with which it begins; tells whether there is one.
fn begins_with<S: Store>(
    store: &mut S,
    line: &[u8],
    entry: &mut Vec<u8>,
) -> Result<bool, StoreFault> {
    store.put(0, line)?;
    store.get(0, entry)
}

impl<S: Store> LogHall<S> {
    /// A hall of this config, to which no entry was applied.
    ///
    /// # Errors
    ///
    /// Those of `HallMachine::new`.
    pub fn new(alloc: Global, store: S, config: Config) -> Result<LogHall<S>, Refusal> {
        let machine = StayMachine::new(alloc, config)?;
        Ok(LogHall {
            replica: Replica::new(alloc, machine),
            store,
            config,
            from: 0,
        })
    }
}

impl<S: Store> LogHall<S> {
    /// The hall.
    pub fn hall(&self) -> &Hall {
        self.replica.machine().hall()
    }

    /// The stays in its pool, each with the front end that keeps it.
    pub fn kept(&self) -> &[FrontEndStay] {
        self.replica.machine().kept()
    }

    /// How many entries were applied.
    pub fn place(&self) -> u64 {
        self.replica.place()
    }

    /// What the hall was opened for.
    pub(crate) fn config(&self) -> Config {
        self.config
    }

    /// Whether nothing is known of the hall, since it started at a later place than the first and has read no compaction whole.
    pub fn is_blind(&self) -> bool {
        self.replica.machine().is_blind()
    }

    /// How many entries were applied, those of compactions aside, in 64 bits.
    pub(crate) fn entries(&self) -> u64 {
        self.replica.machine().entries()
    }

    /// Returns how many entries were applied since the compaction that was read last, or from the first one on.
    pub(crate) fn entries_since_compaction(&self) -> u64 {
        self.replica.machine().entries_since_compaction()
    }

    /// Returns the token and the count of the entry that was read last, if it is one of a compaction that goes on.
    pub(crate) fn under_way(&self) -> Option<[u8; 49]> {
        self.replica.machine().under_way()
    }

    /// Whether a compaction told another hall than the entries before it. Not proved.
    pub(crate) fn differs(&self) -> bool {
        self.replica.machine().differs()
    }

    /// Returns how many compactions were read to their end since it started. Not proved.
    pub(crate) fn compactions(&self) -> u64 {
        self.replica.machine().compactions()
    }

    /// Returns what the entries changed of who holds numbers. Not proved.
    pub(crate) fn changes(&self) -> &Feed {
        self.replica.machine().changes()
    }

    /// Returns the terms of the hall, as the entry told that told some last. Not proved.
    pub(crate) fn terms(&self) -> Option<ToldTerms> {
        self.replica.machine().terms()
    }

    /// Starts at a place of the log, with nothing applied: from the first with a hall with no event, and from a later one
    /// with a blind machine.
    ///
    /// # Errors
    ///
    /// Those of `StayMachine::new`. Nothing has changed.
    pub(crate) fn start_at(&mut self, alloc: Global, place: u64) -> Result<(), Refusal> {
        let machine = machine_at(alloc, self.config, place)?;
        self.replica = Replica::at(alloc, machine, place);
        self.from = place;
        Ok(())
    }

    /// Returns the place that is noted in the store, or `None` if there is none or the store did not answer. It is a hint
    /// alone.
    pub(crate) fn hint(&mut self) -> Option<u64> {
        law_of_following::<StayMachine, S>();
        self.store.hint().unwrap_or_default()
    }

    /// Notes a place in the store, if it answers.
    pub(crate) fn put_hint(&mut self, place: u64) {
        law_of_following::<StayMachine, S>();
        let _ = self.store.put_hint(place);
    }

    /// Returns the place below which entries were given up, as the store tells, or 0 if none were or it did not answer. It is a
    /// hint alone.
    pub(crate) fn trimmed(&mut self) -> u64 {
        law_of_following::<StayMachine, S>();
        self.store.trimmed().unwrap_or(0)
    }

    /// Gives up some of the entries below a place, but never the first (`Store::trim`). Returns true if more are to be given
    /// up. If the store does not answer, the rest is left.
    pub(crate) fn trim(&mut self, place: u64) -> bool {
        law_of_following::<StayMachine, S>();
        self.store.trim(place) == Ok(false)
    }

    /// Has the log begin with this line, where nothing stands in it, and reads the line with which it begins; tells whether there is one.
    ///
    /// # Errors
    ///
    /// The store's own fault. The line may stand in the log.
    pub fn begin(&mut self, line: &[u8], entry: &mut Vec<u8>) -> Result<bool, StoreFault> {
        law_of_following::<StayMachine, S>();
        begins_with(&mut self.store, line, entry)
    }

    /// Has a batch come to stand in the log, applies all that stands before it and then it, and puts the answers on the queue of replies
    /// (`Replica::serve`).
    ///
    /// # Errors
    ///
    /// Those of `Replica::serve`. The queue of replies is empty.
    pub fn serve(&mut self, batch: &[u8], reply_queue: &mut ReplyQueue) -> Result<(), ServeFault> {
        law_of_following::<StayMachine, S>();
        self.replica.serve(&mut self.store, batch, reply_queue)
    }

    /// Applies what stands in the log, up to so many entries; tells how many they were (`Replica::catch_up`).
    ///
    /// # Errors
    ///
    /// Those of `Replica::catch_up`.
    pub fn catch_up(&mut self, most: u64, reply_queue: &mut ReplyQueue) -> Result<u64, Cause> {
        law_of_following::<StayMachine, S>();
        self.replica.catch_up(&mut self.store, most, reply_queue)
    }

    /// Applies what stands in the log, up to so many entries; tells whether all was read that stands.
    pub(crate) fn read(&mut self, most: u64, reply_queue: &mut ReplyQueue) -> Result<bool, Cause> {
        law_of_following::<StayMachine, S>();
        let passed = self.replica.catch_up(&mut self.store, most, reply_queue)?;
        if passed < most {
            return Ok(true);
        }
        Ok(false)
    }

    /// Offers a batch for the next place, and for no other (`Replica::step`).
    pub(crate) fn offer(
        &mut self,
        batch: &[u8],
        reply_queue: &mut ReplyQueue,
    ) -> Result<Step, Cause> {
        law_of_following::<StayMachine, S>();
        self.replica.step(&mut self.store, batch, reply_queue)
    }
}
