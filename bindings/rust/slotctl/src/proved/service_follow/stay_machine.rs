// Erased by bindings/rust/erase from crates/service_follow/src/stay_machine.rt, sha256 c24cf487f34987922dd65968b8e27d95184ddc46a428bdff475b776e50bf5af7.
//! A hall to which the entries of a log are applied, and who keeps its stays.

use crate::kit::alloc::Global;
use crate::proved::model_asked::config::Config;
use crate::proved::model_steps::refusal::Refusal;
use crate::proved::service_follow::front_end_stay::{are_same, token_of, FrontEndStay};
use crate::proved::service_follow::gathering::Gathering;
use crate::proved::service_follow::hall_terms::{terms_of, ToldTerms};
use crate::proved::service_follow::keeping::Keeping;
use crate::proved::service_follow::machine::HallMachine;
use crate::proved::service_follow::marks::{entries_in, head_at, kept_in, mark_of, Mark, BEFORE};
use crate::proved::service_follow::note::{Asked, Note};
use crate::proved::service_follow::reply_queue::ReplyQueue;
use crate::proved::service_follow::retelling::is_retold;
use crate::proved::service_hall::hall::Hall;
use crate::proved::service_log::machine::{ApplyFault, Machine};
use crate::proved::service_loop::feed::Feed;

/// A hall to which the entries of a log are applied (`HallMachine`), and which front end keeps each stay in its pool: whose entry said `enter`
/// of it last and was answered `ok` or `refused 9`. The first 32 bytes of an entry are the token of its front end.
///
/// A compaction is a run of entries of one front end, each right behind the other (`mark_of`). They tell a shorter history
/// with the same desk, or the same history, and who keeps each stay. Behind the last of them the hall has that history, if it is the same: else
/// nothing is known of the machine. Any other entry between them lets the compaction go.
///
/// A machine that is *blind* began at a later place of the log than the first. It answers nothing before it has read a
/// compaction whole.
pub struct StayMachine {
    alloc: Global,
    halls: HallMachine,
    keeping: Keeping,
    gathered: Option<Gathering>,
    blind: bool,
    /// Whether a compaction told another hall, or other stays, than the entries before it.
    differs: bool,
    /// How many compactions were read to their end.
    compactions: u64,
    /// How many entries were applied before the last of them.
    compacted: u64,
    /// The terms of the hall, as the entry told that told some last.
    terms: Option<ToldTerms>,
    /// What entries changed of who holds numbers.
    changes: Feed,
}

// Notes what requests changed of who holds numbers.
fn note_changes(changes: &mut Feed, notes: &[Note]) {
    for note in notes {
        if let Asked::ToTake(event) = note.asked() {
            changes.note(event, &note.reply());
        }
    }
}

impl StayMachine {
    // Makes a machine of this config with no event, blind or not.
    fn at_start(alloc: Global, config: Config, blind: bool) -> Result<StayMachine, Refusal> {
        let halls = HallMachine::new(alloc, config)?;
        Ok(StayMachine {
            alloc,
            halls,
            keeping: Keeping::new(alloc),
            gathered: None,
            blind,
            differs: false,
            compactions: 0,
            compacted: 0,
            terms: None,
            changes: Feed::new(alloc),
        })
    }

    /// Makes a hall of this config with no event.
    ///
    /// # Errors
    ///
    /// Those of `HallMachine::new`.
    pub fn new(alloc: Global, config: Config) -> Result<StayMachine, Refusal> {
        StayMachine::at_start(alloc, config, false)
    }

    /// Makes a blind machine of this config.
    ///
    /// # Errors
    ///
    /// Those of `HallMachine::new`.
    pub fn blind(alloc: Global, config: Config) -> Result<StayMachine, Refusal> {
        StayMachine::at_start(alloc, config, true)
    }

    /// Returns the hall.
    pub fn hall(&self) -> &Hall {
        self.halls.hall()
    }

    /// Returns the stays in the pool, each with the front end that keeps it.
    pub fn kept(&self) -> &[FrontEndStay] {
        &self.keeping.kept
    }

    /// Returns how many entries were applied, those of compactions aside, in 64 bits.
    pub fn entries(&self) -> u64 {
        self.keeping.entries
    }

    /// Returns how many entries were applied since the compaction that was read last, or from the first one on.
    pub fn entries_since_compaction(&self) -> u64 {
        self.keeping.entries.saturating_sub(self.compacted)
    }

    /// Returns true if and only if it began at a later place than the first, and has read no compaction whole.
    pub fn is_blind(&self) -> bool {
        self.blind
    }

    /// Returns the token and the count of the entry that was read last, if it is one of a compaction that goes on.
    pub(crate) fn under_way(&self) -> Option<[u8; 49]> {
        match &self.gathered {
            Some(part) => Some(part.head),
            None => None,
        }
    }

    /// Whether a compaction told another hall, or other stays, than the entries before it: then nothing is known of the
    /// machine. Not proved.
    pub(crate) fn differs(&self) -> bool {
        self.differs
    }

    /// Returns how many compactions it read to their end. Not proved.
    pub(crate) fn compactions(&self) -> u64 {
        self.compactions
    }

    /// Returns the terms of the hall, as the entry told that told some last; `None` if none did. It is not proved that they are noted, but what
    /// each entry tells is (`terms_of`).
    pub(crate) fn terms(&self) -> Option<ToldTerms> {
        self.terms
    }

    /// Returns what the entries changed of who holds numbers, from the place on at which it began. Not proved.
    pub(crate) fn changes(&self) -> &Feed {
        &self.changes
    }

    // Notes what an entry tells of the terms of the hall, whatever else is known.
    fn note_terms(&mut self, entry: &[u8]) {
        if let Some(told) = terms_of(entry) {
            self.terms = Some(told);
        }
    }

    // Lets go what was read of a compaction.
    fn let_go(&mut self, reply_queue: &mut ReplyQueue) {
        reply_queue.clear();
        self.gathered = None;
    }

    // Plays the lines of an entry, and notes who keeps stays.
    fn take_lines(&mut self, entry: &[u8], reply_queue: &mut ReplyQueue) -> Result<(), ApplyFault> {
        let _ = self.gathered.take();
        self.halls.apply(entry, reply_queue)?;
        note_changes(&mut self.changes, reply_queue.notes());
        match self.keeping.learn(&token_of(entry), reply_queue.notes()) {
            Ok(()) => Ok(()),
            Err(_) => Err(ApplyFault::Memory),
        }
    }

    // Takes an entry of lines, if anything is known.
    fn take_if_known(
        &mut self,
        entry: &[u8],
        reply_queue: &mut ReplyQueue,
    ) -> Result<(), ApplyFault> {
        if self.blind {
            self.let_go(reply_queue);
            return Ok(());
        }
        self.take_lines(entry, reply_queue)
    }

    // Reads the entry with which a compaction begins.
    fn begin(&mut self, entry: &[u8], reply_queue: &mut ReplyQueue) -> Result<(), ApplyFault> {
        let mut part = Gathering::new(self.alloc, self.halls.hall().config(), entry)?;
        part.take(entry, reply_queue)?;
        self.gathered = Some(part);
        Ok(())
    }

    // Takes out what was read of a compaction, if an entry goes on with it.
    fn take_part(&mut self, entry: &[u8]) -> Option<Gathering> {
        let part = self.gathered.take()?;
        if part.head == head_at(entry, BEFORE) {
            return Some(part);
        }
        None
    }

    // Reads an entry with which a compaction goes on.
    fn go_on(&mut self, entry: &[u8], reply_queue: &mut ReplyQueue) -> Result<(), ApplyFault> {
        let Some(mut part) = self.take_part(entry) else {
            self.let_go(reply_queue);
            return Ok(());
        };
        part.take(entry, reply_queue)?;
        self.gathered = Some(part);
        Ok(())
    }

    // Returns true only if a compaction tells the same hall, the same stays and the same count.
    fn tells_the_same(&self, part: &Gathering, kept: &[FrontEndStay], entries: u64) -> bool {
        if !is_retold(self.alloc, self.halls.hall(), part.halls.hall()) {
            return false;
        }
        if !are_same(kept, &self.keeping.kept) {
            return false;
        }
        self.keeping.entries == entries
    }

    // Returns true only if a compaction tells the same, or nothing is known with which to compare it.
    fn agrees(&self, part: &Gathering, kept: &[FrontEndStay], entries: u64) -> bool {
        if self.blind {
            return true;
        }
        self.tells_the_same(part, kept, entries)
    }

    // Has all be what a compaction tells, which is the same where anything was known.
    fn end_with(&mut self, part: Gathering, entry: &[u8]) -> Result<(), ApplyFault> {
        let kept = kept_in(self.alloc, entry)?;
        let entries = entries_in(entry)?;
        if !self.agrees(&part, &kept, entries) {
            self.differs = true;
            return Err(ApplyFault::Damaged);
        }
        let Gathering { halls, head: _ } = part;
        self.halls = halls;
        self.keeping = Keeping { kept, entries };
        self.compacted = entries;
        self.gathered = None;
        self.blind = false;
        self.compactions = self.compactions.saturating_add(1);
        Ok(())
    }

    // Reads the entry with which a compaction ends.
    fn end(&mut self, entry: &[u8], reply_queue: &mut ReplyQueue) -> Result<(), ApplyFault> {
        let Some(mut part) = self.take_part(entry) else {
            self.let_go(reply_queue);
            return Ok(());
        };
        part.take(entry, reply_queue)?;
        self.end_with(part, entry)
    }

    // Applies an entry.
    fn take_entry(&mut self, entry: &[u8], reply_queue: &mut ReplyQueue) -> Result<(), ApplyFault> {
        self.note_terms(entry);
        match mark_of(entry) {
            Mark::Ordinary => self.take_if_known(entry, reply_queue),
            Mark::Begins => self.begin(entry, reply_queue),
            Mark::GoesOn => self.go_on(entry, reply_queue),
            Mark::Ends => self.end(entry, reply_queue),
        }
    }
}

impl Machine for StayMachine {
    type Replies = ReplyQueue;

    fn apply(&mut self, entry: &[u8], reply_queue: &mut ReplyQueue) -> Result<(), ApplyFault> {
        self.take_entry(entry, reply_queue)
    }

    fn forget(reply_queue: &mut ReplyQueue) {
        reply_queue.clear();
    }
}
