// Erased by bindings/rust/erase from crates/service_follow/src/compaction.rt, sha256 64094beab4b14c3f8dab2a7c115fbab71ffcba5a22e6ea28bb995320594b6883.
//! Compactions that a front end offers.

use crate::kit::alloc::{AllocError, Global};
use crate::kit::format;
use crate::kit::String;
use crate::kit::Vec;
use crate::proved::model_asked::event::Event;
use crate::proved::service_follow::front_end_stay::{token_of, FrontEndStay};
use crate::proved::service_follow::hall_terms::{push_told, ToldTerms};
use crate::proved::service_follow::log_fault::LogFault;
use crate::proved::service_follow::log_hall::LogHall;
use crate::proved::service_follow::log_persister::{push_count, put_head};
use crate::proved::service_follow::pause::Pause;
use crate::proved::service_follow::reply_queue::ReplyQueue;
use crate::proved::service_hall::compactor::Compactor;
use crate::proved::service_hall::hall::Hall;
use crate::proved::service_log::replica::{Step, MOST_BATCH};
use crate::proved::service_log::serve_fault::Cause;
use crate::proved::service_log::store::Store;

/// When a compaction is due, and those of others are minded.
#[derive(Clone, Copy, Debug)]
pub(crate) struct Due {
    /// The length of the history, in events.
    pub(crate) events: usize,
    /// How many entries were applied since the last compaction.
    pub(crate) entries: u64,
}

/// Where nothing else is said.
const DUE: Due = Due {
    events: 450_001,
    entries: 10_000,
};

/// How many bytes the first line of an entry of a compaction has at most, with no stay, and one more line.
const ROOM: usize = 256;

/// How often a front end begins a compaction at most, before it puts it off.
const MOST_BEGINNINGS: u32 = 8;

/// How often it waits for the compaction of another, at most.
const MOST_WAITS: u32 = 40;

/// How often it asks the store for a compaction, at most.
const MOST_TURNS: u32 = 4_000;

/// For how many seconds at least entries are kept once a later compaction stands. So who reads the log within them misses none.
const KEPT_SECONDS: u64 = 10;

/// How many entries are read at once.
const READ_ENTRIES: u64 = 10_000;

/// What is to be done next for a compaction.
#[derive(Clone, Copy, Debug, PartialEq, Eq)]
enum CompactionStage {
    /// To read the log to its end, and to wait for the compaction of another.
    Read,
    /// To offer the entry that begins, if a compaction is due.
    Begin,
    /// To offer an entry of the events of the new hall.
    Tell,
    /// To offer the entry that ends.
    End,
    /// To note the place where it begins.
    Note,
    /// Nothing.
    Rest,
}

/// A compaction that this front end offers.
struct Work {
    stage: CompactionStage,
    /// The place of the entry that begins.
    first: u64,
    /// The hall with the shorter history, and how many of its events were offered.
    new: Option<Hall>,
    told: usize,
    beginnings: u32,
    waits: u32,
}

/// Offers the compactions of one front end.
pub(crate) struct Compaction {
    alloc: Global,
    token: [u8; 32],
    compactor: Compactor,
    due: Due,
    /// How many entries more are to be applied, where a compaction that was due by entries was put off.
    delay: u64,
    /// How many entries of compactions it offered. No two have one count.
    count: u64,
    entry: Vec<u8>,
    lines: Vec<u8>,
    /// The place below which entries are to be given up, if any are.
    below: Option<u64>,
    /// In which second it was decided that they are.
    since: u64,
}

// The line that asks for an event.
fn line_of(alloc: Global, event: Event) -> Result<String, AllocError> {
    match event {
        Event::Begin(id) => format!(in alloc; "begin {id}\n"),
        Event::Step(id) => format!(in alloc; "step {id}\n"),
        Event::Enter(id) => format!(in alloc; "enter {id}\n"),
        Event::Probe(id) => format!(in alloc; "probe {id}\n"),
        Event::Seek(id) => format!(in alloc; "seek {id}\n"),
        Event::Leave(id) => format!(in alloc; "leave {id}\n"),
        Event::Put(id, value) => format!(in alloc; "put {id} {value}\n"),
        Event::Get(id) => format!(in alloc; "get {id}\n"),
        Event::Widen(size) => format!(in alloc; "widen {size}\n"),
    }
}

// Puts the lines of the next events of a hall over a list, as many as one entry takes. Returns how many events were told then.
fn put_lines(
    alloc: Global,
    lines: &mut Vec<u8>,
    new: &Hall,
    told: usize,
) -> Result<usize, AllocError> {
    lines.clear();
    for at in told..new.len() {
        if MOST_BATCH - ROOM < lines.len() {
            return Ok(at);
        }
        let Some(exchange) = new.get(at) else {
            return Ok(at);
        };
        let line = line_of(alloc, exchange.event)?;
        lines.extend_from_slice(line.as_bytes())?;
    }
    Ok(new.len())
}

// Appends a stay in 64 bytes.
fn push_stay(entry: &mut Vec<u8>, stay: &FrontEndStay) -> Result<(), AllocError> {
    push_count(entry, 16, stay.identity)?;
    push_count(entry, 16, stay.last)?;
    entry.extend_from_slice(&stay.token)?;
    Ok(())
}

// Appends stays.
fn push_stays(entry: &mut Vec<u8>, kept: &[FrontEndStay]) -> Result<(), AllocError> {
    for stay in kept {
        push_stay(entry, stay)?;
    }
    Ok(())
}

// Puts the entry that begins a compaction over a list: with the terms of the hall, for who starts there.
fn put_first(
    entry: &mut Vec<u8>,
    token: &[u8; 32],
    count: u64,
    terms: Option<ToldTerms>,
) -> Result<(), AllocError> {
    put_head(entry, token, count)?;
    entry.extend_from_slice(b" compaction")?;
    push_told(entry, terms)?;
    entry.push(b'\n')?;
    Ok(())
}

// Puts an entry of lines behind another one over a list.
fn put_more(
    entry: &mut Vec<u8>,
    token: &[u8; 32],
    count: u64,
    before: &[u8; 49],
    lines: &[u8],
) -> Result<(), AllocError> {
    put_head(entry, token, count)?;
    entry.extend_from_slice(b" more behind ")?;
    entry.extend_from_slice(before)?;
    entry.push(b'\n')?;
    entry.extend_from_slice(lines)?;
    Ok(())
}

// Puts the entry that ends a compaction over a list: how many entries were applied, and who keeps each stay.
fn put_last(
    entry: &mut Vec<u8>,
    token: &[u8; 32],
    count: u64,
    before: &[u8; 49],
    entries: u64,
    kept: &[FrontEndStay],
) -> Result<(), AllocError> {
    put_head(entry, token, count)?;
    entry.extend_from_slice(b" ends behind ")?;
    entry.extend_from_slice(before)?;
    entry.push(b' ')?;
    push_count(entry, 16, entries)?;
    entry.push(b' ')?;
    push_count(entry, 16, kept.len() as u64)?;
    entry.push(b' ')?;
    push_stays(entry, kept)?;
    entry.push(b'\n')?;
    Ok(())
}

// Returns the place below which entries are to be given up once a compaction stands whole that begins at `first`: the one
// that was noted before it. So who is somewhat late, or starts at that place, finds what it needs.
fn below_of(noted: Option<u64>, first: u64) -> Option<u64> {
    match noted {
        Some(place) if place < first => Some(place),
        _ => None,
    }
}

// Whether what was offered stands.
fn is_answered(offered: Result<Step, Cause>) -> Result<bool, LogFault> {
    let stands = matches!(offered, Ok(Step::Answered));
    LogFault::unless_gone(offered)?;
    Ok(stands)
}

impl Work {
    // Nothing was asked yet.
    fn new() -> Work {
        Work {
            stage: CompactionStage::Read,
            first: 0,
            new: None,
            told: 0,
            beginnings: 0,
            waits: 0,
        }
    }
}

impl Compaction {
    /// Makes one of the front end of this token.
    pub(crate) fn new(alloc: Global, token: [u8; 32]) -> Compaction {
        Compaction {
            alloc,
            token,
            compactor: Compactor::new(),
            due: DUE,
            delay: 0,
            count: 0,
            entry: Vec::new(alloc),
            lines: Vec::new(alloc),
            below: None,
            since: 0,
        }
    }

    // Whether the compaction of another front end is under way.
    fn is_others<S: Store>(&self, log: &LogHall<S>) -> bool {
        match log.under_way() {
            Some(head) => token_of(&head) != self.token,
            None => false,
        }
    }

    // Whether a compaction is due by the events of the history.
    fn is_due_by_events(&self, hall: &Hall) -> bool {
        self.due.events <= hall.len() && self.compactor.is_due(hall)
    }

    // Whether one is due by the entries since the last.
    fn is_due_by_entries<S: Store>(&self, log: &LogHall<S>) -> bool {
        self.due.entries.saturating_add(self.delay) <= log.entries_since_compaction()
    }

    // Whether one may be due once all is read. Where another one was read, nothing is put off any more.
    fn is_mindful<S: Store>(&mut self, log: &LogHall<S>) -> bool {
        let since = log.entries_since_compaction();
        if since < self.due.entries {
            self.delay = 0;
        }
        self.due.events <= log.hall().len() || self.due.entries <= since
    }

    // Puts the compaction off that is due.
    fn put_off<S: Store>(&mut self, log: &LogHall<S>) {
        self.compactor.put_off(log.hall());
        let more = log
            .entries_since_compaction()
            .saturating_sub(self.due.entries);
        self.delay = more.saturating_add(self.due.entries / 10 + 1);
    }

    // Whether to begin: a compaction is due, and was not begun too often.
    fn is_to_begin<S: Store>(&mut self, work: &mut Work, log: &LogHall<S>) -> bool {
        if !self.is_due_by_events(log.hall()) && !self.is_due_by_entries(log) {
            return false;
        }
        if MOST_BEGINNINGS <= work.beginnings {
            self.put_off(log);
            return false;
        }
        work.beginnings += 1;
        true
    }

    // Reads the log to its end.
    fn read<S: Store, T: Pause>(
        &mut self,
        work: &mut Work,
        log: &mut LogHall<S>,
        pause: &mut T,
        reply_queue: &mut ReplyQueue,
    ) -> Result<(), LogFault> {
        match log.read(READ_ENTRIES, reply_queue) {
            Ok(true) => {}
            Ok(false) => return Ok(()),
            Err(cause) => {
                work.stage = CompactionStage::Rest;
                return match LogFault::of_cause(cause) {
                    Some(fault) => Err(fault),
                    None => Ok(()),
                };
            }
        }
        if self.is_others(log) && work.waits < MOST_WAITS && pause.again() {
            work.waits += 1;
            return Ok(());
        }
        work.stage = CompactionStage::Begin;
        Ok(())
    }

    // Offers the entry for the next place, and for no other. Tells whether it stands there.
    fn offer<S: Store>(
        &mut self,
        log: &mut LogHall<S>,
        reply_queue: &mut ReplyQueue,
    ) -> Result<bool, LogFault> {
        self.count = self.count.wrapping_add(1);
        is_answered(log.offer(&self.entry, reply_queue))
    }

    // Begins if a compaction is due, and builds the hall with the shorter history. Where none is shorter, it tells the same: who starts passes over the
    // entries before it.
    fn begin<S: Store>(
        &mut self,
        work: &mut Work,
        log: &mut LogHall<S>,
        reply_queue: &mut ReplyQueue,
    ) -> Result<(), LogFault> {
        work.stage = CompactionStage::Rest;
        if !self.is_to_begin(work, log) {
            return Ok(());
        }
        let Ok(()) = put_first(&mut self.entry, &self.token, self.count, log.terms()) else {
            return Err(LogFault::Memory);
        };
        work.first = log.place();
        work.told = 0;
        work.stage = CompactionStage::Read;
        if self.offer(log, reply_queue)? {
            work.new = self.compactor.compacted(self.alloc, log.hall());
            work.stage = if work.new.is_some() || self.is_due_by_entries(log) {
                CompactionStage::Tell
            } else {
                CompactionStage::Rest
            };
        }
        Ok(())
    }

    // Puts the next entry of events, and tells how many events are told then. `None` if another entry came between.
    fn put_told<S: Store>(
        &mut self,
        work: &Work,
        log: &LogHall<S>,
    ) -> Result<Option<usize>, AllocError> {
        let Some(before) = log.under_way() else {
            return Ok(None);
        };
        let new = work.new.as_ref().unwrap_or(log.hall());
        let told = put_lines(self.alloc, &mut self.lines, new, work.told)?;
        put_more(
            &mut self.entry,
            &self.token,
            self.count,
            &before,
            &self.lines,
        )?;
        Ok(Some(told))
    }

    // Offers an entry of the events of the new hall.
    fn tell<S: Store>(
        &mut self,
        work: &mut Work,
        log: &mut LogHall<S>,
        reply_queue: &mut ReplyQueue,
    ) -> Result<(), LogFault> {
        work.stage = CompactionStage::Read;
        let told = match self.put_told(work, log) {
            Ok(Some(told)) => told,
            Ok(None) => return Ok(()),
            Err(_) => return Err(LogFault::Memory),
        };
        if self.offer(log, reply_queue)? {
            work.told = told;
            let new = work.new.as_ref().unwrap_or(log.hall());
            work.stage = if new.len() <= told {
                CompactionStage::End
            } else {
                CompactionStage::Tell
            };
        }
        Ok(())
    }

    // Offers the entry that ends the compaction.
    fn end<S: Store>(
        &mut self,
        work: &mut Work,
        log: &mut LogHall<S>,
        reply_queue: &mut ReplyQueue,
    ) -> Result<(), LogFault> {
        work.stage = CompactionStage::Read;
        let Some(before) = log.under_way() else {
            return Ok(());
        };
        let Ok(()) = put_last(
            &mut self.entry,
            &self.token,
            self.count,
            &before,
            log.entries(),
            log.kept(),
        ) else {
            return Err(LogFault::Memory);
        };
        if self.offer(log, reply_queue)? {
            work.stage = CompactionStage::Note;
        }
        Ok(())
    }

    // Notes the place where a compaction begins that stands whole. What is before the one noted until then is to be given up,
    // once all is that was to be before.
    fn note<S: Store>(&mut self, first: u64, log: &mut LogHall<S>, now: u64) {
        let noted = log.hint();
        log.put_hint(first);
        if self.below.is_none() {
            self.below = below_of(noted, first);
            self.since = now;
        }
    }

    // Gives up some of the entries that are to be given up, if any are and were kept for long enough.
    fn trim<S: Store>(&mut self, log: &mut LogHall<S>, now: u64) {
        let Some(place) = self.below else {
            return;
        };
        if now.saturating_sub(self.since) < KEPT_SECONDS {
            return;
        }
        if !log.trim(place) {
            self.below = None;
        }
    }

    // Does what is next, and asks the store twice at most.
    fn turn<S: Store, T: Pause>(
        &mut self,
        work: &mut Work,
        log: &mut LogHall<S>,
        pause: &mut T,
        reply_queue: &mut ReplyQueue,
    ) -> Result<(), LogFault> {
        match work.stage {
            CompactionStage::Read => self.read(work, log, pause, reply_queue),
            CompactionStage::Begin => self.begin(work, log, reply_queue),
            CompactionStage::Tell => self.tell(work, log, reply_queue),
            CompactionStage::End => self.end(work, log, reply_queue),
            CompactionStage::Note => {
                work.stage = CompactionStage::Rest;
                self.note(work.first, log, pause.seconds());
                Ok(())
            }
            CompactionStage::Rest => Ok(()),
        }
    }

    /// Gives up some of the entries before a compaction behind which this front end wrote another, 10 seconds later at first. Then
    /// it offers a compaction if one is due, and waits a little for one that another front end has under way.
    ///
    /// # Errors
    ///
    /// Those behind which nothing more is served (`LogFault::of_cause`), and `Memory` if an allocation failed.
    pub(crate) fn compact<S: Store, T: Pause>(
        &mut self,
        log: &mut LogHall<S>,
        pause: &mut T,
        reply_queue: &mut ReplyQueue,
    ) -> Result<(), LogFault> {
        self.trim(log, pause.seconds());
        self.compact_when_due(log, pause, reply_queue)
    }

    // Offers a compaction if one is due, and waits a little for one that another front end has under way.
    //
    // It does nothing while the history is short and few entries were applied since the last one. Else it reads the log to its end. A compaction is offered again from its
    // beginning if another entry came between, and then put off.
    fn compact_when_due<S: Store, T: Pause>(
        &mut self,
        log: &mut LogHall<S>,
        pause: &mut T,
        reply_queue: &mut ReplyQueue,
    ) -> Result<(), LogFault> {
        if !self.is_mindful(log) {
            return Ok(());
        }
        pause.begin();
        let mut work = Work::new();
        for _ in 0..MOST_TURNS {
            if work.stage == CompactionStage::Rest {
                return Ok(());
            }
            self.turn(&mut work, log, pause, reply_queue)?;
        }
        Ok(())
    }
}
