// Erased by bindings/rust/erase from crates/service_follow/src/log_persister.rt, sha256 618096f436109cb7a1de0a8759f862a6c803ab25231bfab318c83a3e874f9b0b.
//! Serves the clients of one front end over a log.

use crate::kit::alloc::{AllocError, Allocator, Global};
use crate::kit::format;
use crate::kit::String;
use crate::kit::Vec;
use crate::proved::model_asked::config::Config;
use crate::proved::service_follow::compaction::Compaction;
use crate::proved::service_follow::gone_stays::GoneStays;
use crate::proved::service_follow::hall_terms::{push_told, terms_of, HallTerms, ToldTerms};
use crate::proved::service_follow::lasting::Lasting;
use crate::proved::service_follow::log_fault::LogFault;
use crate::proved::service_follow::log_hall::LogHall;
use crate::proved::service_follow::marks::is_ordinary;
use crate::proved::service_follow::pause::Pause;
use crate::proved::service_follow::reading::{put_replies, reads_in, Read};
use crate::proved::service_follow::release_lines::lines_of;
use crate::proved::service_follow::reply_queue::ReplyQueue;
use crate::proved::service_follow::sessions::Sessions;
use crate::proved::service_follow::tallying::{room_of, tally_of};
use crate::proved::service_hall::hall::Hall;
use crate::proved::service_hall::reads::Reads;
use crate::proved::service_hall::rules::Rules;
use crate::proved::service_log::replica::{Step, MOST_BATCH};
use crate::proved::service_log::serve_fault::{Cause, ServeFault};
use crate::proved::service_log::store::{Store, MOST_PLACES};
use crate::proved::service_log::store_fault::StoreFault;
use crate::proved::service_loop::feed::Feed;
use crate::proved::service_loop::persist::{Persist, Prefetch};
use crate::proved::service_watch::numbers::Tally;
use crate::proved::text_lines::held::query::HeldQuery;
use crate::proved::text_lines::held::telling::put_held;
use crate::proved::text_lines::replies::Replies;

/// What ends a line.
const LF: u8 = 10;

/// How many bytes the first line of a batch has, at most: a token, a count, ` plain --t` and its LF.
const HEAD: usize = 60;

/// How often a store is asked for one batch, at most; a `Pause` ends it before.
const MOST_TRIES: u32 = 1_000_000;

/// What etcd says where its quota is used up.
const NO_SPACE: &str = "etcdserver: mvcc: database space exceeded";

/// What is said where a compaction told another hall than the entries before it.
const DIFFERS: &str = "a compaction of the log tells another history";

/// How many entries are applied at once where no client asks for anything.
const TICK_ENTRIES: u64 = 10_000;

/// What came of a change of terms.
#[derive(Clone, Copy, Debug, PartialEq, Eq)]
pub enum TermsChange {
    /// The hall has the terms.
    Stands,
    /// It has not: somebody competes who was told that numbers are held forever, and for whom no front end makes beats.
    Held,
}

/// For how many seconds after the grace time of earlier terms somebody may hold a number who was told of them: a front end that has not read of
/// the change answers for less than 21 seconds.
const MOST_UNTOLD: u64 = 22;

/// Serves the clients of one front end over a log: what they ask for comes to stand in the log before it is answered.
pub struct LogPersister<S: Store, T: Pause> {
    alloc: Global,
    log: LogHall<S>,
    batch: Vec<u8>,
    token: [u8; 32],
    count: u64,
    /// The rules for the clients of this front end.
    rules: Rules,
    pause: T,
    /// Whether the store had no room for the last batch.
    no_space: bool,
    /// Whether the store answered when it was last asked.
    answers: bool,
    /// The terms that it was started with.
    terms: HallTerms,
    /// Up to which second the longer grace time of earlier terms lasts.
    longer_until: u64,
    /// Who keeps stays.
    sessions: Sessions,
    /// The stays that it ended since their front ends are gone.
    gone: GoneStays,
    /// The compactions that it offers.
    compaction: Compaction,
    /// How much of the history no compaction makes shorter.
    lasting: Lasting,
}

// A digit to the base of 16.
fn hex_digit(digit: u8) -> u8 {
    if digit < 10 {
        b'0' + digit
    } else {
        b'a' + (digit - 10)
    }
}

// Adds so many digits of a count to the base of 16, the lowest first.
pub(crate) fn push_count(head: &mut Vec<u8>, digits: u32, count: u64) -> Result<(), AllocError> {
    if digits == 0 {
        return Ok(());
    }
    head.push(hex_digit((count % 16) as u8))?;
    push_count(head, digits - 1, count / 16)
}

// Puts a first line without its end over a list: a token, a space and a count.
pub(crate) fn put_head(head: &mut Vec<u8>, token: &[u8], count: u64) -> Result<(), AllocError> {
    head.clear();
    head.extend_from_slice(token)?;
    head.push(b' ')?;
    push_count(head, 16, count)
}

// What the first line of a batch tells of its rules.
fn told_of(rules: Rules) -> &'static [u8] {
    match (rules.reads, rules.widening, rules.naming, rules.tokens) {
        (Reads::Logged, true, true, false) => b"",
        (Reads::Logged, true, true, true) => b" whole wnt",
        (Reads::Logged, true, false, false) => b" whole w-",
        (Reads::Logged, true, false, true) => b" whole w-t",
        (Reads::Logged, false, true, false) => b" whole -n",
        (Reads::Logged, false, true, true) => b" whole -nt",
        (Reads::Logged, false, false, false) => b" whole --",
        (Reads::Logged, false, false, true) => b" whole --t",
        (Reads::Plain, true, true, false) => b" plain",
        (Reads::Plain, true, true, true) => b" plain wnt",
        (Reads::Plain, true, false, false) => b" plain w-",
        (Reads::Plain, true, false, true) => b" plain w-t",
        (Reads::Plain, false, true, false) => b" plain -n",
        (Reads::Plain, false, true, true) => b" plain -nt",
        (Reads::Plain, false, false, false) => b" plain --",
        (Reads::Plain, false, false, true) => b" plain --t",
    }
}

// Puts a batch of these lines over a list: a first line of a token, a count and what it tells of its rules, and then the lines.
fn put_batch(
    batch: &mut Vec<u8>,
    rules: Rules,
    token: &[u8],
    count: u64,
    lines: &[u8],
) -> Result<(), AllocError> {
    put_head(batch, token, count)?;
    batch.extend_from_slice(told_of(rules))?;
    batch.push(LF)?;
    batch.extend_from_slice(lines)?;
    Ok(())
}

// The version of the texts, and this config.
fn config_text(alloc: Global, config: Config) -> Result<String, AllocError> {
    let world = config.world.name();
    let m = config.m;
    let k = config.k;
    let limit = config.limit;
    format!(in alloc; "beglushan hall 1 world {world} m {m} k {k} limit {limit}")
}

// The first entry of a log of halls of this config, with these terms.
fn first_line(
    alloc: Global,
    config: Config,
    told: Option<ToldTerms>,
) -> Result<Vec<u8>, AllocError> {
    let text = config_text(alloc, config)?;
    let mut line = Vec::new(alloc);
    line.extend_from_slice(text.as_bytes())?;
    push_told(&mut line, told)?;
    line.push(LF)?;
    Ok(line)
}

/// Returns true if and only if an entry is the first one of a log of halls of this config, with terms or without.
///
/// # Errors
///
/// `AllocError`: an allocation failed.
pub fn is_first_line(alloc: Global, config: Config, entry: &[u8]) -> Result<bool, AllocError> {
    let line = first_line(alloc, config, terms_of(entry))?;
    Ok(line.as_slice() == entry)
}

// Puts the entry that changes the terms of a hall over a list.
fn put_change(
    entry: &mut Vec<u8>,
    token: &[u8; 32],
    count: u64,
    told: ToldTerms,
) -> Result<(), AllocError> {
    put_head(entry, token, count)?;
    push_told(entry, Some(told))?;
    entry.push(LF)?;
    Ok(())
}

impl<S: Store, T: Pause> LogPersister<S, T> {
    /// Opens the hall of a log to serve its clients by these terms, which have to be the hall's, where it has some (`open_any`). Where a change made
    /// its grace time shorter, the longer one lasts for as long as a client may trust in it.
    ///
    /// # Errors
    ///
    /// Those of `open_any`, and then `OtherTerms`: the hall has other terms.
    pub fn open(
        alloc: Global,
        store: S,
        pause: T,
        config: Config,
        token: [u8; 32],
        terms: HallTerms,
    ) -> Result<LogPersister<S, T>, LogFault> {
        let mut persister = match LogPersister::open_any(alloc, store, pause, config, token, terms)
        {
            Ok(persister) => persister,
            Err(fault) => return Err(fault),
        };
        match persister.take_terms() {
            Ok(()) => Ok(persister),
            Err(fault) => Err(fault),
        }
    }

    /// Opens the hall of a log, whatever its terms, to serve nobody. Where nothing stands in the log it begins with a line of the config and of these
    /// terms, and else it has to begin with a line of the config;
    /// then all that stands is applied: from the place on that is noted in the store, if a compaction that can be read whole stands
    /// there or behind it, and else from the first entry on. The token, which no other front end has, is to have no end of a line in it.
    ///
    /// # Errors
    ///
    /// The first that applies is returned:
    ///
    /// - `Token`: the token has the end of a line in it. Nothing was asked of the store.
    /// - `Memory`: an allocation failed.
    /// - another `LogFault`: the config's world gives no names, the log begins with another line, an entry is no entry of a hall, or the
    ///   store failed.
    pub fn open_any(
        alloc: Global,
        store: S,
        pause: T,
        config: Config,
        token: [u8; 32],
        terms: HallTerms,
    ) -> Result<LogPersister<S, T>, LogFault> {
        if token.contains(&LF) {
            return Err(LogFault::Token);
        }
        let told = ToldTerms { terms, was: terms };
        let Ok(line) = first_line(alloc, config, Some(told)) else {
            return Err(LogFault::Memory);
        };
        let log = LogHall::new(alloc, store, config)?;
        let mut persister = LogPersister {
            alloc,
            log,
            batch: Vec::new(alloc),
            token,
            count: 0,
            rules: Rules::all(Reads::Logged),
            pause,
            no_space: false,
            answers: true,
            terms,
            longer_until: 0,
            sessions: Sessions::new(alloc),
            gone: GoneStays::new(alloc),
            compaction: Compaction::new(alloc, token),
            lasting: Lasting::new(),
        };
        match persister.start(config, &line) {
            Ok(()) => Ok(persister),
            Err(fault) => Err(fault),
        }
    }
}

impl<S: Store, T: Pause> LogPersister<S, T> {
    /// The hall.
    pub fn hall(&self) -> &Hall {
        self.log.hall()
    }

    // Has the log begin with a line of the config, which is this one where nothing stands in it, and applies all that stands in it. A function of
    // its own, since what owns a persister takes it apart at each way out.
    fn start(&mut self, config: Config, line: &[u8]) -> Result<(), LogFault> {
        self.begin(config, line)?;
        self.apply_hinted()?;
        self.apply_known()
    }

    // Applies all that stands in the log from the place on that is noted in the store, if one is, or a later one below which
    // entries were given up.
    fn apply_hinted(&mut self) -> Result<(), LogFault> {
        let noted = self.log.hint().unwrap_or(0);
        let place = noted.max(self.log.trimmed());
        self.log.start_at(self.alloc, place)?;
        self.apply_all()
    }

    // Applies all that stands in the log, if nothing is known of the hall: from the first entry on, or from the first that
    // was not given up.
    fn apply_known(&mut self) -> Result<(), LogFault> {
        if !self.log.is_blind() {
            return Ok(());
        }
        let place = self.log.trimmed();
        self.log.start_at(self.alloc, place)?;
        self.apply_all()?;
        if self.log.is_blind() {
            return Err(LogFault::Astray);
        }
        Ok(())
    }

    // Returns an error unless the line with which the log begins, which was read last, is of this config.
    fn check_first_line(&self, config: Config) -> Result<(), LogFault> {
        match is_first_line(self.alloc, config, &self.batch) {
            Ok(true) => Ok(()),
            Ok(false) => Err(LogFault::OtherConfig),
            Err(_) => Err(LogFault::Memory),
        }
    }

    // Has the log begin with a line of the config, as soon as the store answers: with this one, where nothing stands in it.
    fn begin(&mut self, config: Config, line: &[u8]) -> Result<(), LogFault> {
        self.pause.begin();
        for _ in 0..MOST_TRIES {
            match self.log.begin(line, &mut self.batch) {
                Ok(true) => return self.check_first_line(config),
                Ok(false) => return Err(LogFault::OtherConfig),
                Err(StoreFault::Memory) => return Err(LogFault::Memory),
                Err(fault) => {
                    if !self.pause.again() {
                        return Err(LogFault::Store(fault));
                    }
                }
            }
        }
        Err(LogFault::Store(StoreFault::Lost))
    }

    // Applies all that stands in the log, as soon as the store answers.
    fn apply_all(&mut self) -> Result<(), LogFault> {
        let mut reply_queue = ReplyQueue::new(self.alloc);
        self.pause.begin();
        for _ in 0..MOST_TRIES {
            let Err(cause) = self.log.catch_up(MOST_PLACES, &mut reply_queue) else {
                return Ok(());
            };
            if let Some(fault) = LogFault::of_cause(cause) {
                return Err(fault);
            }
            if !self.pause.again() {
                break;
            }
        }
        Err(LogFault::Store(StoreFault::Lost))
    }

    /// Returns the terms of the hall, as the log tells; `None` if it tells none. Not proved.
    pub fn told_terms(&self) -> Option<ToldTerms> {
        self.log.terms()
    }

    // Returns an error where the log tells other terms than it was started with.
    fn check_terms(&self) -> Result<(), LogFault> {
        let Some(told) = self.log.terms() else {
            return Ok(());
        };
        if told.terms == self.terms {
            return Ok(());
        }
        Err(LogFault::OtherTerms(told.terms, self.terms))
    }

    // Takes the grace time of its terms, which have to be the hall's. The longer one of the terms before lasts for a while.
    fn take_terms(&mut self) -> Result<(), LogFault> {
        self.check_terms()?;
        let grace = self.terms.grace();
        self.sessions.grace = grace;
        let Some(told) = self.log.terms() else {
            return Ok(());
        };
        let was = told.was.grace();
        if grace < was {
            let now = self.pause.seconds();
            self.sessions.grace = was;
            self.longer_until = now.saturating_add(u64::from(was) + MOST_UNTOLD);
        }
        Ok(())
    }

    // Takes the grace time of its own terms, once the longer one of those before has lasted for long enough.
    fn shorten_grace(&mut self) {
        if self.longer_until <= self.pause.seconds() {
            self.sessions.grace = self.terms.grace();
        }
    }

    // Has the batch come to stand in the log, as soon as the store answers.
    fn serve_batch(&mut self, reply_queue: &mut ReplyQueue) -> Result<Prefetch, LogFault> {
        let now = self.pause.seconds();
        reply_queue.clear();
        if !is_ordinary(&self.batch) {
            return Err(LogFault::Astray);
        }
        self.pause.begin();
        for _tries in 0..MOST_TRIES {
            let Err(fault) = self.log.serve(&self.batch, reply_queue) else {
                if self.log.is_blind() {
                    reply_queue.clear();
                    return Err(LogFault::Astray);
                }
                if let Err(fault) = self.check_terms() {
                    reply_queue.clear();
                    return Err(fault);
                }
                self.no_space = false;
                self.answers = true;
                self.sessions.renew(now, self.pause.seconds());
                return Ok(Prefetch::Known);
            };
            self.no_space = fault == ServeFault::Unknown(Cause::Store(StoreFault::NoSpace));
            if let Some(fault) = LogFault::of_serving(fault) {
                return Err(fault);
            }
            if !self.pause.again() {
                return Ok(Prefetch::Lost);
            }
        }
        Ok(Prefetch::Lost)
    }

    // Has the batch of these lines come to stand in the log.
    fn write_batch(
        &mut self,
        reply_queue: &mut ReplyQueue,
        lines: &[u8],
    ) -> Result<Prefetch, LogFault> {
        self.compaction
            .compact(&mut self.log, &mut self.pause, reply_queue)?;
        let Ok(()) = put_batch(&mut self.batch, self.rules, &self.token, self.count, lines) else {
            return Err(LogFault::Memory);
        };
        self.serve_batch(reply_queue)
    }

    // The reads that lines ask for, if they ask for nothing else, and the history stores none.
    fn plain_reads(&self, lines: &[u8]) -> Result<Option<Vec<Read>>, LogFault> {
        if self.rules.reads == Reads::Logged {
            return Ok(None);
        }
        match reads_in(self.alloc, self.log.config().world, lines) {
            Ok(reads) => Ok(reads),
            Err(_) => Err(LogFault::Memory),
        }
    }

    // Reads the log on, and tells whether all was read that stands. A store that does not answer has told nothing.
    fn read_on(&mut self, reply_queue: &mut ReplyQueue) -> Result<bool, LogFault> {
        match self.log.read(TICK_ENTRIES, reply_queue) {
            Ok(all) => Ok(all),
            Err(cause) => match LogFault::of_cause(cause) {
                Some(fault) => Err(fault),
                None => Ok(false),
            },
        }
    }

    // Reads the log to its end, as soon as the store answers; returns false if patience ends before.
    fn read_to_end(&mut self, reply_queue: &mut ReplyQueue) -> Result<bool, LogFault> {
        reply_queue.clear();
        self.pause.begin();
        for _asked in 0..MOST_TRIES {
            let all = self.read_on(reply_queue)?;
            if all {
                return Ok(true);
            }
            if !self.pause.again() {
                return Ok(false);
            }
        }
        Ok(false)
    }

    // Answers reads by the hall to which all entries were applied that stand in the log now. They are no entry.
    fn answer_reads(
        &mut self,
        reply_queue: &mut ReplyQueue,
        reads: &[Read],
    ) -> Result<Prefetch, LogFault> {
        if !self.read_to_end(reply_queue)? {
            return Ok(Prefetch::Lost);
        }
        if self.log.is_blind() {
            return Err(LogFault::Astray);
        }
        self.check_terms()?;
        let Ok(()) = put_replies(self.alloc, self.log.hall(), reads, reply_queue) else {
            return Err(LogFault::Memory);
        };
        self.answers = true;
        Ok(Prefetch::Known)
    }

    /// Has the clients of this front end be served by these rules from now on. Reads are logged and all is admitted until this is called. Each entry tells
    /// its rules, so that front ends of one log may differ in them.
    pub fn choose_rules(&mut self, rules: Rules) {
        self.rules = rules;
    }

    /// Returns true: other front ends share the stays in the pool, so that this persister ends them itself.
    pub fn shares_stays(&self) -> bool {
        true
    }

    /// Returns the lease since which a stay is kept that begins now: that of its next entry. A lease lapses 20 seconds after the last of its entries that
    /// stood was sent, and then the next entry begins another.
    pub fn lease(&self) -> u64 {
        self.sessions.lease_at(self.pause.seconds())
    }

    /// Returns true if and only if this front end may answer those who keep stays since this lease: it goes on. The last of its entries that stood was
    /// sent less than 20 seconds ago, and each was known to stand less than 20 seconds after the one before was sent. Others end its stays only later
    /// than that and the grace time.
    pub fn may_answer_stays(&self, lease: u64) -> bool {
        self.sessions.may_answer(lease, self.pause.seconds())
    }

    // Offers a compaction if one is due, where the log tells no other terms, and answers nothing.
    fn compact_at_rest(&mut self, reply_queue: &mut ReplyQueue) -> Result<(), LogFault> {
        reply_queue.clear();
        self.check_terms()?;
        let compacted = self
            .compaction
            .compact(&mut self.log, &mut self.pause, reply_queue);
        reply_queue.clear();
        compacted
    }

    // Whether the log tells its own terms.
    fn tells_own(&self) -> bool {
        self.log.terms().is_some() && self.check_terms().is_ok()
    }

    // Returns the terms before a change: those of the hall, and its own where the log tells none.
    fn terms_before(&self) -> HallTerms {
        match self.log.terms() {
            Some(told) => told.terms,
            None => self.terms,
        }
    }

    // Whether a change is to wait: numbers would be ended that are held forever.
    fn ends_held(&self) -> bool {
        self.terms_before() == HallTerms::Forever
            && self.terms != HallTerms::Forever
            && self.log.hall().slots().pool().count() > 0
    }

    // Offers a change of the terms to its own for the next place, once.
    fn offer_change(&mut self, reply_queue: &mut ReplyQueue) -> Result<(), LogFault> {
        let told = ToldTerms {
            terms: self.terms,
            was: self.terms_before(),
        };
        let count = self.count.wrapping_add(1);
        let Ok(()) = put_change(&mut self.batch, &self.token, count, told) else {
            return Err(LogFault::Memory);
        };
        self.count = count;
        LogFault::unless_gone(self.log.offer(&self.batch, reply_queue))
    }

    // Reads the log to its end, and offers a change unless the hall has its terms. `None` where that is to be done once more.
    fn try_change(
        &mut self,
        reply_queue: &mut ReplyQueue,
    ) -> Result<Option<TermsChange>, LogFault> {
        match self.log.read(TICK_ENTRIES, reply_queue) {
            Ok(true) => {}
            Ok(false) => return Ok(None),
            Err(cause) => {
                return match LogFault::of_cause(cause) {
                    Some(fault) => Err(fault),
                    None => Ok(None),
                };
            }
        }
        if self.tells_own() {
            return Ok(Some(TermsChange::Stands));
        }
        if self.ends_held() {
            return Ok(Some(TermsChange::Held));
        }
        self.offer_change(reply_queue)?;
        Ok(self.tells_own().then_some(TermsChange::Stands))
    }

    /// Has the terms of the hall be those that this was opened for (`open_any`), by an entry of its own. A change stands at a place up to which all was
    /// read, so that it is known what was before it. It serves nobody.
    ///
    /// # Errors
    ///
    /// Those behind which nothing more is served (`LogFault::of_cause`), `Memory` if an allocation failed, and `Store` if the store does not answer:
    /// then the change may stand.
    pub fn change_terms(&mut self, reply_queue: &mut ReplyQueue) -> Result<TermsChange, LogFault> {
        self.pause.begin();
        for _ in 0..MOST_TRIES {
            if let Some(change) = self.try_change(reply_queue)? {
                return Ok(change);
            }
            if !self.pause.again() {
                break;
            }
        }
        Err(LogFault::Store(StoreFault::Lost))
    }

    // The lines by which the stays end that are to end now, where all of the log was read.
    fn decide(&mut self, left: &[u64]) -> Result<Vec<u8>, AllocError> {
        let ended = self.sessions.ended(&self.token, self.log.kept(), left)?;
        self.gone.note(&self.token, self.log.kept(), &ended);
        lines_of(self.alloc, self.log.hall(), &ended)
    }

    // Offers an entry of these lines for the next place, once.
    fn offer(&mut self, lines: &[u8], reply_queue: &mut ReplyQueue) -> Result<(), LogFault> {
        let sent = self.pause.seconds();
        let count = self.count.wrapping_add(1);
        let Ok(()) = put_batch(
            &mut self.batch,
            Rules::all(Reads::Logged),
            &self.token,
            count,
            lines,
        ) else {
            return Err(LogFault::Memory);
        };
        self.count = count;
        match self.log.offer(&self.batch, reply_queue) {
            Ok(Step::Answered) => {
                self.gone.stand();
                self.sessions.renew(sent, self.pause.seconds());
                Ok(())
            }
            Ok(Step::Passed | Step::Nothing) => Ok(()),
            Err(cause) => match LogFault::of_cause(cause) {
                Some(fault) => Err(fault),
                None => Ok(()),
            },
        }
    }

    // Ends the stays that are to end now, where all of the log was read.
    fn end_due(&mut self, reply_queue: &mut ReplyQueue, left: &[u64]) -> Result<(), LogFault> {
        reply_queue.clear();
        let Ok(lines) = self.decide(left) else {
            return Err(LogFault::Memory);
        };
        let now = self.pause.seconds();
        if lines.is_empty() && !self.sessions.wants_heartbeat(&self.token, now) {
            return Ok(());
        }
        let offered = self.offer(&lines, reply_queue);
        reply_queue.clear();
        offered
    }

    // The same, where the log tells no other terms.
    fn end_by_terms(&mut self, reply_queue: &mut ReplyQueue, left: &[u64]) -> Result<(), LogFault> {
        self.check_terms()?;
        self.end_due(reply_queue, left)
    }

    /// Ends stays in the pool by one entry at most: those of these identities, which nobody keeps at this front end any more, if it keeps them as
    /// the log tells, and those of front ends of which nothing was heard for longer than they may answer, and the grace time. It is to be called
    /// about once a second. Where this front end keeps a stay and had no entry for 5 seconds, it has an empty one.
    ///
    /// The entry is offered once, for the place up to which the log was read. Where another came first, it is not offered again.
    ///
    /// # Errors
    ///
    /// Those behind which nothing more is served (`LogFault::of_cause`), and `Memory` if an allocation failed.
    pub fn end_stays(
        &mut self,
        reply_queue: &mut ReplyQueue,
        left: &[u64],
    ) -> Result<(), LogFault> {
        self.gone.clear();
        let read = self.log.read(TICK_ENTRIES, reply_queue);
        self.answers = read.is_ok();
        match read {
            Ok(true) => self.end_by_terms(reply_queue, left),
            Ok(false) => Ok(()),
            Err(cause) => match LogFault::of_cause(cause) {
                Some(fault) => Err(fault),
                None => Ok(()),
            },
        }
    }
}

impl<S: Store, T: Pause> Persist<ReplyQueue> for LogPersister<S, T> {
    type Fault = LogFault;

    fn put_held<B: Allocator>(
        &self,
        _reply_queue: &ReplyQueue,
        query: HeldQuery,
        out: &mut Replies<B>,
    ) {
        put_held(self.log.hall().slots(), query, out);
    }

    fn room(&self, _reply_queue: &ReplyQueue) -> u64 {
        room_of(self.log.hall())
    }

    fn is_full(&self, _reply_queue: &ReplyQueue) -> bool {
        false
    }

    fn persist(&mut self, reply_queue: &mut ReplyQueue) -> Result<(), LogFault> {
        if !reply_queue.is_used_up() {
            return Err(LogFault::Astray);
        }
        Ok(())
    }

    fn most_prefetched(&self) -> Option<usize> {
        Some(MOST_BATCH - HEAD)
    }

    fn prefetch(
        &mut self,
        reply_queue: &mut ReplyQueue,
        lines: &[u8],
    ) -> Result<Prefetch, LogFault> {
        self.count = self.count.wrapping_add(1);
        match self.plain_reads(lines)? {
            Some(reads) => self.answer_reads(reply_queue, &reads),
            None => self.write_batch(reply_queue, lines),
        }
    }

    fn tick(&mut self, reply_queue: &mut ReplyQueue) -> Result<(), LogFault> {
        let caught_up = self.log.catch_up(TICK_ENTRIES, reply_queue);
        self.lasting.look(self.log.hall());
        self.answers = caught_up.is_ok();
        self.shorten_grace();
        let Err(cause) = caught_up else {
            return self.compact_at_rest(reply_queue);
        };
        match LogFault::of_cause(cause) {
            Some(fault) => Err(fault),
            None => Ok(()),
        }
    }

    fn shares_stays(&self) -> bool {
        LogPersister::shares_stays(self)
    }

    fn end_stays(&mut self, reply_queue: &mut ReplyQueue, due: &[u64]) -> Result<(), LogFault> {
        LogPersister::end_stays(self, reply_queue, due)
    }

    fn ended_of_gone(&self) -> &[u64] {
        self.gone.ended()
    }

    fn has_stay(&self, _reply_queue: &ReplyQueue, identity: u64) -> bool {
        self.log.hall().slots().pool().stay_of(identity).is_some()
    }

    fn lease(&self) -> u64 {
        LogPersister::lease(self)
    }

    fn may_answer_stays(&self, lease: u64) -> bool {
        LogPersister::may_answer_stays(self, lease)
    }

    fn changes(&self) -> Option<&Feed> {
        Some(self.log.changes())
    }

    fn trouble(&self) -> Option<&'static str> {
        if self.log.differs() {
            return Some(DIFFERS);
        }
        if self.no_space {
            Some(NO_SPACE)
        } else {
            None
        }
    }

    fn lasting_tenths(&self) -> u8 {
        self.lasting.tenths()
    }

    fn tally(&self, _reply_queue: &ReplyQueue) -> Tally {
        Tally {
            log_place: Some(self.log.place()),
            log_since_compaction: Some(self.log.entries_since_compaction()),
            log_answers: Some(self.answers),
            compactions: Some(self.log.compactions()),
            ..tally_of(self.alloc, self.log.hall())
        }
    }
}
