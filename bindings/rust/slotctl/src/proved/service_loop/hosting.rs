// Erased by bindings/rust/erase from crates/service_loop/src/hosting.rt, sha256 c62cdb96937a9a55b4f2b8edd3b4aa68288ede3fc0ba2d31dbdb3a33fba243d8.
//! A server in one thread, by the readiness of its sockets.

use crate::kit::alloc::{AllocError, Global};
use crate::kit::format;
use crate::kit::io;
use crate::kit::io::{ErrorKind, Write};
use crate::kit::mio::event::Event;
use crate::kit::mio::net::TcpListener;
use crate::kit::mio::unix::SourceFd;
use crate::kit::mio::{Events, Interest, Poll, Token};
use crate::kit::net::{Net, SocketAddr};
use crate::kit::os::fd::RawFd;
use crate::kit::rt::Clock;
use crate::kit::sync::Wait;
use crate::kit::time::{Duration, Instant};
use crate::kit::String;
use crate::proved::model_asked::kind::WorldKind;
use crate::proved::service_loop::answering::answer_queries;
use crate::proved::service_loop::attended::Attended;
use crate::proved::service_loop::audit::Audit;
use crate::proved::service_loop::audit_log::AuditLog;
use crate::proved::service_loop::connections::ConnectionTable;
use crate::proved::service_loop::doors::{Accepted, Doors};
use crate::proved::service_loop::feed::Feed;
use crate::proved::service_loop::first_point::FirstPoint;
use crate::proved::service_loop::gathering::{iterate_prefetched, Batch, Called};
use crate::proved::service_loop::host_fault::HostFault;
use crate::proved::service_loop::manner::Manner;
use crate::proved::service_loop::persist::Persist;
use crate::proved::service_loop::releasing::end_due;
use crate::proved::service_loop::shared::SharedBuffers;
use crate::proved::service_loop::socket::Socket;
use crate::proved::service_loop::take_queue::TakeQueue;
use crate::proved::service_loop::taking::{prefetch_takings, serve_takings};
use crate::proved::service_loop::teller::Teller;
use crate::proved::service_loop::terms::Terms;
use crate::proved::service_loop::turns::iterate;
use crate::proved::service_loop::watch_line::end_told;
use crate::proved::service_loop::watching::{LoopNumbers, Watch};
use crate::proved::service_watch::listeners::listening::Listeners;
use crate::proved::service_watch::numbers::Tally;
use crate::proved::service_watch::scrapers::Scrapers;
use crate::proved::text_player::service::Service;

/// The token of standard input; no seat has it.
const STOPPER: Token = Token((1 << 60) + 1);

/// How many events are reported at once.
const EVENTS: usize = 1024;

/// The most connections that are accepted in one turn.
const MOST_ACCEPTS: u32 = 1024;

/// What is said once where the system has no room for one more connection.
pub(crate) const FULL: &[u8] =
    b"slotctl: no room for more connections; those that wait are accepted as others leave\n";

/// How many seconds pass from one report to the next; the first is due at once.
const REPORT_TICKS: u64 = 60;

/// How many rounds, each of which waits for a tenth of a second at most, are given at the end for replies to be taken, the one in which the
/// end is reported among them.
const LAST_ROUNDS: u64 = 11;

/// What a host serves.
#[derive(Clone, Copy, Debug)]
pub struct HostOptions {
    /// The world whose commands clients speak.
    pub kind: WorldKind,
    /// Whether a client that takes a number is told a token.
    pub tokens: bool,
    /// Whether clients own their identities by secrets.
    pub owners: bool,
    /// How many clients are served at once; others wait to be accepted.
    pub clients: usize,
    /// After how many seconds a client that says nothing is closed; never, where it is not given.
    pub idle: Option<u64>,
    /// How many seconds after its connection has ended a stay ends; never, where it is not given.
    pub grace: Option<u64>,
    /// Whether a line at first and then one a minute tells how much there is.
    pub reports: bool,
    /// Whether a log of an audit is written, whose file may be moved at any time.
    pub logs: bool,
}

impl HostOptions {
    // How numbers are taken.
    pub(crate) fn manner(&self) -> Manner {
        Manner {
            wide: self.kind.is_wide(),
            tokens: self.tokens,
        }
    }

    // What a client is told that asks for the terms.
    fn terms(&self) -> Terms {
        Terms {
            grace: self.grace,
            idle: self.idle,
        }
    }
}

/// What was served.
#[derive(Clone, Copy, Debug, PartialEq, Eq)]
pub struct Hosted {
    /// How many connections were served, those that ended by a fault of their own among them.
    pub served: u64,
}

/// A server under way.
pub(crate) struct Hosting {
    alloc: Global,
    options: HostOptions,
    poll: Poll,
    /// What the system told last.
    events: Events<Global>,
    doors: Doors,
    connections: ConnectionTable,
    /// Those who wait for numbers.
    queue: TakeQueue,
    /// The point before the first change of who holds numbers.
    first: FirstPoint,
    start: Instant,
    /// The second since the start that is under way.
    second: u64,
    /// How many seconds were counted, and at which count the next report is due.
    tick: u64,
    report: u64,
    /// Whether it is one of several, and others wait for the system: it never waits itself.
    within: bool,
    /// Whether the system told anything when it was last asked.
    told: bool,
    /// Whether one could not be accepted, until one leaves.
    full: bool,
    /// Whether it was said that one could not be accepted.
    said: bool,
    /// Whether the answers that were wanted last were not prefetched, and whether that was said.
    lost: bool,
    said_lost: bool,
    stop: bool,
    /// For how many rounds more what waits is sent, once it is to stop.
    last: u64,
    /// What goes to the persister before a turn, where the service prefetches its answers.
    batch: Option<Batch<Global>>,
    /// Whether a second has passed since the persister was last told.
    ticked: bool,
    /// Whether a second has passed since who says nothing was last closed.
    sweeps: bool,
    /// Whether a second has passed since it was last looked for stays that are to end.
    looks: bool,
    /// Whether a second has passed since the log of the audit was last told.
    rotates: bool,
    /// Whether it was said that it could not be written.
    said_unwritten: bool,
    teller: Teller,
    /// Whether it was said that something is amiss with the persister.
    said_trouble: bool,
    /// Of how many tenths of the history's room it was said that they are used up: 0, 5 or 9.
    said_tenths: u8,
    /// Those who watch, where any may.
    watch: Option<Watch>,
}

/// Serves clients of one service, each its own transcript, in one thread.
///
/// Lines `listening ADDRESS:PORT`, `listening PATH`, `admin PATH` and `metrics ADDRESS:PORT` are written first, of what is listened on. Each turn takes what
/// clients have sent, keeps what the service tells of it, and only then sends replies (`iterate`); where the service prefetches its answers, what
/// was read goes to the persister before (`iterate_prefetched`), which is called once a second too. It ends at the end of standard input where
/// that is a pipe, or else never: then replies are sent, as far as clients take them within a second, and a line `served N` is written. Those who
/// watch are served between the turns: what they ask changes neither the service nor the persister. Where the options give a grace time, stays
/// whose connections have ended are ended between the turns (`end_due`). What the audit of the service tells is appended to a log once all of an
/// iteration is kept.
///
/// # Errors
///
/// - `Memory`: an allocation failed.
/// - `Network`: the system's poll failed.
/// - `Output`: `output` failed.
/// - `Persist`: the persister failed. Nothing is sent of that turn.
pub fn host<R, D: Service<R>, K: Persist<D>, L: AuditLog, W: Write, E: Write>(
    rt: &R,
    alloc: Global,
    options: HostOptions,
    listeners: Listeners,
    service: &mut Attended<D>,
    persister: &mut K,
    log: &mut L,
    output: &mut W,
    errors: &mut E,
) -> Result<Hosted, HostFault<K::Fault>>
where
    R: Net + Wait + Clock,
{
    let mut shared = SharedBuffers::new(alloc)?;
    let mut hosting = Hosting::new(rt, alloc, options, listeners, persister.most_prefetched())?;
    hosting.tell_listening(output)?;
    hosting.tell_trouble(persister.trouble(), errors);
    let manner = options.manner();
    for _ in rt.forever() {
        hosting.go_round(
            rt,
            manner,
            options.grace,
            service,
            persister,
            &mut shared,
            log,
            errors,
        )?;
        if hosting.is_over() {
            break;
        }
    }
    hosting.tell_end(output)
}

/// A poll that tells under this token of standard input when it ends.
pub(crate) fn new_poll<R: Net>(rt: &R, stopper: Token) -> io::Result<Poll> {
    let poll = Poll::new(rt)?;
    // A file or the null device cannot be waited for, and never stops the server.
    let _ = poll
        .registry()
        .register(&mut SourceFd(&0), stopper, Interest::READABLE);
    Ok(poll)
}

// Those who watch, where a listener for them is given.
fn watch_at(
    alloc: Global,
    poll: &Poll,
    listener: Option<TcpListener>,
) -> io::Result<Option<Watch>> {
    match listener {
        Some(listener) => Ok(Some(Watch::new(Scrapers::new(alloc, poll, listener)?))),
        None => Ok(None),
    }
}

// What a server waits on, and who comes in there.
struct Entrance {
    poll: Poll,
    doors: Doors,
    watch: Option<Watch>,
    /// Whether others wait for the system, and let in who comes.
    within: bool,
}

// Waits on listeners.
fn enter_at<R: Net>(rt: &R, alloc: Global, listeners: Listeners) -> io::Result<Entrance> {
    let Listeners {
        network,
        local,
        admin,
        metrics,
    } = listeners;
    let poll = new_poll(rt, STOPPER)?;
    let doors = Doors::new(&poll, network, local, admin)?;
    let watch = watch_at(alloc, &poll, metrics)?;
    Ok(Entrance {
        poll,
        doors,
        watch,
        within: false,
    })
}

// Waits for the connections that others let in.
fn enter_within<R: Net>(rt: &R) -> io::Result<Entrance> {
    let poll = Poll::new(rt)?;
    let doors = Doors::new(&poll, None, None, None)?;
    Ok(Entrance {
        poll,
        doors,
        watch: None,
        within: true,
    })
}

// What changes of who holds numbers: as the persister tells, where other servers share the service.
fn changes_of<'a, D, K: Persist<D>>(service: &'a Attended<D>, persister: &'a K) -> &'a Feed {
    match persister.changes() {
        Some(changes) => changes,
        None => &service.changes,
    }
}

// What goes to the persister before a turn, where the service prefetches its answers.
fn new_batch(alloc: Global, kind: WorldKind, most: Option<usize>) -> Option<Batch<Global>> {
    match most {
        Some(most) => Some(Batch::new(alloc, kind, most)),
        None => None,
    }
}

// Whether an event is of those who watch, and noted then.
fn note_watcher(watch: &mut Option<Watch>, event: &Event) -> bool {
    match watch {
        Some(watch) => watch.scrapers().note(event),
        None => false,
    }
}

impl Hosting {
    // Listens.
    fn new<R: Net + Clock, F>(
        rt: &R,
        alloc: Global,
        options: HostOptions,
        listeners: Listeners,
        most_prefetched: Option<usize>,
    ) -> Result<Hosting, HostFault<F>> {
        let entrance = enter_at(rt, alloc, listeners)?;
        let teller = Teller::new(rt, alloc)?;
        Hosting::entered(rt, alloc, options, entrance, teller, most_prefetched)
    }

    /// One of several, of this name: others wait for the system, and let in who comes.
    ///
    /// # Errors
    ///
    /// - `Memory`: an allocation failed.
    /// - `Network`: what the system says.
    pub(crate) fn within<R: Net + Clock, F>(
        rt: &R,
        alloc: Global,
        options: HostOptions,
        name: String,
        most_prefetched: Option<usize>,
    ) -> Result<Hosting, HostFault<F>> {
        let entrance = enter_within(rt)?;
        let teller = Teller::named(rt, alloc, name)?;
        Hosting::entered(rt, alloc, options, entrance, teller, most_prefetched)
    }

    // Listens there.
    fn entered<R: Clock, F>(
        rt: &R,
        alloc: Global,
        options: HostOptions,
        entrance: Entrance,
        teller: Teller,
        most_prefetched: Option<usize>,
    ) -> Result<Hosting, HostFault<F>> {
        let Entrance {
            poll,
            doors,
            watch,
            within,
        } = entrance;
        Ok(Hosting {
            alloc,
            options,
            poll,
            events: Events::with_capacity(alloc, EVENTS)?,
            doors,
            connections: ConnectionTable::new(alloc, options.clients)?,
            queue: TakeQueue::new(alloc),
            first: FirstPoint::at_start(rt),
            start: Instant::now(rt)?,
            second: 0,
            tick: 0,
            report: 0,
            within,
            told: false,
            full: false,
            said: false,
            lost: false,
            said_lost: false,
            stop: false,
            last: LAST_ROUNDS,
            batch: new_batch(alloc, options.kind, most_prefetched),
            ticked: false,
            sweeps: false,
            looks: false,
            rotates: false,
            said_unwritten: false,
            teller,
            said_trouble: false,
            said_tenths: 0,
            watch,
        })
    }

    /// The file descriptor by which others wait until the system has something to tell of it.
    pub(crate) fn descriptor(&self) -> RawFd {
        self.poll.as_raw_fd()
    }

    /// It is to end: what waits is sent for some rounds more.
    pub(crate) fn stop(&mut self) {
        self.stop = true;
    }

    /// How many connections it has.
    pub(crate) fn clients(&self) -> usize {
        self.connections.open
    }

    /// How many connections it has had.
    pub(crate) fn accepted(&self) -> u64 {
        self.connections.accepted()
    }

    /// Whether another round has something to do, with nothing more told by the system.
    pub(crate) fn is_due(&self) -> bool {
        self.told || self.stop || self.is_busy()
    }

    // Once round: waits, accepts, has the persister go on, serves, and tells what was done, and how much there is where that is due or asked.
    pub(crate) fn go_round<R: Clock, D: Service<R>, K: Persist<D>, L: AuditLog, E: Write>(
        &mut self,
        rt: &R,
        manner: Manner,
        grace: Option<u64>,
        service: &mut Attended<D>,
        persister: &mut K,
        shared: &mut SharedBuffers<Global>,
        log: &mut L,
        errors: &mut E,
    ) -> Result<(), HostFault<K::Fault>> {
        self.wait(rt, &mut service.audit)?;
        self.accept_all(&mut service.audit)?;
        self.tell_full(errors);
        self.tell_tick(&mut service.service, persister)?;
        self.serve_all(rt, manner, grace, service, persister, shared)?;
        self.tell_trouble(persister.trouble(), errors);
        self.tell_room(persister.lasting_tenths(), errors);
        self.tell_lost(errors);
        self.write_audit(&mut service.audit, log, errors);
        self.tell_numbers(service, persister, errors);
        Ok(())
    }

    // Writes what the audit tells, all of which is kept. Where a second has passed the log may look where it is.
    fn write_audit<L: AuditLog, E: Write>(
        &mut self,
        audit: &mut Audit,
        log: &mut L,
        errors: &mut E,
    ) {
        if self.rotates {
            self.rotates = false;
            log.tick();
        }
        if !audit.lines().is_empty() {
            let written = log.write(audit.lines());
            audit.settle(written);
        }
        self.tell_unwritten(log.trouble(), errors);
    }

    // Says once that the log of the audit cannot be written, and once that it is written again.
    fn tell_unwritten<E: Write>(&mut self, trouble: Option<ErrorKind>, errors: &mut E) {
        if self.said_unwritten == trouble.is_some() {
            return;
        }
        self.said_unwritten = trouble.is_some();
        match trouble {
            Some(why) => {
                if let Ok(line) = format!(in self.alloc;
                    "slotctl: the file of --log could not be written: {why}; the service goes on\n"
                ) {
                    self.teller.tell(line.as_bytes(), errors);
                }
            }
            None => self
                .teller
                .tell(b"slotctl: the file of --log is written again\n", errors),
        }
    }

    // Tells how much there is where that is due, and those who watch.
    fn tell_numbers<D, K: Persist<D>, E: Write>(
        &mut self,
        service: &Attended<D>,
        persister: &K,
        errors: &mut E,
    ) {
        if self.is_report_due() {
            self.tell_tally(persister.tally(&service.service), errors);
        }
        self.serve_watchers(service, persister);
    }

    /// Whether it is to end, and nothing waits to be sent or what waits had its time. Is asked once a round.
    pub(crate) fn is_over(&mut self) -> bool {
        if !self.stop {
            return false;
        }
        self.last = self.last.saturating_sub(1);
        self.last == 0 || !self.connections.has_unsent()
    }

    // Whether a connection that waits can be accepted.
    fn can_accept(&self) -> bool {
        self.doors.are_waited_at()
            && !self.full
            && self.connections.open < self.options.clients
            && !self.stop
    }

    // Whether anything is to be done at once: connections or watchers are due, or connections wait to be accepted.
    fn is_busy(&self) -> bool {
        let watched = match &self.watch {
            Some(watch) => watch.is_due(),
            None => false,
        };
        watched || self.can_accept() || !self.connections.ready.is_empty() || self.has_ended()
    }

    // Whether connections have ended whose stays are to be looked at.
    fn has_ended(&self) -> bool {
        self.options.grace.is_some() && !self.connections.ended.is_empty()
    }

    // Whether seconds are to be counted: clients are there or may be let in again, or somebody looks on.
    fn counts_seconds(&self) -> bool {
        0 < self.connections.open
            || self.full
            || self.options.grace.is_some()
            || self.options.reports
            || self.options.logs
            || self.batch.is_some()
            || self.watch.is_some()
    }

    /// For how long nothing need be done: a tenth of a second at the end, no time where anything is due, a second where seconds are to be
    /// counted, else twenty.
    pub(crate) fn next_wait(&self) -> Duration {
        if self.stop {
            Duration::from_millis(100)
        } else if self.is_busy() {
            Duration::from_millis(0)
        } else if self.counts_seconds() {
            Duration::from_millis(1000)
        } else {
            Duration::from_secs(20)
        }
    }

    // Waits, and notes what the system tells. Who says nothing is closed only where all that the system has to tell was noted: a wait that
    // was interrupted tells nothing, and one that tells as much as there is room for may leave something untold.
    fn wait<R: Clock, F>(&mut self, rt: &R, audit: &mut Audit) -> Result<(), HostFault<F>> {
        let most = if self.within {
            Duration::from_millis(0)
        } else {
            self.next_wait()
        };
        self.told = self.note_events(most)?;
        self.note_tick(rt)?;
        audit.note_time(rt);
        if self.sweeps && !self.note_events(Duration::from_millis(0))? {
            self.sweeps = false;
            self.connections
                .sweep(self.tick, self.options.idle, &self.queue, audit)?;
        }
        Ok(())
    }

    // Waits for so long at most, and notes what the system tells. Says whether it tells anything.
    fn note_events<F>(&mut self, most: Duration) -> Result<bool, HostFault<F>> {
        self.poll.poll(&mut self.events, Some(most))?;
        let mut reported = false;
        for event in &self.events {
            reported = true;
            if event.token() == STOPPER {
                self.stop = self.stop || event.is_read_closed();
            } else if !self.doors.note(event.token()) && !note_watcher(&mut self.watch, event) {
                self.connections.note(event)?;
            }
        }
        Ok(reported)
    }

    // Notes that a second has passed. Where the loop stalled for many they count as one, so that nobody counts as idle for what was no fault
    // of his, and that no later second counts for many.
    fn note_tick<R: Clock, F>(&mut self, rt: &R) -> Result<(), HostFault<F>> {
        let second = self.start.elapsed(rt)?.as_secs();
        if self.second < second {
            self.second = second;
            self.tick = self.tick.saturating_add(1);
            self.full = false;
            self.ticked = true;
            self.sweeps = true;
            self.looks = true;
            self.rotates = true;
        }
        Ok(())
    }

    // Accepts who waits, as far as there is room: never more are served at once than the options let.
    fn accept_all(&mut self, audit: &mut Audit) -> Result<(), AllocError> {
        for _ in 0..MOST_ACCEPTS {
            if !self.can_accept() {
                break;
            }
            self.accept(audit)?;
        }
        Ok(())
    }

    // Hears which connections have ended, ends the stays that are due, and gives each connection that is due its turn. Whoever keeps a stay and may
    // not be answered is sent nothing.
    fn serve_all<R, D: Service<R>, K: Persist<D>>(
        &mut self,
        rt: &R,
        manner: Manner,
        grace: Option<u64>,
        service: &mut Attended<D>,
        persister: &mut K,
        shared: &mut SharedBuffers<Global>,
    ) -> Result<(), HostFault<K::Fault>> {
        self.end_stays(rt, manner, grace, service, persister, shared)?;
        self.serve(rt, manner, service, persister, shared)
    }

    // Gives each connection that is due its turn.
    fn serve<R, D: Service<R>, K: Persist<D>>(
        &mut self,
        rt: &R,
        manner: Manner,
        service: &mut Attended<D>,
        persister: &mut K,
        shared: &mut SharedBuffers<Global>,
    ) -> Result<(), HostFault<K::Fault>> {
        match self.iterate_all(rt, service, persister, shared) {
            Ok(called) => {
                self.note_lost(called);
                self.take_numbers(rt, manner, service, persister, shared, called)?;
                self.answer(service, persister, shared, called);
                self.settle(called.count(), changes_of(service, persister))
            }
            Err(fault) => Err(HostFault::Persist(fault)),
        }
    }

    // Makes one iteration over the connections that are due.
    fn iterate_all<R, D: Service<R>, K: Persist<D>>(
        &mut self,
        rt: &R,
        service: &mut Attended<D>,
        persister: &mut K,
        shared: &mut SharedBuffers<Global>,
    ) -> Result<Called, K::Fault> {
        let ConnectionTable {
            seats,
            numbers,
            ready,
            ..
        } = &mut self.connections;
        shared.share_among(ready.len());
        match &mut self.batch {
            None => {
                let numbers = numbers.all();
                let called = iterate(rt, service, persister, shared, seats, numbers, ready)?;
                Ok(Called::Served(called))
            }
            Some(batch) => {
                let numbers = numbers.all();
                iterate_prefetched(rt, service, persister, batch, shared, seats, numbers, ready)
            }
        }
    }

    // Takes numbers for those who say `take`, where any do.
    fn take_numbers<R, D: Service<R>, K: Persist<D>>(
        &mut self,
        rt: &R,
        manner: Manner,
        service: &mut Attended<D>,
        persister: &mut K,
        shared: &mut SharedBuffers<Global>,
        called: Called,
    ) -> Result<(), HostFault<K::Fault>> {
        let Called::Served(count) = called else {
            return Ok(());
        };
        if !shared.waits && self.queue.is_empty() {
            return Ok(());
        }
        shared.patient = self.call_takers(&service.service, persister, count)?;
        if self.queue.called().is_empty() {
            return Ok(());
        }
        match self.take_numbers_of(rt, manner, service, persister, shared) {
            Ok(taken) => {
                self.note_lost(taken);
                Ok(())
            }
            Err(fault) => Err(HostFault::Persist(fault)),
        }
    }

    // Chooses who takes a number now, of those who wait and of those of the first of the seats that are ready. Says whether they wait on where they are
    // refused.
    fn call_takers<D, K: Persist<D>>(
        &mut self,
        service: &D,
        persister: &K,
        count: usize,
    ) -> Result<bool, AllocError> {
        let few = count.min(self.connections.ready.len());
        let seats = &self.connections.seats;
        let numbers = self.connections.numbers.all();
        self.queue.let_go(seats, numbers);
        let ready = &self.connections.ready[..few];
        self.queue
            .note(service, persister, seats, numbers, ready, self.tick)?;
        self.queue.call(persister.room(service), self.tick)
    }

    // Takes numbers for those who are called.
    fn take_numbers_of<R, D: Service<R>, K: Persist<D>>(
        &mut self,
        rt: &R,
        manner: Manner,
        service: &mut Attended<D>,
        persister: &mut K,
        shared: &mut SharedBuffers<Global>,
    ) -> Result<Called, K::Fault> {
        let ConnectionTable { seats, numbers, .. } = &mut self.connections;
        let numbers = numbers.all();
        let called = self.queue.called();
        match &mut self.batch {
            None => {
                serve_takings(
                    rt, service, persister, shared, seats, numbers, called, manner, false,
                )?;
                Ok(Called::Served(called.len()))
            }
            Some(batch) => prefetch_takings(
                rt, service, persister, batch, shared, seats, numbers, called, manner,
            ),
        }
    }

    // Answers who asks who holds numbers, what changes of that, or the terms.
    fn answer<D, K: Persist<D>>(
        &mut self,
        service: &Attended<D>,
        persister: &K,
        shared: &mut SharedBuffers<Global>,
        called: Called,
    ) {
        if !shared.waits {
            return;
        }
        if let Called::Served(count) = called {
            let terms = self.options.terms();
            let ConnectionTable { seats, ready, .. } = &mut self.connections;
            let few = count.min(ready.len());
            let changes = changes_of(service, persister);
            answer_queries(
                &service.service,
                persister,
                terms,
                changes,
                &self.first,
                shared,
                seats,
                &ready[..few],
            );
        }
    }

    // After the turn of so many: where one has left, another may be accepted again.
    fn settle<F>(&mut self, called: usize, changes: &Feed) -> Result<(), HostFault<F>> {
        let before = self.connections.open;
        let end = end_told(changes, &self.first);
        self.connections
            .settle(called, self.tick, &self.queue, end)?;
        self.queue.clear_called();
        self.full = self.full && before <= self.connections.open;
        Ok(())
    }

    // Hears which connections have ended, and ends the stays that are due. Whoever keeps a stay and may not be answered is at fault.
    fn end_stays<R, D: Service<R>, K: Persist<D>>(
        &mut self,
        rt: &R,
        manner: Manner,
        grace: Option<u64>,
        service: &mut Attended<D>,
        persister: &mut K,
        shared: &mut SharedBuffers<Global>,
    ) -> Result<(), HostFault<K::Fault>> {
        let ended = self.has_ended();
        self.connections.note_ended(service, self.lost, self.tick);
        self.end_if_due(rt, manner, grace, service, persister, shared, ended)?;
        // To end stays may take long, so that is asked last.
        self.connections.check_keepers(persister, &service.stays)?;
        Ok(())
    }

    // Ends the stays that are due, where a second has passed or connections have ended, and any are to end.
    fn end_if_due<R, D: Service<R>, K: Persist<D>>(
        &mut self,
        rt: &R,
        manner: Manner,
        grace: Option<u64>,
        service: &mut Attended<D>,
        persister: &mut K,
        shared: &mut SharedBuffers<Global>,
        ended: bool,
    ) -> Result<(), HostFault<K::Fault>> {
        let Some(grace) = grace else {
            return Ok(());
        };
        if service.lacks {
            return Err(HostFault::Memory);
        }
        if !self.looks && (!ended || persister.shares_stays()) {
            return Ok(());
        }
        self.looks = false;
        end_due(
            rt,
            self.alloc,
            service,
            persister,
            &mut shared.view,
            manner.wide,
            grace,
            self.tick,
        )
    }

    // Has the persister go on, where a second has passed.
    fn tell_tick<D, K: Persist<D>>(
        &mut self,
        service: &mut D,
        persister: &mut K,
    ) -> Result<(), HostFault<K::Fault>> {
        if !self.ticked {
            return Ok(());
        }
        self.ticked = false;
        match persister.tick(service) {
            Ok(()) => Ok(()),
            Err(fault) => Err(HostFault::Persist(fault)),
        }
    }

    // Accepts one connection, if one waits. Where the system has no room for it, none is accepted until another leaves.
    fn accept(&mut self, audit: &mut Audit) -> Result<(), AllocError> {
        match self.doors.accept() {
            Accepted::Stream(stream, peer) => self.welcome(stream, peer, audit)?,
            Accepted::Nobody => {}
            Accepted::Full => self.full = true,
        }
        Ok(())
    }

    /// Lets in one connection, from this address where it is of the network.
    ///
    /// # Errors
    ///
    /// `AllocError`: an allocation failed. The stream is closed.
    pub(crate) fn welcome(
        &mut self,
        mut stream: Socket,
        peer: Option<SocketAddr>,
        audit: &mut Audit,
    ) -> Result<(), AllocError> {
        if self.options.owners {
            stream.own(self.alloc);
        }
        let kind = self.options.kind;
        let admitted = self
            .connections
            .admit(self.alloc, &self.poll, kind, stream, self.tick)?;
        if let Some(number) = admitted {
            audit.admit(number, peer)?;
        }
        Ok(())
    }

    // Says once that no more are accepted for now.
    fn tell_full<E: Write>(&mut self, errors: &mut E) {
        if self.full && !self.said {
            self.said = true;
            self.teller.tell(FULL, errors);
        }
    }

    // Notes whether the answers that were wanted in a turn were prefetched, where any were.
    fn note_lost(&mut self, called: Called) {
        if let Some(batch) = &self.batch {
            if batch.holds || !batch.lines.is_empty() {
                self.lost = matches!(called, Called::Unserved(_));
            }
        }
    }

    // Says that answers are not prefetched, and that they are again, once each.
    fn tell_lost<E: Write>(&mut self, errors: &mut E) {
        if self.lost == self.said_lost {
            return;
        }
        self.said_lost = self.lost;
        let text = self.text_of_lost();
        self.teller.tell(text.as_bytes(), errors);
    }

    // What is said of answers that are not prefetched, or are again. Why they are not was said before, where the persister knows that.
    fn text_of_lost(&self) -> &'static str {
        if !self.lost {
            "slotctl: the log answers again\n"
        } else if self.said_trouble {
            "slotctl: clients that asked are closed\n"
        } else {
            "slotctl: the log does not answer; clients that asked are closed\n"
        }
    }

    // Says once what is amiss with the persister, each time that something comes to be.
    fn tell_trouble<E: Write>(&mut self, trouble: Option<&'static str>, errors: &mut E) {
        let said = self.said_trouble;
        self.said_trouble = trouble.is_some();
        if said {
            return;
        }
        if let Some(text) = trouble {
            if let Ok(line) = format!(in self.alloc; "slotctl: {text}\n") {
                self.teller.tell(line.as_bytes(), errors);
            }
        }
    }

    // Says once that half of the history's room is used up for good, and once that nine tenths are.
    fn tell_room<E: Write>(&mut self, tenths: u8, errors: &mut E) {
        let said = self.said_tenths;
        if 9 <= tenths && said < 9 {
            self.said_tenths = 9;
            self.teller.tell(
                b"slotctl: nine tenths of the history's room are used up, and no compaction gives them back\n",
                errors,
            );
        } else if 5 <= tenths && said < 5 {
            self.said_tenths = 5;
            self.teller.tell(
                b"slotctl: half of the history's room is used up, and no compaction gives it back\n",
                errors,
            );
        }
    }

    // Whether it is time to tell how much there is: at first and once a minute where that is wanted.
    fn is_report_due(&self) -> bool {
        self.options.reports && self.report <= self.tick
    }

    // Tells how much there is.
    fn tell_tally<E: Write>(&mut self, tally: Tally, errors: &mut E) {
        self.report = self.tick.saturating_add(REPORT_TICKS);
        let events = tally.events;
        let bytes = tally.journal_bytes.unwrap_or(0);
        let clients = self.connections.open;
        // Who looks on gets nothing where the text is not taken, and served all the same.
        if let Ok(line) = format!(in self.alloc;
            "{clients} clients, {events} events, {bytes} bytes of journal\n"
        ) {
            self.teller.tell(line.as_bytes(), errors);
        }
    }

    // Says where clients are listened for, and those who watch.
    fn tell_listening<W: Write, F>(&self, output: &mut W) -> Result<(), HostFault<F>> {
        if let Some(address) = self.doors.address()? {
            put_line(format!(in self.alloc; "listening {address}\n"), output)?;
        }
        if let Some(path) = self.doors.path() {
            put_line(format!(in self.alloc; "listening {path}\n"), output)?;
        }
        if let Some(path) = self.doors.admin_path() {
            put_line(format!(in self.alloc; "admin {path}\n"), output)?;
        }
        if let Some(watch) = &self.watch {
            let address = watch.address()?;
            put_line(format!(in self.alloc; "metrics {address}\n"), output)?;
        }
        Ok(())
    }

    /// What the loop itself knows.
    pub(crate) fn numbers(&self, audit: &Audit) -> LoopNumbers {
        LoopNumbers {
            clients: self.connections.open as u64,
            accepted: self.connections.accepted(),
            faults: self.connections.faults,
            lines: self.connections.lines(),
            ticks: self.tick,
            releases: audit.releases(),
            refusals: audit.refusals(),
            audit_lines_lost: audit.lost(),
            learnt: !self.lost,
        }
    }

    // Serves those who watch, as far as they may go on now.
    fn serve_watchers<D, K: Persist<D>>(&mut self, service: &Attended<D>, persister: &K) {
        let Some(mut watch) = self.watch.take() else {
            return;
        };
        if watch.wants_look(self.tick) {
            let tally = persister.tally(&service.service);
            watch.note(&tally, self.tick);
            watch.scrapers().read(&self.poll, self.tick);
            if watch.scrapers().want_answers() {
                let numbers = watch.numbers(&self.numbers(&service.audit), &tally);
                watch.scrapers().answer(&numbers);
            }
            watch.scrapers().send(self.tick);
        }
        self.watch = Some(watch);
    }

    // Says how many were served: those that have left, and those that are there.
    fn tell_end<W: Write, F>(&self, output: &mut W) -> Result<Hosted, HostFault<F>> {
        let served = self.connections.accepted();
        put_line(format!(in self.alloc; "served {served}\n"), output)?;
        Ok(Hosted { served })
    }
}

/// Writes a line, where there was memory for it.
pub(crate) fn put_line<W: Write, F>(
    line: Result<String, AllocError>,
    output: &mut W,
) -> Result<(), HostFault<F>> {
    let line = line?;
    if output.write_all(line.as_bytes()).is_err() || output.flush().is_err() {
        return Err(HostFault::Output);
    }
    Ok(())
}
