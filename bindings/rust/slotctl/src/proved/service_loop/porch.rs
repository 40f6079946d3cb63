// Erased by bindings/rust/erase from crates/service_loop/src/porch.rt, sha256 2f1f64439ad5b5cd571ea0dff49bd8d0913f07d057f396a7305dff06530bc792.
//! Where those come who choose a pool.

use crate::kit::alloc::{AllocError, Global};
use crate::kit::io;
use crate::kit::mio::event::Event;
use crate::kit::mio::unix::SourceFd;
use crate::kit::mio::{Events, Interest, Poll, Token};
use crate::kit::net::{Net, SocketAddr};
use crate::kit::os::fd::RawFd;
use crate::kit::time::Duration;
use crate::kit::String;
use crate::kit::Vec;
use crate::proved::service_loop::doors::{Accepted, Doors};
use crate::proved::service_loop::hosting::new_poll;
use crate::proved::service_loop::newcomer::{FirstLine, Newcomer};
use crate::proved::service_loop::pool_line::chooses;
use crate::proved::service_loop::socket::Socket;
use crate::proved::service_watch::listeners::listening::Listeners;
use crate::proved::service_watch::scrapers::Scrapers;

/// The token of standard input; nothing else has it.
const STOPPER: Token = Token((1 << 60) + 1);

/// The token of the first who has not chosen a pool yet. Those of the pools are below.
const NEWCOMERS: usize = 1 << 32;

/// How many events are reported at once.
const EVENTS: usize = 1024;

/// The most connections that are accepted in one round.
const MOST_ACCEPTS: u32 = 1024;

/// For how many ticks one may be there without a pool.
const MOST_TICKS: u64 = 10;

/// One who has chosen a pool.
pub(crate) struct Arrival {
    /// The pool's place among the pools.
    pub pool: usize,
    pub stream: Socket,
    /// The address that it comes from, where that is of the network.
    pub peer: Option<SocketAddr>,
}

/// The listeners of a server of several pools, and those who have not chosen one yet.
pub(crate) struct Porch {
    alloc: Global,
    poll: Poll,
    /// What the system told last.
    events: Events<Global>,
    doors: Doors,
    /// Those who watch, where any may.
    scrapers: Option<Scrapers>,
    /// The names of the pools.
    names: Vec<String>,
    seats: Vec<Option<Newcomer>>,
    empty: Vec<usize>,
    /// The seats of those who may be read.
    readable: Vec<usize>,
    /// Those who have chosen a pool since this list was last emptied.
    arrivals: Vec<Arrival>,
    /// The pools of which the system told since this list was last emptied.
    woken: Vec<usize>,
    /// How many have not chosen a pool yet.
    open: usize,
    /// How many left before they chose one.
    left: u64,
    /// Whether one could not be accepted, until a second has passed.
    full: bool,
    stop: bool,
}

// The place of the pool that a line chooses, where there is one.
fn pool_of(names: &[String], line: &[u8]) -> Option<usize> {
    for at in 0..names.len() {
        if chooses(&names[at], line) {
            return Some(at);
        }
    }
    None
}

// Whether an event is of those who watch, and noted then.
fn note_scraper(scrapers: &mut Option<Scrapers>, event: &Event) -> bool {
    match scrapers {
        Some(scrapers) => scrapers.note(event),
        None => false,
    }
}

// Whether whoever sits there has been there for too long.
fn is_late_at(seats: &[Option<Newcomer>], seat: usize, tick: u64) -> bool {
    match seats.get(seat) {
        Some(Some(newcomer)) => MOST_TICKS <= tick.saturating_sub(newcomer.since),
        _ => false,
    }
}

impl Porch {
    /// Listens for those who choose among pools of these names.
    ///
    /// # Errors
    ///
    /// What the system says, and `ErrorKind::OutOfMemory`.
    pub fn new<R: Net>(
        rt: &R,
        alloc: Global,
        listeners: Listeners,
        names: Vec<String>,
    ) -> io::Result<Porch> {
        let Listeners {
            network,
            local,
            admin,
            metrics,
        } = listeners;
        let poll = new_poll(rt, STOPPER)?;
        let doors = Doors::new(&poll, network, local, admin)?;
        let scrapers = match metrics {
            Some(listener) => Some(Scrapers::new(alloc, &poll, listener)?),
            None => None,
        };
        Ok(Porch {
            alloc,
            poll,
            events: Events::with_capacity(alloc, EVENTS)?,
            doors,
            scrapers,
            names,
            seats: Vec::new(alloc),
            empty: Vec::new(alloc),
            readable: Vec::new(alloc),
            arrivals: Vec::new(alloc),
            woken: Vec::new(alloc),
            open: 0,
            left: 0,
            full: false,
            stop: false,
        })
    }

    /// Waits for a pool too: by its own poll, which has this file descriptor.
    ///
    /// # Errors
    ///
    /// What the system says.
    pub fn watch(&self, pool: usize, descriptor: RawFd) -> io::Result<()> {
        self.poll
            .registry()
            .register(&mut SourceFd(&descriptor), Token(pool), Interest::READABLE)
    }

    /// The listeners.
    pub fn doors(&self) -> &Doors {
        &self.doors
    }

    /// The address at which those who watch are listened for, where any may.
    ///
    /// # Errors
    ///
    /// What the system says.
    pub fn metrics_address(&self) -> io::Result<Option<SocketAddr>> {
        match &self.scrapers {
            Some(scrapers) => Ok(Some(scrapers.local_addr()?)),
            None => Ok(None),
        }
    }

    /// Whether any of those who watch may go on with no word of the system.
    pub fn is_watched(&self) -> bool {
        match &self.scrapers {
            Some(scrapers) => scrapers.is_due(),
            None => false,
        }
    }

    /// Whether any of those who watch asked and has no answer, once what came of them was read.
    pub fn want_answers(&mut self, tick: u64) -> bool {
        match &mut self.scrapers {
            Some(scrapers) => {
                scrapers.read(&self.poll, tick);
                scrapers.want_answers()
            }
            None => false,
        }
    }

    /// Answers those who asked, where this is the page, and clients are answered or not.
    pub fn answer(&mut self, ready: bool, page: &[u8]) {
        if let Some(scrapers) = &mut self.scrapers {
            scrapers.answer_by(ready, page);
        }
    }

    /// Sends what waits for those who watch.
    pub fn send(&mut self, tick: u64) {
        if let Some(scrapers) = &mut self.scrapers {
            scrapers.send(tick);
        }
    }

    /// Whether one could not be accepted for now, since the system had no room for it.
    pub fn is_full(&self) -> bool {
        self.full
    }

    /// Whether standard input ended.
    pub fn is_stopped(&self) -> bool {
        self.stop
    }

    /// How many were there who have left before they chose a pool, or are there.
    pub fn accepted(&self) -> u64 {
        self.left.saturating_add(self.open as u64)
    }

    /// A pool of which the system told, where there is one more.
    pub fn next_woken(&mut self) -> Option<usize> {
        self.woken.pop()
    }

    /// One who has chosen a pool, where there is one more.
    pub fn next_arrival(&mut self) -> Option<Arrival> {
        self.arrivals.pop()
    }

    /// Waits for so long at most, and notes what the system tells.
    ///
    /// # Errors
    ///
    /// What the system says, and `ErrorKind::OutOfMemory`.
    pub fn wait(&mut self, most: Duration) -> io::Result<()> {
        self.poll.poll(&mut self.events, Some(most))?;
        for event in &self.events {
            if event.token() == STOPPER {
                self.stop = self.stop || event.is_read_closed();
            } else if !self.doors.note(event.token()) && !note_scraper(&mut self.scrapers, event) {
                note(event.token().0, &mut self.woken, &mut self.readable)?;
            }
        }
        Ok(())
    }

    /// Accepts who waits, where there is room for so many more, and reads the lines of those who are there.
    ///
    /// # Errors
    ///
    /// `AllocError`: an allocation failed.
    pub fn receive(&mut self, room: usize, tick: u64) -> Result<(), AllocError> {
        self.accept_all(room, tick)?;
        for _ in 0..self.readable.len() {
            if let Some(seat) = self.readable.pop() {
                self.hear(seat)?;
            }
        }
        Ok(())
    }

    /// A second has passed: closes those who have not chosen a pool for ten.
    ///
    /// # Errors
    ///
    /// `AllocError`: an allocation failed.
    pub fn sweep(&mut self, tick: u64) -> Result<(), AllocError> {
        self.full = false;
        if let Some(scrapers) = &mut self.scrapers {
            scrapers.tick();
        }
        for seat in 0..self.seats.len() {
            if is_late_at(&self.seats, seat, tick) {
                self.leave(seat)?;
                self.left = self.left.saturating_add(1);
            }
        }
        Ok(())
    }

    /// Whether one who waits may be accepted, where there is room for so many more.
    pub fn can_accept(&self, room: usize) -> bool {
        self.doors.are_waited_at() && !self.full && !self.stop && self.open < room
    }

    // Accepts who waits, where there is room for so many more.
    fn accept_all(&mut self, room: usize, tick: u64) -> Result<(), AllocError> {
        for _ in 0..MOST_ACCEPTS {
            if !self.can_accept(room) {
                break;
            }
            self.accept(tick)?;
        }
        Ok(())
    }

    // Accepts one, if one waits. Where the system has no room for it, none is accepted until a second has passed.
    fn accept(&mut self, tick: u64) -> Result<(), AllocError> {
        match self.doors.accept() {
            Accepted::Stream(stream, peer) => self.admit(stream, peer, tick),
            Accepted::Nobody => Ok(()),
            Accepted::Full => {
                self.full = true;
                Ok(())
            }
        }
    }

    // An empty seat.
    fn empty_seat(&mut self) -> Result<usize, AllocError> {
        if let Some(seat) = self.empty.pop() {
            return Ok(seat);
        }
        let seat = self.seats.len();
        match self.seats.push(None) {
            Ok(()) => Ok(seat),
            Err(_) => Err(AllocError),
        }
    }

    // Gives a seat to a stream. One that cannot be waited for is closed.
    fn admit(
        &mut self,
        mut stream: Socket,
        peer: Option<SocketAddr>,
        tick: u64,
    ) -> Result<(), AllocError> {
        let seat = self.empty_seat()?;
        let token = Token(NEWCOMERS.saturating_add(seat));
        if stream.register(&self.poll, token).is_err() {
            self.empty.push(seat)?;
            return Ok(());
        }
        let newcomer = Newcomer::new(self.alloc, stream, peer, tick);
        if let Some(empty) = self.seats.get_mut(seat) {
            *empty = Some(newcomer);
            self.open = self.open.saturating_add(1);
        }
        self.readable.push(seat)?;
        Ok(())
    }

    // Whoever sits there leaves the seat.
    fn leave(&mut self, seat: usize) -> Result<Option<Newcomer>, AllocError> {
        let Some(held) = self.seats.get_mut(seat) else {
            return Ok(None);
        };
        let newcomer = held.take();
        if newcomer.is_some() {
            self.open = self.open.saturating_sub(1);
            self.empty.push(seat)?;
        }
        Ok(newcomer)
    }

    // Reads the line of whoever sits there. Once it is whole, he goes to the pool that it chooses, or is refused.
    fn hear(&mut self, seat: usize) -> Result<(), AllocError> {
        let came = match self.seats.get_mut(seat) {
            Some(Some(newcomer)) => newcomer.read_line(),
            _ => return Ok(()),
        };
        if came == FirstLine::Begun {
            return Ok(());
        }
        let Some(newcomer) = self.leave(seat)? else {
            return Ok(());
        };
        self.send_on(newcomer, came)
    }

    // One whose line is whole goes to the pool that it chooses. Any other is refused.
    fn send_on(&mut self, mut newcomer: Newcomer, came: FirstLine) -> Result<(), AllocError> {
        let chosen = match came {
            FirstLine::Whole => pool_of(&self.names, &newcomer.line),
            FirstLine::Begun | FirstLine::None => None,
        };
        let told = match chosen {
            Some(_) => newcomer.tell_chosen(),
            None => {
                newcomer.refuse();
                false
            }
        };
        match chosen {
            Some(pool) if told => self.arrive(newcomer, pool),
            _ => {
                self.left = self.left.saturating_add(1);
                Ok(())
            }
        }
    }

    // One goes to a pool, which waits for him from now on.
    fn arrive(&mut self, newcomer: Newcomer, pool: usize) -> Result<(), AllocError> {
        let Newcomer {
            mut stream,
            peer,
            line: _,
            since: _,
        } = newcomer;
        let _ = stream.deregister(&self.poll);
        match self.arrivals.push(Arrival { pool, stream, peer }) {
            Ok(()) => Ok(()),
            Err(_) => Err(AllocError),
        }
    }
}

// Notes that the system told of a pool, or of one who has not chosen one yet.
fn note(token: usize, woken: &mut Vec<usize>, readable: &mut Vec<usize>) -> Result<(), AllocError> {
    if token < NEWCOMERS {
        woken.push(token)?;
    } else {
        readable.push(token - NEWCOMERS)?;
    }
    Ok(())
}
