// Erased by bindings/rust/erase from crates/service_watch/src/scrapers.rt, sha256 81f4624b9fbe39d9ea7fdbe3fabfd59e97c30d2020c2e33b38257e8a8a6049e6.
//! Those who ask for pages.

use crate::kit::alloc::{AllocError, Global};
use crate::kit::io;
use crate::kit::io::ErrorKind;
use crate::kit::mio::event::Event;
use crate::kit::mio::net::{TcpListener, TcpStream};
use crate::kit::mio::{Interest, Poll, Token};
use crate::kit::net::SocketAddr;
use crate::kit::Vec;
use crate::proved::service_watch::numbers::Numbers;
use crate::proved::service_watch::scraper::Scraper;

/// How many ask at once. Where one more comes, another is refused, the oldest first of those that have not asked yet.
pub const MOST_SCRAPERS: usize = 32;

/// For how many ticks one may be there: two seconds are over then, and less than three.
const MOST_TICKS: u64 = 3;

/// The token of their listener. Those of the seats follow it.
const LISTENER: usize = 1 << 61;

/// Those who ask for pages, on seats.
pub struct Scrapers {
    alloc: Global,
    listener: TcpListener,
    seats: Vec<Option<Scraper>>,
    /// Whether some may wait to be accepted.
    waiting: bool,
}

// Whether whoever sits there is due.
fn is_due(seat: &Option<Scraper>) -> bool {
    match seat {
        Some(scraper) => scraper.is_due(),
        None => false,
    }
}

// Whether whoever sits there asked and has no answer.
fn wants_answer(seat: &Option<Scraper>) -> bool {
    match seat {
        Some(scraper) => scraper.wants_answer(),
        None => false,
    }
}

// How soon whoever sits there is refused where one more comes: the sooner, the lower. An empty seat comes first.
fn rank(seat: &Option<Scraper>) -> u64 {
    match seat {
        Some(scraper) => scraper.rank(),
        None => 0,
    }
}

// Whoever sits there is sent what waits. Says whether he is to be closed.
fn is_left(seat: &mut Option<Scraper>, tick: u64) -> bool {
    match seat {
        Some(scraper) => {
            scraper.send();
            scraper.is_over() || MOST_TICKS <= scraper.age(tick)
        }
        None => false,
    }
}

impl Scrapers {
    /// Nobody asks yet.
    ///
    /// # Errors
    ///
    /// What the system says where it does not wait for the listener, and `ErrorKind::OutOfMemory`.
    pub fn new(alloc: Global, poll: &Poll, listener: TcpListener) -> io::Result<Scrapers> {
        let mut listener = listener;
        poll.registry()
            .register(&mut listener, Token(LISTENER), Interest::READABLE)?;
        let mut seats = Vec::with_capacity(alloc, MOST_SCRAPERS)?;
        for _ in 0..MOST_SCRAPERS {
            let pushed: Result<(), AllocError> = seats.push(None).map_err(|_| AllocError);
            pushed?;
        }
        Ok(Scrapers {
            alloc,
            listener,
            seats,
            waiting: false,
        })
    }

    /// The address that is listened on.
    ///
    /// # Errors
    ///
    /// What the system says.
    pub fn local_addr(&self) -> io::Result<SocketAddr> {
        self.listener.local_addr()
    }

    /// Notes what the system tells, and says whether that is of those who ask.
    pub fn note(&mut self, event: &Event) -> bool {
        let token = event.token().0;
        if token < LISTENER {
            return false;
        }
        if token == LISTENER {
            self.waiting = true;
        } else if let Some(Some(scraper)) = self.seats.get_mut(token - LISTENER - 1) {
            scraper.note(event);
        }
        true
    }

    /// Whether any may go on with no word of the system.
    pub fn is_due(&self) -> bool {
        self.waiting || self.seats.iter().any(is_due)
    }

    /// Whether any asked and has no answer.
    pub fn want_answers(&self) -> bool {
        self.seats.iter().any(wants_answer)
    }

    // Gives a seat to a stream. One that cannot be waited for is closed.
    fn admit(&mut self, poll: &Poll, at: usize, mut stream: TcpStream, tick: u64) {
        let both = Interest::READABLE | Interest::WRITABLE;
        let token = Token((LISTENER + 1).saturating_add(at));
        if poll.registry().register(&mut stream, token, both).is_err() {
            return;
        }
        if let Some(seat) = self.seats.get_mut(at) {
            *seat = Some(Scraper::new(self.alloc, stream, tick));
        }
    }

    // The seat for one more: an empty one, or else that of the one who is refused.
    fn next_seat(&self) -> usize {
        let mut next = 0;
        let mut lowest = u64::MAX;
        for at in 0..self.seats.len() {
            let rank = rank(&self.seats[at]);
            if rank < lowest {
                lowest = rank;
                next = at;
            }
        }
        next
    }

    // Refuses whoever sits there.
    fn refuse(&mut self, at: usize) {
        if let Some(seat) = self.seats.get_mut(at) {
            if let Some(scraper) = seat {
                scraper.refuse();
            }
            *seat = None;
        }
    }

    // Accepts one, if one waits. Where the system has no room for it, they wait for the next tick.
    fn accept(&mut self, poll: &Poll, tick: u64) {
        match self.listener.accept() {
            Ok((stream, _)) => {
                let at = self.next_seat();
                self.refuse(at);
                self.admit(poll, at, stream, tick);
            }
            Err(error) => match error.kind() {
                ErrorKind::Interrupted | ErrorKind::ConnectionAborted => {}
                _ => self.waiting = false,
            },
        }
    }

    // Accepts who waits, as many as there are seats.
    fn accept_all(&mut self, poll: &Poll, tick: u64) {
        for _ in 0..MOST_SCRAPERS {
            if !self.waiting {
                break;
            }
            self.accept(poll, tick);
        }
    }

    /// Accepts who waits, as many as there are seats, and reads what came of their requests: so who asks waits for nobody who does not.
    pub fn read(&mut self, poll: &Poll, tick: u64) {
        self.accept_all(poll, tick);
        for seat in &mut self.seats {
            if let Some(scraper) = seat {
                scraper.read();
            }
        }
    }

    /// Answers those who asked.
    pub fn answer(&mut self, numbers: &Numbers) {
        for seat in &mut self.seats {
            if let Some(scraper) = seat {
                if scraper.wants_answer() {
                    scraper.answer(self.alloc, numbers);
                }
            }
        }
    }

    /// Answers those who asked, where this is the page, and clients are answered or not.
    pub fn answer_by(&mut self, ready: bool, page: &[u8]) {
        for seat in &mut self.seats {
            if let Some(scraper) = seat {
                if scraper.wants_answer() {
                    scraper.answer_by(ready, page);
                }
            }
        }
    }

    /// Sends what waits, as far as the streams take it now, and closes who is over or has been there for two seconds.
    pub fn send(&mut self, tick: u64) {
        for seat in &mut self.seats {
            if is_left(seat, tick) {
                *seat = None;
            }
        }
    }

    /// Notes that a second has passed: who could not be accepted is tried again.
    pub fn tick(&mut self) {
        self.waiting = true;
    }
}
