// Erased by bindings/rust/erase from crates/service_watch/src/scraper.rt, sha256 531e9d1bb6f4a7eb0f29219ce32300e08584de21c1bf3dbc2008fbe64c8f4538.
//! One who asks for a page.

use crate::kit::alloc::{AllocError, Global};
use crate::kit::io;
use crate::kit::io::{ErrorKind, Read, Write};
use crate::kit::mio::event::Event;
use crate::kit::mio::net::TcpStream;
use crate::kit::net::Shutdown;
use crate::kit::Vec;
use crate::proved::service_watch::answer::{put_answer, put_answer_of};
use crate::proved::service_watch::numbers::Numbers;
use crate::proved::service_watch::request::{asked_by, Asked, MOST_REQUEST};

/// How many bytes are read at once.
const READ_ROOM: usize = 2_048;

/// What one is answered who is refused, since others came.
const REFUSAL: &[u8] =
    b"HTTP/1.1 503 Service Unavailable\r\nContent-Length: 0\r\nConnection: close\r\n\r\n";

/// Whoever asked is refused behind all who did not.
const ASKED: u64 = 1 << 62;

/// The most reads in one turn, so that whoever sends much holds up nobody.
const MOST_READS: u32 = 8;

/// One who asks for a page: its stream, what came of its request, and what is left of the answer.
pub struct Scraper {
    stream: TcpStream,
    request: Vec<u8>,
    answer: Vec<u8>,
    /// How many bytes of the answer were sent.
    sent: usize,
    /// What it asks for, once that is known.
    asked: Option<Asked>,
    /// Whether it has its answer.
    answered: bool,
    readable: bool,
    writable: bool,
    over: bool,
    /// At which tick it came.
    since: u64,
}

// Whether a call is to be made again once the system tells so.
fn waits(error: &io::Error) -> bool {
    matches!(error.kind(), ErrorKind::WouldBlock | ErrorKind::Interrupted)
}

impl Scraper {
    /// One who came at this tick.
    pub fn new(alloc: Global, stream: TcpStream, tick: u64) -> Scraper {
        Scraper {
            stream,
            request: Vec::new(alloc),
            answer: Vec::new(alloc),
            sent: 0,
            asked: None,
            answered: false,
            readable: true,
            writable: true,
            over: false,
            since: tick,
        }
    }

    /// Notes what the system tells.
    pub fn note(&mut self, event: &Event) {
        self.readable = self.readable || event.is_readable() || event.is_read_closed();
        self.writable = self.writable || event.is_writable();
        self.over = self.over || event.is_error();
    }

    /// Whether it is to be closed: it has its answer, sent too much or went away, or failed.
    pub fn is_over(&self) -> bool {
        self.over
    }

    /// How many ticks it has been there.
    pub fn age(&self, tick: u64) -> u64 {
        tick.saturating_sub(self.since)
    }

    /// How soon it is refused where one more comes: the sooner, the lower. It is above 0.
    pub fn rank(&self) -> u64 {
        let age = self.since.saturating_add(1);
        if self.asked.is_some() {
            age.saturating_add(ASKED)
        } else {
            age
        }
    }

    /// Answers that it is refused, as far as its stream takes that now.
    pub fn refuse(&mut self) {
        if self.answered {
            return;
        }
        let mut stream = &self.stream;
        let _ = stream.write(REFUSAL);
        let _ = stream.shutdown(Shutdown::Write);
    }

    /// Whether it asked and has no answer.
    pub fn wants_answer(&self) -> bool {
        self.asked.is_some() && !self.answered && !self.over
    }

    // Notes so many bytes of a request.
    fn add(&mut self, bytes: &[u8]) {
        if self.request.extend_from_slice(bytes).is_err() {
            self.over = true;
            return;
        }
        self.asked = asked_by(&self.request);
        if self.asked.is_none() && MOST_REQUEST <= self.request.len() {
            self.over = true;
        }
    }

    // Reads once.
    fn read_once(&mut self) {
        let mut chunk = [0u8; READ_ROOM];
        let room = READ_ROOM.min(MOST_REQUEST.saturating_sub(self.request.len()));
        let mut stream = &self.stream;
        match stream.read(&mut chunk[..room]) {
            Ok(0) => self.over = true,
            Ok(count) => self.add(&chunk[..count]),
            Err(error) => {
                self.readable = error.kind() == ErrorKind::Interrupted;
                self.over = self.over || !waits(&error);
            }
        }
    }

    /// Reads what came of a request, as far as its stream gives it now.
    pub fn read(&mut self) {
        for _ in 0..MOST_READS {
            if !self.readable || self.over || self.asked.is_some() {
                break;
            }
            self.read_once();
        }
    }

    /// Gives it its answer.
    pub fn answer(&mut self, alloc: Global, numbers: &Numbers) {
        if let Some(asked) = self.asked {
            self.answered = true;
            let put: Result<(), AllocError> = put_answer(alloc, asked, numbers, &mut self.answer);
            self.over = self.over || put.is_err();
        }
    }

    /// Gives it its answer, where this is the page, and clients are answered or not.
    pub fn answer_by(&mut self, ready: bool, page: &[u8]) {
        if let Some(asked) = self.asked {
            self.answered = true;
            let put: Result<(), AllocError> = put_answer_of(asked, ready, page, &mut self.answer);
            self.over = self.over || put.is_err();
        }
    }

    // Writes once.
    fn write_once(&mut self) {
        let from = self.sent.min(self.answer.len());
        let mut stream = &self.stream;
        match stream.write(&self.answer[from..]) {
            Ok(0) => self.over = true,
            Ok(count) => self.sent = from + count,
            Err(error) => {
                self.writable = error.kind() == ErrorKind::Interrupted;
                self.over = self.over || !waits(&error);
            }
        }
    }

    /// Sends its answer, as far as its stream takes it now. Behind the whole answer it is over.
    pub fn send(&mut self) {
        for _ in 0..MOST_READS {
            if !self.answered || !self.writable || self.over {
                return;
            }
            if self.answer.len() <= self.sent {
                let _ = self.stream.shutdown(Shutdown::Write);
                self.over = true;
                return;
            }
            self.write_once();
        }
    }

    /// Whether it may go on with no word of the system.
    pub fn is_due(&self) -> bool {
        self.over
            || (self.asked.is_none() && self.readable)
            || self.wants_answer()
            || (self.answered && self.writable)
    }
}
