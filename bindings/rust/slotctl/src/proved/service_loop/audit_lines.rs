// Erased by bindings/rust/erase from crates/service_loop/src/audit_lines.rt, sha256 22e8a2a692ad299f5db041bde824785c7fa8ded47258b37a469b3fd5331724a4.
//! The lines of a log of who took numbers, who gave them back, and who was refused.

use crate::kit::alloc::{AllocError, Global};
use crate::kit::format;
use crate::kit::net::SocketAddr;
use crate::kit::rt::Clock;
use crate::kit::time::{SystemTime, UNIX_EPOCH};
use crate::kit::String;
use crate::kit::Vec;
use crate::proved::model_asked::event::Event;
use crate::proved::model_steps::refusal::Refusal;
use crate::proved::service_loop::change::identity_of;

/// The most bytes of lines that wait. Lines behind them are lost until those are written.
const MOST_WAITING: usize = 16_777_216;

/// Where the connection of a number comes from: from this machine, where it is no address.
#[derive(Clone, Copy)]
struct Peer {
    number: u64,
    address: Option<SocketAddr>,
}

/// Lines that are not written yet, and what they tell. Each has less than 300 bytes.
pub struct AuditLines {
    alloc: Global,
    text: Vec<u8>,
    /// How many lines the text has.
    count: u64,
    /// How many were lost.
    lost: u64,
    /// How many seconds after 1970 it is.
    time: u64,
    /// The connections, in the order of their numbers.
    peers: Vec<Peer>,
}

// The seconds since 1970 by the clock of the system; 0 where it tells none.
fn seconds<R: Clock>(rt: &R) -> u64 {
    match SystemTime::now(rt) {
        Ok(now) => match now.duration_since(UNIX_EPOCH) {
            Ok(since) => since.as_secs(),
            Err(_) => 0,
        },
        Err(_) => 0,
    }
}

// The word of a command.
fn word_of(event: Event) -> &'static str {
    match event {
        Event::Begin(_) => "begin",
        Event::Step(_) => "step",
        Event::Enter(_) => "enter",
        Event::Probe(_) => "probe",
        Event::Seek(_) => "seek",
        Event::Leave(_) => "leave",
        Event::Put(_, _) => "put",
        Event::Get(_) => "get",
        Event::Widen(_) => "widen",
    }
}

/// What a line tells of a refusal: of those alone that say who competes or holds a number.
pub(crate) fn refused_act(
    alloc: Global,
    event: Event,
    why: Refusal,
) -> Option<Result<String, AllocError>> {
    match why {
        Refusal::NotCompeting | Refusal::AlreadyCompeting | Refusal::Holding => {
            let id = identity_of(event);
            let word = word_of(event);
            let number = why.number();
            Some(format!(in alloc;
                "\"act\":\"refused\",\"id\":{id},\"command\":\"{word}\",\"refusal\":{number}"
            ))
        }
        _ => None,
    }
}

impl AuditLines {
    /// No line waits.
    pub fn new(alloc: Global) -> AuditLines {
        AuditLines {
            alloc,
            text: Vec::new(alloc),
            count: 0,
            lost: 0,
            time: 0,
            peers: Vec::new(alloc),
        }
    }

    /// The lines that wait.
    pub fn text(&self) -> &[u8] {
        &self.text
    }

    /// How many lines were lost.
    pub fn lost(&self) -> u64 {
        self.lost
    }

    /// None of them waits any more: they were written, or are lost.
    pub fn settle(&mut self, written: bool) {
        if !written {
            self.lost = self.lost.saturating_add(self.count);
        }
        self.count = 0;
        self.text.clear();
    }

    /// From now on lines tell the present time.
    pub fn note_time<R: Clock>(&mut self, rt: &R) {
        self.time = seconds(rt);
    }

    /// The connection of this number comes from there. It is above all numbers before it.
    ///
    /// # Errors
    ///
    /// `AllocError`: an allocation failed.
    pub fn admit(&mut self, number: u64, address: Option<SocketAddr>) -> Result<(), AllocError> {
        if self.peers.push(Peer { number, address }).is_err() {
            return Err(AllocError);
        }
        Ok(())
    }

    // The place of a connection among them.
    fn place_of(&self, number: u64) -> Option<usize> {
        self.peers
            .binary_search_by_key(&number, |peer| peer.number)
            .ok()
    }

    /// The connection of this number says nothing more.
    pub fn let_go(&mut self, number: u64) {
        self.peers.retain(|peer| peer.number != number);
    }

    // What a line tells of a connection.
    fn who(&self, number: u64) -> Result<String, AllocError> {
        let address = match self.place_of(number) {
            Some(at) if at < self.peers.len() => self.peers[at].address,
            _ => None,
        };
        match address {
            Some(address) => {
                format!(in self.alloc; "\"peer\":\"{address}\",\"connection\":{number},")
            }
            None => format!(in self.alloc; "\"peer\":\"unix\",\"connection\":{number},"),
        }
    }

    // A line: the time, the connection where there is one, and the act.
    fn line(
        &self,
        speaker: Option<u64>,
        act: Result<String, AllocError>,
    ) -> Result<String, AllocError> {
        let time = self.time;
        let act = act?;
        match speaker {
            Some(number) => {
                let who = self.who(number)?;
                format!(in self.alloc; "{{\"time\":{time},{who}{act}}}\n")
            }
            None => format!(in self.alloc; "{{\"time\":{time},{act}}}\n"),
        }
    }

    /// Adds a line of this act, which a connection did or nobody. Where an allocation failed or too much waits, it is lost.
    pub fn add(&mut self, speaker: Option<u64>, act: Result<String, AllocError>) {
        let added = self.text.len() < MOST_WAITING
            && match self.line(speaker, act) {
                Ok(line) => self.text.extend_from_slice(line.as_bytes()).is_ok(),
                Err(_) => false,
            };
        if added {
            self.count = self.count.saturating_add(1);
        } else {
            self.lost = self.lost.saturating_add(1);
        }
    }
}
