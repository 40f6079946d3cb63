// Erased by bindings/rust/erase from crates/service_loop/src/newcomer.rt, sha256 faf13d05811f5c73d1770348b05830c004b3b620d6fe9a7d23d243e82688c00f.
//! One who has not chosen a pool yet.

use crate::kit::alloc::Global;
use crate::kit::io;
use crate::kit::io::ErrorKind;
use crate::kit::net::SocketAddr;
use crate::kit::Vec;
use crate::proved::service_loop::pool_line::MOST_LINE;
use crate::proved::service_loop::socket::Socket;
use crate::proved::service_loop::stream::Stream;

/// What ends a line.
const LF: u8 = 10;

/// What one is told whose line chose a pool.
const CHOSEN: &[u8] = b"ok\n";

/// What one is told whose first line chooses no pool that is there.
const UNKNOWN: &[u8] = b"bad 1\n";

/// How many bytes behind a line that chooses no pool are read.
const REST_ROOM: usize = 4_096;

/// What came of reading a first line.
#[derive(Clone, Copy, Debug, PartialEq, Eq)]
pub(crate) enum FirstLine {
    /// Its end is not there yet.
    Begun,
    /// It is whole.
    Whole,
    /// It is too long, or the stream ended or is at fault.
    None,
}

/// One who has not chosen a pool yet: its stream, and the line as far as it came.
pub(crate) struct Newcomer {
    pub stream: Socket,
    /// The address that it comes from, where that is of the network.
    pub peer: Option<SocketAddr>,
    /// The line so far, without its LF.
    pub line: Vec<u8>,
    /// At which tick it came.
    pub since: u64,
}

// What a read that gave nothing tells of the line.
fn line_at(error: &io::Error) -> FirstLine {
    match error.kind() {
        ErrorKind::WouldBlock => FirstLine::Begun,
        _ => FirstLine::None,
    }
}

impl Newcomer {
    /// One who came at this tick.
    pub fn new(alloc: Global, stream: Socket, peer: Option<SocketAddr>, since: u64) -> Newcomer {
        Newcomer {
            stream,
            peer,
            line: Vec::new(alloc),
            since,
        }
    }

    // Notes a byte, and says what came of the line by it.
    fn add(&mut self, byte: u8) -> FirstLine {
        if byte == LF {
            return FirstLine::Whole;
        }
        if MOST_LINE <= self.line.len() || self.line.push(byte).is_err() {
            return FirstLine::None;
        }
        FirstLine::Begun
    }

    // Reads one byte, where there is one.
    fn read_byte(&mut self) -> Result<u8, FirstLine> {
        let mut byte = [0u8; 1];
        match self.stream.read_some(&mut byte) {
            Ok(0) => Err(FirstLine::None),
            Ok(_) => Ok(byte[0]),
            Err(error) => Err(line_at(&error)),
        }
    }

    /// Reads the first line as far as it came, byte by byte: what is behind it stays in the stream, for the pool.
    pub fn read_line(&mut self) -> FirstLine {
        for _ in 0..=MOST_LINE {
            let came = match self.read_byte() {
                Ok(byte) => self.add(byte),
                Err(came) => return came,
            };
            if came != FirstLine::Begun {
                return came;
            }
        }
        FirstLine::None
    }

    /// Tells that its pool was chosen. Says whether that was taken.
    pub fn tell_chosen(&mut self) -> bool {
        matches!(self.stream.write_some(CHOSEN), Ok(count) if count == CHOSEN.len())
    }

    /// Tells that there is no such pool, as far as its stream takes that now, and ends it. What came behind the line is read, since a stream that is closed
    /// with bytes that nobody read may lose what was sent.
    pub fn refuse(&mut self) {
        let _ = self.stream.write_some(UNKNOWN);
        self.stream.end();
        let mut rest = [0u8; REST_ROOM];
        let _ = self.stream.read_some(&mut rest);
    }
}
