// Erased by bindings/rust/erase from crates/service_loop/src/connections.rt, sha256 42a6f97c82aaf76a08d7b07d3080b4c349df7c1756b066050e522dbb0062d4d6.
//! The connections of a server, their seats, and who is to have a turn.

use crate::kit::alloc::{AllocError, Global};
use crate::kit::mio::event::Event;
use crate::kit::mio::{Poll, Token};
use crate::kit::Vec;
use crate::proved::model_asked::kind::WorldKind;
use crate::proved::model_pool::stays::stays::Stays;
use crate::proved::service_loop::attended::{Attended, Ending};
use crate::proved::service_loop::audit::Audit;
use crate::proved::service_loop::buffers::Buffers;
use crate::proved::service_loop::connection::{Connection, ConnectionStage};
use crate::proved::service_loop::failing::fail_keepers;
use crate::proved::service_loop::persist::Persist;
use crate::proved::service_loop::seat_numbers::SeatNumbers;
use crate::proved::service_loop::socket::Socket;
use crate::proved::service_loop::take_queue::TakeQueue;
use crate::proved::service_loop::turns::number_at;
use crate::proved::service_loop::watchers::Watchers;
use std::mem;

/// For so many clients at most room is taken at once, in lists that lie below all that clients make grow: so what those leave goes back to
/// the system.
const MOST_RESERVED: usize = 16_384;

/// For how many ticks a connection that is at its end may take nothing of the replies to it.
const FLUSH_TICKS: u64 = 10;

/// The seats of a server. A seat that is left is given again.
pub struct ConnectionTable {
    /// The seats, some of them empty.
    pub seats: Vec<Option<Connection<Socket, Global>>>,
    /// The number of the connection at each seat.
    pub numbers: SeatNumbers,
    /// The seats whose connections are due, in the order in which they became so.
    pub ready: Vec<usize>,
    /// How many seats are taken.
    pub open: usize,
    /// How many connections have left.
    pub served: u64,
    /// How many of them left by a fault.
    pub faults: u64,
    /// The connections that have ended since this list was last emptied. One that said `quit` may stand in it twice.
    pub ended: Vec<Ending>,
    /// The lease since which those who are not at fault keep their stays.
    pub lease: u64,
    /// How many lines were taken of those that have left.
    lines: u64,
    /// The seats whose connections wait for changes of who holds numbers.
    watchers: Watchers,
    later: Vec<usize>,
    empty: Vec<usize>,
}

// Whether replies wait to be sent to whoever sits there.
fn has_unsent(seat: &Option<Connection<Socket, Global>>) -> bool {
    match seat {
        Some(connection) => !connection.buffers.unsent().is_empty(),
        None => false,
    }
}

// Whether whoever sits there said `quit`.
fn is_over_at(seats: &[Option<Connection<Socket, Global>>], key: usize) -> bool {
    if key < seats.len() {
        if let Some(connection) = &seats[key] {
            return connection.buffers.is_over();
        }
    }
    false
}

// For how many ticks a connection may rest before it is closed; for ever, where that is not told.
fn most_rest(connection: &Connection<Socket, Global>, idle: Option<u64>) -> Option<u64> {
    if connection.buffers.is_over() || connection.buffers.is_ended() {
        Some(FLUSH_TICKS)
    } else {
        idle
    }
}

// Whether whoever sits there rests for as long.
fn is_swept_at(
    seats: &[Option<Connection<Socket, Global>>],
    key: usize,
    tick: u64,
    idle: Option<u64>,
) -> bool {
    if key < seats.len() {
        if let Some(connection) = &seats[key] {
            return match most_rest(connection, idle) {
                Some(most) => {
                    matches!(connection.stage, ConnectionStage::Idle)
                        && most <= tick.saturating_sub(connection.since)
                }
                None => false,
            };
        }
    }
    false
}

// Whether whoever sits there is at its end, or said `quit`.
fn is_leaving_at(seats: &[Option<Connection<Socket, Global>>], key: usize) -> bool {
    match seats.get(key) {
        Some(Some(connection)) => connection.buffers.is_over() || connection.buffers.is_ended(),
        _ => false,
    }
}

// How many lines whoever sits there sent, and whether it is at fault.
fn counts_at(seats: &[Option<Connection<Socket, Global>>], key: usize) -> (u64, bool) {
    if key < seats.len() {
        if let Some(connection) = &seats[key] {
            return (connection.buffers.lines(), connection.buffers.is_broken());
        }
    }
    (0, false)
}

impl ConnectionTable {
    /// No seats, for up to `clients` clients.
    ///
    /// # Errors
    ///
    /// `AllocError`: an allocation failed.
    pub fn new(alloc: Global, clients: usize) -> Result<ConnectionTable, AllocError> {
        let few = clients.min(MOST_RESERVED);
        Ok(ConnectionTable {
            seats: Vec::with_capacity(alloc, few)?,
            numbers: SeatNumbers::new(alloc, few)?,
            ready: Vec::with_capacity(alloc, few)?,
            open: 0,
            served: 0,
            faults: 0,
            ended: Vec::new(alloc),
            lease: 0,
            lines: 0,
            watchers: Watchers::new(alloc),
            later: Vec::with_capacity(alloc, few)?,
            empty: Vec::with_capacity(alloc, few)?,
        })
    }

    // An empty seat.
    fn empty_seat(&mut self) -> Result<usize, AllocError> {
        if let Some(key) = self.empty.pop() {
            return Ok(key);
        }
        let key = self.seats.len();
        self.numbers.add_seat()?;
        if self.seats.push(None).is_err() {
            return Err(AllocError);
        }
        Ok(key)
    }

    // Notes that the connection of a seat has ended.
    fn note_end(&mut self, key: usize, by_quit: bool) -> Result<(), AllocError> {
        let numbers = self.numbers.all();
        if key < numbers.len() {
            let number = numbers[key];
            self.ended.push(Ending { number, by_quit })?;
        }
        Ok(())
    }

    // Whoever sat there leaves, and this connection has the seat, or none. Says whether there is such a seat.
    fn fill(&mut self, key: usize, connection: Option<Connection<Socket, Global>>) -> bool {
        match self.seats.get_mut(key) {
            Some(seat) => {
                drop(mem::replace(seat, connection));
                true
            }
            None => {
                drop(connection);
                false
            }
        }
    }

    // Whoever sits there.
    fn seated(&mut self, key: usize) -> Option<&mut Connection<Socket, Global>> {
        self.seats.get_mut(key)?.as_mut()
    }

    /// Gives a seat to a stream, and returns the number of its connection. One that cannot be waited for is closed.
    ///
    /// # Errors
    ///
    /// `AllocError`: an allocation failed. The stream is closed.
    pub fn admit(
        &mut self,
        alloc: Global,
        poll: &Poll,
        kind: WorldKind,
        mut stream: Socket,
        tick: u64,
    ) -> Result<Option<u64>, AllocError> {
        stream.hurry();
        let key = self.empty_seat()?;
        if stream.register(poll, Token(key)).is_err() {
            let _ = self.empty.push(key);
            return Ok(None);
        }
        let Ok(buffers) = Buffers::new(alloc, kind) else {
            return Err(AllocError);
        };
        let connection = Connection::new(stream, buffers, tick);
        if !self.fill(key, Some(connection)) {
            return Ok(None);
        }
        self.open = self.open.saturating_add(1);
        Ok(Some(self.numbers.number(key)))
    }

    /// Notes what the system tells of a connection, which is due then.
    ///
    /// # Errors
    ///
    /// `AllocError`: the list of connections that are due could not grow.
    pub fn note(&mut self, event: &Event) -> Result<(), AllocError> {
        let key = event.token().0;
        let Some(connection) = self.seated(key) else {
            return Ok(());
        };
        let hung = event.is_read_closed() || event.is_error();
        connection.readable = connection.readable || hung || event.is_readable();
        connection.hung = connection.hung || hung;
        connection.writable = connection.writable || event.is_writable();
        if connection.stage == ConnectionStage::Idle {
            connection.stage = ConnectionStage::Queued;
            self.ready.push(key)?;
        }
        Ok(())
    }

    // After its turn a connection leaves, or is due again, or waits for the system; one that waits for a number or for changes is due only if it can
    // send. Changes end at this point.
    fn settle_one(
        &mut self,
        key: usize,
        tick: u64,
        queue: &TakeQueue,
        end: u64,
    ) -> Result<(), AllocError> {
        let is_queued = queue.has(number_at(self.numbers.all(), key));
        let Some(connection) = self.seated(key) else {
            return Ok(());
        };
        let is_over = connection.buffers.is_over();
        let watches = connection.watches(end);
        if connection.is_done() {
            return self.leave(key);
        }
        if !is_over {
            connection.since = tick;
        } else if connection.buffers.unsent().is_empty() {
            connection.stream.end();
        }
        if connection.goes_on() && (!is_queued && !watches || connection.can_send()) {
            connection.stage = ConnectionStage::Queued;
            self.later.push(key)?;
        }
        if watches {
            self.watchers.add(key)?;
        }
        if is_over {
            self.note_end(key, true)?;
        }
        Ok(())
    }

    // Notes of whoever sits there and leaves how many lines it sent, whether it leaves by a fault, and whether it said `quit`.
    fn note_leaving(&mut self, key: usize) -> Result<(), AllocError> {
        let is_over = is_over_at(&self.seats, key);
        let (lines, broken) = counts_at(&self.seats, key);
        self.lines = self.lines.saturating_add(lines);
        self.faults = self.faults.saturating_add(u64::from(broken));
        self.note_end(key, is_over)
    }

    // Whoever sits there leaves, and the seat is empty then.
    fn leave(&mut self, key: usize) -> Result<(), AllocError> {
        self.note_leaving(key)?;
        self.fill(key, None);
        let _ = self.empty.push(key);
        self.open = self.open.saturating_sub(1);
        self.served = self.served.saturating_add(1);
        Ok(())
    }

    /// The connections that have ended keep no stay from this tick on. Where an answer was lost, nobody keeps a stay that may have begun by it.
    pub fn note_ended<D>(&mut self, service: &mut Attended<D>, lost: bool, tick: u64) {
        service.end_all(&self.ended, tick);
        self.ended.clear();
        service.end_lost(lost, tick);
    }

    /// Where the persister may not answer those who keep stays, each connection that keeps one is at fault and due. Those who begin to keep one
    /// later do so since another lease.
    ///
    /// # Errors
    ///
    /// `AllocError`: the list of connections that are due could not grow.
    pub fn check_keepers<D, K: Persist<D>>(
        &mut self,
        persister: &K,
        stays: &Stays,
    ) -> Result<(), AllocError> {
        if persister.may_answer_stays(self.lease) {
            return Ok(());
        }
        fail_keepers(&mut self.seats, self.numbers.all(), stays, &mut self.ready)?;
        self.lease = persister.lease();
        Ok(())
    }

    // A connection that was called to take a number is due again, whether it took one or not.
    fn wake(&mut self, key: usize) -> Result<(), AllocError> {
        let Some(connection) = self.seated(key) else {
            return Ok(());
        };
        if connection.stage == ConnectionStage::Idle {
            connection.stage = ConnectionStage::Queued;
            self.later.push(key)?;
        }
        Ok(())
    }

    // The same, of all that were.
    fn wake_all(&mut self, called: &[usize]) -> Result<(), AllocError> {
        for key in called {
            self.wake(*key)?;
        }
        Ok(())
    }

    // Those who wait for changes are due again, where there are any: they end at this point.
    fn wake_watchers(&mut self, end: u64) -> Result<(), AllocError> {
        let due = self.watchers.take_due(end);
        self.wake_all(&due)
    }

    /// After a turn in which the first `called` ready seats were called: those that have more to do are due again, behind the others, and those that
    /// were called to take numbers. Those are too who wait for changes of who holds numbers, where there are any: they end at this point.
    ///
    /// # Errors
    ///
    /// `AllocError`: the list of connections that are due could not grow.
    pub fn settle(
        &mut self,
        called: usize,
        tick: u64,
        queue: &TakeQueue,
        end: u64,
    ) -> Result<(), AllocError> {
        for at in 0..called {
            if at < self.ready.len() {
                let key = self.ready[at];
                self.settle_one(key, tick, queue, end)?;
            }
        }
        self.wake_all(queue.called())?;
        self.wake_watchers(end)?;
        let from = called.min(self.ready.len());
        self.queue_again(from)
    }

    // The ready seats from there on, and then those that are due again.
    fn queue_again(&mut self, from: usize) -> Result<(), AllocError> {
        self.ready.drain(..from);
        self.ready.extend_from_slice(&self.later)?;
        self.later.clear();
        Ok(())
    }

    /// Closes each connection of which nothing came or went for `idle` ticks, or for ten if it is at its end, but none that waits for a number or for
    /// changes.
    ///
    /// # Errors
    ///
    /// `AllocError`: the list of empty seats could not grow.
    pub fn sweep(
        &mut self,
        tick: u64,
        idle: Option<u64>,
        queue: &TakeQueue,
        audit: &mut Audit,
    ) -> Result<(), AllocError> {
        for key in 0..self.seats.len() {
            self.sweep_one(key, tick, idle, queue, audit)?;
        }
        Ok(())
    }

    // The same, of one seat. That it said nothing is told.
    fn sweep_one(
        &mut self,
        key: usize,
        tick: u64,
        idle: Option<u64>,
        queue: &TakeQueue,
        audit: &mut Audit,
    ) -> Result<(), AllocError> {
        if !is_swept_at(&self.seats, key, tick, idle) {
            return Ok(());
        }
        if queue.has(number_at(self.numbers.all(), key)) || self.watchers.has(key) {
            return Ok(());
        }
        if !is_leaving_at(&self.seats, key) {
            audit.note_idle(number_at(self.numbers.all(), key));
        }
        self.leave(key)
    }

    /// How many lines were taken of all connections. It takes time as there are seats.
    pub fn lines(&self) -> u64 {
        let mut lines = self.lines;
        for seat in &self.seats {
            if let Some(connection) = seat {
                lines = lines.saturating_add(connection.buffers.lines());
            }
        }
        lines
    }

    /// How many connections were accepted: those that have left, and those that are there.
    pub fn accepted(&self) -> u64 {
        self.served.saturating_add(self.open as u64)
    }

    /// Whether replies wait to be sent to any.
    pub fn has_unsent(&self) -> bool {
        self.seats.iter().any(has_unsent)
    }
}
