// Erased by bindings/rust/erase from crates/service_loop/src/connection.rt, sha256 16c5de37d19c2d81185fefaa743f7b02d075272c40999705d5456ba7a0088021.
//! A connection: its stream, and what is held of it.

use crate::kit::alloc::Allocator;
use crate::kit::io;
use crate::kit::io::ErrorKind;
use crate::kit::Vec;
use crate::proved::model_asked::kind::WorldKind;
use crate::proved::service_loop::buffers::Buffers;
use crate::proved::service_loop::feed::Feed;
use crate::proved::service_loop::first_point::FirstPoint;
use crate::proved::service_loop::manner::Manner;
use crate::proved::service_loop::peek::{Limits, Peek};
use crate::proved::service_loop::persist::Persist;
use crate::proved::service_loop::shared::{SharedBuffers, READ_ROOM};
use crate::proved::service_loop::stream::Stream;
use crate::proved::service_loop::take_line::TakeLine;
use crate::proved::service_loop::taking::{is_crowded, print_taken, take_with_token};
use crate::proved::service_loop::terms::{put_answer, Query, Terms};
use crate::proved::service_loop::watch_line::{end_told, WatchQuery};
use crate::proved::text_lines::held::query::QUERY_MAX;
use crate::proved::text_player::service::Service;

/// So many bytes are read at most, behind the beginning of a line that may ask who holds numbers, or take one.
const MOST_READ: usize = READ_ROOM - QUERY_MAX;

/// Where a connection stands in a turn of the loop.
#[derive(Clone, Copy, Debug, PartialEq, Eq)]
pub enum ConnectionStage {
    /// Nothing is to be done for it.
    Idle,
    /// It has something to take or to send.
    Queued,
    /// Its lines of this turn are taken, and the replies not sent yet.
    Taken,
}

/// A connection.
pub struct Connection<S, A: Allocator> {
    pub stream: S,
    pub buffers: Buffers<A>,
    pub stage: ConnectionStage,
    /// Whether a read may give something.
    pub readable: bool,
    /// Whether a write may take something.
    pub writable: bool,
    /// Whether the end of what comes was reported: then a read that gives little need not be the last that gives something.
    pub hung: bool,
    /// The tick at which something last came or went.
    pub since: u64,
    /// What its next turn takes, where the service prefetches the answers before; `None` where it takes what comes.
    pub peek: Option<Peek>,
}

// Reads once into the first so many bytes of a chunk.
fn read_at_most<S: Stream>(stream: &mut S, chunk: &mut [u8], most: usize) -> io::Result<usize> {
    stream.read_some(&mut chunk[..most])
}

// Reads once into the room, at most so many bytes.
fn read_into<S: Stream, B: Allocator>(
    stream: &mut S,
    shared: &mut SharedBuffers<B>,
    most: usize,
) -> io::Result<usize> {
    read_at_most(stream, &mut shared.chunk, most)
}

// A read or a write did nothing: it may do something once the stream is reported able again, or at once, or else the connection is at fault.
fn note_fault<A: Allocator>(fault: &io::Error, able: &mut bool, buffers: &mut Buffers<A>) {
    match fault.kind() {
        ErrorKind::WouldBlock => *able = false,
        ErrorKind::Interrupted => {}
        _ => buffers.fail(),
    }
}

impl<S: Stream, A: Allocator> Connection<S, A> {
    /// A connection of which nothing was read.
    pub fn new(stream: S, buffers: Buffers<A>, since: u64) -> Connection<S, A> {
        Connection {
            stream,
            buffers,
            stage: ConnectionStage::Idle,
            readable: false,
            writable: true,
            hung: false,
            since,
            peek: None,
        }
    }

    /// Whether it is at its end: at fault, or all that came is taken and all replies are sent.
    pub fn is_done(&self) -> bool {
        self.buffers.is_broken() || (self.buffers.is_ended() && self.buffers.unsent().is_empty())
    }

    /// Whether it has something to send, and its stream takes it now.
    pub fn can_send(&self) -> bool {
        self.writable && !self.buffers.unsent().is_empty() && !self.buffers.is_broken()
    }

    /// Whether a turn more would have something to do, with nothing new told of its stream.
    pub fn goes_on(&self) -> bool {
        let sends = self.writable && !self.buffers.unsent().is_empty();
        let waits = match self.peek {
            Some(peek) => peek.more,
            None => !self.buffers.waits_for_more(),
        };
        let takes = self.may_take() && (waits || self.readable);
        !self.buffers.is_broken() && (sends || takes)
    }

    // Whether more may come and be taken: there is room for a reply.
    fn may_take(&self) -> bool {
        !self.buffers.is_broken() && !self.buffers.is_ended() && self.buffers.has_room()
    }

    /// Takes its turn, which is due: what waited of its lines, or else what one read gives.
    pub fn take<R, D: Service<R>, B: Allocator>(
        &mut self,
        rt: &R,
        service: &mut D,
        shared: &mut SharedBuffers<B>,
    ) {
        self.stage = ConnectionStage::Taken;
        if !self.may_take() {
            return;
        }
        if !self.buffers.waits_for_more() {
            self.buffers.take(
                rt,
                service,
                &mut shared.view,
                &[],
                false,
                &mut shared.replies,
            );
        } else if self.readable {
            self.read(rt, service, shared);
        }
    }

    /// Takes its turn over a service that prefetched its answers before: what was looked at (`gather`), and nothing else.
    pub fn take_peeked<R, D: Service<R>, B: Allocator>(
        &mut self,
        rt: &R,
        service: &mut D,
        shared: &mut SharedBuffers<B>,
    ) {
        self.stage = ConnectionStage::Taken;
        let Some(peek) = self.peek else {
            return;
        };
        if !self.may_take() {
            return;
        }
        self.peek = Some(peek.taken());
        self.buffers.take_first(
            rt,
            service,
            &mut shared.view,
            peek.bytes,
            &mut shared.replies,
        );
        if peek.ends && self.may_read() {
            self.take_end(shared);
        }
    }

    // Takes the end, which was read before: a stream that was at its end tells it again. One that gives more is at fault.
    fn take_end<B: Allocator>(&mut self, shared: &mut SharedBuffers<B>) {
        match read_into(&mut self.stream, shared, READ_ROOM) {
            Ok(0) => self.buffers.finish(),
            Ok(_) => self.buffers.fail(),
            Err(fault) => note_fault(&fault, &mut self.readable, &mut self.buffers),
        }
    }

    // Whether all that came is taken, and more may be.
    fn may_read(&self) -> bool {
        self.may_take() && !self.buffers.has_input()
    }

    /// Reads once what came, if there is room, and looks at its lines before they are taken: its requests are added to the batch, as far
    /// as there is room there. Where memory is refused it is at fault, and none of its lines is in the batch. None of the lines that are looked at is one
    /// that the server answers by itself. Where it may take lines and no more is to be looked at, no whole line is left.
    pub fn gather<B: Allocator>(
        &mut self,
        kind: WorldKind,
        most: usize,
        shared: &mut SharedBuffers<B>,
        batch: &mut Vec<u8, B>,
    ) {
        let peek = match self.peek {
            Some(peek) => peek.nothing(),
            None => Peek::new(),
        };
        self.peek = Some(peek);
        if !self.may_take() {
            return;
        }
        self.gather_bytes(&mut shared.chunk);
        if !self.buffers.is_broken() {
            self.peek_over(kind, most, batch);
        }
    }

    /// Whether a line that was looked at asks who holds numbers.
    pub fn asks_holders(&self) -> bool {
        match self.peek {
            Some(peek) => peek.holds,
            None => false,
        }
    }

    // The end of what comes was read.
    fn note_end(&mut self) {
        self.readable = false;
        if let Some(peek) = &mut self.peek {
            peek.at_end = true;
        }
    }

    // Looks at what waits.
    fn peek_over<B: Allocator>(&mut self, kind: WorldKind, most: usize, batch: &mut Vec<u8, B>) {
        let Some(seen) = self.peek else {
            return;
        };
        let mut peek = seen;
        let before = batch.len();
        let mut limits = Limits {
            kind,
            most,
            said: self.buffers.unsent().len(),
        };
        if self.buffers.is_over() {
            peek.take_all(self.buffers.inbox());
        } else if peek
            .peek_over(self.buffers.inbox(), &mut limits, batch)
            .is_err()
        {
            batch.truncate(before);
            peek = seen.nothing();
            self.buffers.fail();
        }
        self.peek = Some(peek);
    }

    /// It is at fault, and due: nothing more is sent to it. Returns true if it was idle, and is to be queued.
    pub fn fail(&mut self) -> bool {
        self.buffers.fail();
        let is_idle = self.stage == ConnectionStage::Idle;
        if is_idle {
            self.stage = ConnectionStage::Queued;
        }
        is_idle
    }

    /// Its lines went to the persister, if any were, and what they are answered is not known: then it is at fault. It waits for its next turn.
    pub fn give_up(&mut self) {
        if let Some(peek) = self.peek {
            if peek.asks || peek.holds {
                self.buffers.fail();
            }
            self.peek = Some(peek.untaken());
        }
        self.stage = ConnectionStage::Idle;
    }

    // Reads once what came, if there is room.
    fn gather_bytes(&mut self, chunk: &mut [u8]) {
        let free = READ_ROOM - self.buffers.inbox().len();
        if !self.readable || free == 0 {
            return;
        }
        match self.stream.read_some(&mut chunk[..free]) {
            Ok(0) => self.note_end(),
            Ok(count) => {
                self.readable = self.hung || count == free;
                self.buffers.add(&chunk[..count]);
            }
            Err(fault) => note_fault(&fault, &mut self.readable, &mut self.buffers),
        }
    }

    // Reads once, and takes what that gives. At the end what waits is taken first, and the end is read again in the next turn.
    fn read<R, D: Service<R>, B: Allocator>(
        &mut self,
        rt: &R,
        service: &mut D,
        shared: &mut SharedBuffers<B>,
    ) {
        let most = shared.most().min(MOST_READ);
        match read_into(&mut self.stream, shared, most) {
            Ok(0) => self.take_last(rt, service, shared),
            Ok(count) => {
                self.readable = self.hung || count == most;
                self.buffers.take(
                    rt,
                    service,
                    &mut shared.view,
                    &shared.chunk[..count],
                    false,
                    &mut shared.replies,
                );
            }
            Err(fault) => note_fault(&fault, &mut self.readable, &mut self.buffers),
        }
    }

    // The end was read. What waits is taken before it, where anything does.
    fn take_last<R, D: Service<R>, B: Allocator>(
        &mut self,
        rt: &R,
        service: &mut D,
        shared: &mut SharedBuffers<B>,
    ) {
        if self.buffers.has_input() {
            self.buffers.take(
                rt,
                service,
                &mut shared.view,
                &[],
                true,
                &mut shared.replies,
            );
        } else {
            self.buffers.finish();
        }
    }

    /// Answers the line that waits first, where that asks who holds numbers, what changes of that, or the terms, and there is room. Who holds numbers the
    /// persister tells: where the service prefetches its answers, only if the line was looked at. Changes are told once there are any.
    pub fn answer<D, K: Persist<D>, B: Allocator>(
        &mut self,
        service: &D,
        persister: &K,
        terms: Terms,
        feed: &Feed,
        first: &FirstPoint,
        shared: &mut SharedBuffers<B>,
    ) {
        self.stage = ConnectionStage::Taken;
        if !self.may_take() {
            return;
        }
        if let Some((query, count)) = self.buffers.query() {
            if self.may_ask(query, end_told(feed, first)) {
                put_answer(
                    service,
                    persister,
                    terms,
                    feed,
                    first,
                    query,
                    &mut shared.replies,
                );
                self.buffers.answer(count, &mut shared.replies);
            }
        }
    }

    // Whether a line that asks this may be answered in this turn: who holds numbers only where all is known that was kept before, and changes only where
    // there are any from that point on. They end at this one.
    fn may_ask(&self, query: Query, end: u64) -> bool {
        match (self.peek, query) {
            (Some(peek), Query::Holders(_)) => peek.holds,
            (_, Query::Changes(WatchQuery::From(point))) => self.hung || point != end,
            _ => true,
        }
    }

    /// Whether the line that waits first asks for changes from their end on, so that it is answered once there are any.
    pub fn watches(&self, end: u64) -> bool {
        match self.buffers.query() {
            Some((Query::Changes(query), _)) => !self.may_ask(Query::Changes(query), end),
            _ => false,
        }
    }

    /// For which identity the line that waits first takes a number, where it takes one and there is room for the answer.
    pub fn taking(&self) -> Option<u64> {
        if !self.may_take() {
            return None;
        }
        match self.buffers.taking() {
            Some((identity, _)) => Some(identity),
            None => None,
        }
    }

    /// For whom it takes a number, where the line that waits first takes one and there is room for the answer, and for how many seconds it waits: for
    /// none, where the end of what comes was told.
    pub fn wish(&self) -> Option<TakeLine> {
        let identity = self.taking()?;
        let seconds = if self.hung { 0 } else { self.buffers.wait() };
        Some(TakeLine { identity, seconds })
    }

    /// Where it takes a number, the lines of that went to the persister, and what they are answered is not known: then it is at fault.
    pub fn give_up_taking(&mut self) {
        if self.taking().is_some() {
            self.buffers.fail();
        }
    }

    /// Takes a number, where the line that waits first takes one and there is room for the answer: by events of the service, one after another, of
    /// which the last reply is the answer, and where tokens are given the token stands behind it (`take_with_token`). Where those who are called are patient,
    /// one that waits for seconds and is refused since all are held waits on.
    pub fn take_number<R, D: Service<R>, B: Allocator>(
        &mut self,
        rt: &R,
        service: &mut D,
        shared: &mut SharedBuffers<B>,
        manner: Manner,
        ahead: bool,
    ) {
        self.stage = ConnectionStage::Taken;
        if !self.may_take() {
            return;
        }
        if let Some((identity, count)) = self.buffers.taking() {
            let taken = take_with_token(rt, service, &mut shared.view, identity, manner, ahead);
            if shared.patient && 0 < self.buffers.wait() && is_crowded(&taken.answer) {
                return;
            }
            print_taken(taken, &shared.view, &mut shared.replies);
            self.buffers.answer(count, &mut shared.replies);
        }
    }

    /// Sends what waits, where it has taken its turn, as far as its stream takes it now.
    pub fn send(&mut self) {
        self.stage = ConnectionStage::Idle;
        let mut at = 0;
        while self.writable && !self.buffers.is_broken() && at < self.buffers.unsent().len() {
            let count = self.write(at);
            if count == 0 {
                break;
            }
            at += count;
        }
        self.buffers.was_sent(at);
    }

    // Writes once, what waits from there on, and says how many bytes of it were taken; none where it takes no more now.
    fn write(&mut self, from: usize) -> usize {
        match self.stream.write_some(&self.buffers.unsent()[from..]) {
            Ok(0) => {
                self.buffers.fail();
                0
            }
            Ok(count) => count,
            Err(fault) => {
                note_fault(&fault, &mut self.writable, &mut self.buffers);
                0
            }
        }
    }
}
