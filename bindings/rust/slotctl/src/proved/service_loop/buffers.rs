// Erased by bindings/rust/erase from crates/service_loop/src/buffers.rt, sha256 dc304e3a87d3dee5a80038f2abfc2e6065d9501783e809d3a15172af104c304c.
//! A connection without its stream.

use crate::kit::alloc::Allocator;
use crate::kit::Clone;
use crate::kit::Vec;
use crate::proved::model_asked::kind::WorldKind;
use crate::proved::model_steps::refusal::NoMemory;
use crate::proved::model_steps::view::View;
use crate::proved::service_loop::asking::{
    before_query, first_query, first_taking, first_wait, is_prefix_of,
};
use crate::proved::service_loop::terms::Query;
use crate::proved::text_lines::replies::Replies;
use crate::proved::text_player::as_replies::AsReplies;
use crate::proved::text_player::form::TURN_ROOM;
use crate::proved::text_player::responder::Responder;
use crate::proved::text_player::service::Service;

/// No more bytes of replies wait to be sent. Where there is no room for one reply more, no line is taken.
pub const UNSENT_ROOM: usize = 65_536;

/// What ends a line.
const LF: u8 = 10;

/// Past so many lines no more are taken, so that their counts stay numbers of 64 bits.
pub const MOST_LINES: u64 = 1 << 63;

/// A connection without its stream: one side of a transcript, what came and is not taken yet, what was said and is not sent yet, whether the end of
/// what comes was taken, and whether it is at fault, by its stream or because an allocation failed.
pub struct Buffers<A: Allocator> {
    responder: Responder<A, AsReplies>,
    inbox: Vec<u8, A>,
    outbox: Vec<u8, A>,
    ended: bool,
    broken: bool,
    /// Whether a line was begun and not ended by what was taken last.
    in_line: bool,
}

/// Takes away the first bytes. Where none is left, their room goes back, and nothing is moved.
pub(crate) fn drop_front<A: Allocator>(bytes: &mut Vec<u8, A>, count: usize) {
    if count == bytes.len() {
        bytes.clear();
        bytes.shrink_to_fit();
    } else {
        bytes.drain(..count);
    }
}

impl<A: Allocator + Clone> Buffers<A> {
    /// Nothing came, nothing was said.
    ///
    /// # Errors
    ///
    /// `NoMemory`: an allocation failed.
    pub fn new(alloc: A, kind: WorldKind) -> Result<Buffers<A>, NoMemory> {
        let Ok(for_line) = alloc.clone() else {
            return Err(NoMemory);
        };
        let Ok(for_inbox) = alloc.clone() else {
            return Err(NoMemory);
        };
        let responder = Responder::new(for_line, kind)?;
        Ok(Buffers {
            responder,
            inbox: Vec::new(for_inbox),
            outbox: Vec::new(alloc),
            ended: false,
            broken: false,
            in_line: false,
        })
    }
}

impl<A: Allocator> Buffers<A> {
    /// Whether `quit` was answered.
    pub fn is_over(&self) -> bool {
        self.responder.is_over()
    }

    /// Whether the end of what comes was taken.
    pub fn is_ended(&self) -> bool {
        self.ended
    }

    /// Whether it is at fault.
    pub fn is_broken(&self) -> bool {
        self.broken
    }

    /// How many lines were taken.
    pub fn lines(&self) -> u64 {
        self.responder.summary().lines
    }

    /// Whether bytes that came wait to be taken.
    pub fn has_input(&self) -> bool {
        !self.inbox.is_empty()
    }

    /// What waits to be sent.
    pub fn unsent(&self) -> &[u8] {
        &self.outbox
    }

    /// What came and is not taken yet.
    pub fn inbox(&self) -> &[u8] {
        &self.inbox
    }

    /// Whether one more line may be taken: there is room for a reply to it, and to count it.
    pub fn has_room(&self) -> bool {
        self.outbox.len() <= UNSENT_ROOM - TURN_ROOM && self.responder.summary().lines <= MOST_LINES
    }

    /// Whether nothing waits but the beginning of a line that may ask who holds numbers, or take one: then more of it is to come.
    pub fn waits_for_more(&self) -> bool {
        self.inbox.is_empty() || self.is_begun()
    }

    // Whether what waits begins with a line, and lines are still answered.
    fn is_at_line(&self) -> bool {
        !self.in_line && !self.is_over()
    }

    // Whether the beginning of a line waits that may ask who holds numbers, or take one.
    fn is_begun(&self) -> bool {
        self.is_at_line() && is_prefix_of(&self.inbox)
    }

    /// What is asked by the line that waits first, where that asks who holds numbers or the terms, and how many bytes the line has with its LF.
    pub fn query(&self) -> Option<(Query, usize)> {
        if !self.is_at_line() {
            return None;
        }
        first_query(&self.inbox)
    }

    /// For which identity the line that waits first takes a number, where it takes one, and how many bytes the line has with its LF.
    pub fn taking(&self) -> Option<(u64, usize)> {
        if !self.is_at_line() {
            return None;
        }
        first_taking(&self.inbox)
    }

    /// For how many seconds the line that waits first waits for a number; 0 where it takes none, or waits for none.
    pub fn wait(&self) -> u64 {
        first_wait(&self.inbox)
    }

    /// The line that waits first, of so many bytes with its LF, was answered by what these replies are: they wait to be sent. Where memory is
    /// refused it is at fault.
    pub fn answer<B: Allocator>(&mut self, count: usize, replies: &mut Replies<B>) {
        self.hold(replies);
        drop_front(&mut self.inbox, count);
    }

    // How many of the bytes that wait a turn takes: all where no more are to come, or else those before a line that asks who holds numbers, or takes one.
    fn free(&self, last: bool) -> usize {
        if last || self.is_over() {
            return self.inbox.len();
        }
        before_query(!self.in_line, &self.inbox)
    }

    // So many of the bytes that waited were taken.
    fn note_taken(&mut self, count: usize) {
        if 0 < count {
            self.in_line = self.inbox[count - 1] != LF;
        }
        drop_front(&mut self.inbox, count);
    }

    /// Takes lines of what waits and of these bytes, which came behind it, as long as there is room for one reply more, up to a line that
    /// asks who holds numbers or takes one; where they are the last that come, past that too. The rest waits. Where memory is refused it is at fault. No
    /// line that the server answers by itself is taken, unless they are the last, or `quit` was answered.
    pub fn take<R, D: Service<R>, B: Allocator>(
        &mut self,
        rt: &R,
        service: &mut D,
        view: &mut View,
        bytes: &[u8],
        last: bool,
        replies: &mut Replies<B>,
    ) {
        if !self.add(bytes) {
            return;
        }
        let free = self.free(last);
        let most = UNSENT_ROOM - self.outbox.len();
        let taken = self
            .responder
            .take_some(rt, service, view, &self.inbox[..free], most, replies);
        self.hold(replies);
        self.note_taken(taken);
    }

    /// Takes the end of what comes, before which nothing waits to be taken. A line that no LF has ended is not answered: it may be the first part of
    /// another, as of a client that was cut off.
    pub fn finish(&mut self) {
        self.ended = true;
    }

    /// Takes lines of the first bytes of what waits, as long as there is room for one reply more. The rest waits. Where memory is refused
    /// it is at fault.
    pub fn take_first<R, D: Service<R>, B: Allocator>(
        &mut self,
        rt: &R,
        service: &mut D,
        view: &mut View,
        count: usize,
        replies: &mut Replies<B>,
    ) {
        let most = UNSENT_ROOM - self.outbox.len();
        let few = count.min(self.inbox.len());
        let used = self
            .responder
            .take_some(rt, service, view, &self.inbox[..few], most, replies);
        self.hold(replies);
        self.note_taken(used);
    }

    /// These bytes came, and wait to be taken. Where memory is refused it is at fault.
    pub fn add(&mut self, bytes: &[u8]) -> bool {
        if self.inbox.extend_from_slice(bytes).is_err() {
            self.broken = true;
            return false;
        }
        true
    }

    // Replies wait to be sent.
    fn hold<B: Allocator>(&mut self, replies: &mut Replies<B>) {
        if self.outbox.extend_from_slice(replies.as_slice()).is_err() {
            self.broken = true;
        }
        replies.clear();
    }

    /// The first bytes of what waited were sent.
    pub fn was_sent(&mut self, count: usize) {
        drop_front(&mut self.outbox, count);
    }

    /// It is at fault.
    pub fn fail(&mut self) {
        self.broken = true;
    }
}
