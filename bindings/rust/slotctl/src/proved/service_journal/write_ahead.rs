// Erased by bindings/rust/erase from crates/service_journal/src/write_ahead.rt, sha256 35ba55e4e1c860e64dbe4cbc5ee9246e202cb2d82e8aa35939a43dff16aeaf7f.
//! A hall, and the lines of its journal that are not written yet.

use crate::kit::alloc::Global;
use crate::kit::Vec;
use crate::proved::model_asked::event::Event;
use crate::proved::model_asked::reply::Reply;
use crate::proved::model_steps::refusal::{NoMemory, Refusal};
use crate::proved::model_steps::view::View;
use crate::proved::service_hall::hall::Hall;
use crate::proved::service_hall::laws::law_of_serving;
use crate::proved::text_lines::replies::Replies;
use crate::proved::text_player::as_record::AsRecord;
use crate::proved::text_player::form::{Form, TURN_ROOM};
use crate::proved::text_player::service::Service;

/// The most bytes that the pending lines may have.
pub const MOST_WAITING: usize = 1_048_576;

/// A hall that writes each event which it accepts, with its reply, as a line of a record. Its lines are pending until they are committed.
///
/// The header, the committed lines and the pending lines are together the record of the hall's history.
pub struct WriteAhead {
    hall: Hall,
    reported: usize,
    lines: Vec<u8>,
    line: Replies<Global>,
}

/// Applies an event to a hall. The hall adds it to its history if it accepts it, and adds nothing else.
pub(crate) fn applied(hall: &mut Hall, event: Event, view: &mut View) -> Reply<()> {
    law_of_serving();
    let _ = hall.len();
    hall.apply_short(event, view)
}

/// Appends the line of an event with its reply, and the view beside that, to others, which have room for it.
pub(crate) fn put_line(
    event: Event,
    reply: Reply<()>,
    view: &View,
    line: &mut Replies<Global>,
    lines: &mut Vec<u8>,
) {
    line.clear();
    AsRecord::put_answered(event, reply, view, line);
    let _ = lines.extend_from_slice(line.as_slice());
}

impl WriteAhead {
    /// Makes a write-ahead hall of a hall whose events are all committed. No line is pending.
    ///
    /// # Errors
    ///
    /// - `NoMemory`: an allocation failed.
    pub fn new(alloc: Global, hall: Hall) -> Result<WriteAhead, NoMemory> {
        let reported = hall.len();
        Ok(WriteAhead {
            hall,
            reported,
            lines: Vec::new(alloc),
            line: Replies::new(alloc)?,
        })
    }

    /// Returns the hall.
    pub fn hall(&self) -> &Hall {
        &self.hall
    }

    /// Returns the pending lines: those of the events that are not committed.
    pub fn waiting(&self) -> &[u8] {
        &self.lines
    }

    /// Returns whether a line is pending.
    pub fn has_waiting(&self) -> bool {
        self.reported < self.hall.len()
    }

    /// Returns whether so many bytes are pending that an event is refused for want of room. A commit makes room.
    pub fn is_full(&self) -> bool {
        MOST_WAITING - TURN_ROOM < self.lines.len()
    }

    /// Notes that all events are committed: no line is pending any more. The caller has persisted the pending lines.
    pub fn mark_committed(&mut self) {
        self.lines.clear();
        self.reported = self.hall.len();
    }

    /// Replaces the hall by one that was compacted of it. All events of that are committed, or there is no journal.
    pub fn replace_hall(&mut self, hall: Hall) {
        self.lines.clear();
        self.reported = hall.len();
        self.hall = hall;
    }
}

impl<R> Service<R> for WriteAhead {
    fn apply(&mut self, _rt: &R, event: Event, view: &mut View) -> Reply<()> {
        if self.is_full() || self.lines.reserve(TURN_ROOM).is_err() {
            return Reply::Refused(self.hall.refusal(event).unwrap_or(Refusal::NoMemory));
        }
        let reply = applied(&mut self.hall, event, view);
        if !reply.is_refusal() {
            put_line(event, reply, view, &mut self.line, &mut self.lines);
        }
        reply
    }

    fn owner(&mut self, _rt: &R, n: u64) -> Reply<View> {
        self.hall.owner(n)
    }
}
