// Erased by bindings/rust/erase from crates/service_journal/src/record.rt, sha256 8df8c679ac9575216541842ba850b56f259c5e7e1abe84e3de7c48167e2f08ba.
//! The whole record of a hall.

use crate::kit::alloc::{AllocError, Global};
use crate::kit::vec::ToVec;
use crate::kit::Vec;
use crate::proved::model_steps::refusal::NoMemory;
use crate::proved::model_steps::view::View;
use crate::proved::service_hall::hall::Hall;
use crate::proved::service_journal::write_ahead::put_line;
use crate::proved::text_lines::replies::Replies;
use crate::proved::text_player::as_record::print_header;
use crate::proved::text_player::form::TURN_ROOM;

/// Puts the line of the event at a place of a history behind others; an error where there is no such event, or no room.
fn put_event(
    hall: &Hall,
    place: usize,
    line: &mut Replies<Global>,
    lines: &mut Vec<u8>,
) -> Result<(), NoMemory> {
    let Some(exchange) = hall.get(place) else {
        return Err(NoMemory);
    };
    if lines.reserve(TURN_ROOM).is_err() {
        return Err(NoMemory);
    }
    let mut view = View::new();
    let reply = exchange.reply.shorten(&mut view);
    put_line(exchange.event, reply, &view, line, lines);
    Ok(())
}

/// The header of a hall's record.
fn header_of(
    alloc: Global,
    hall: &Hall,
    line: &mut Replies<Global>,
) -> Result<Vec<u8>, AllocError> {
    line.clear();
    print_header(hall.config(), line);
    line.as_slice().try_to_vec(alloc)
}

/// The record of a hall: a header, and a line for each event of its history with its reply.
pub(crate) fn record_of(alloc: Global, hall: &Hall) -> Result<Vec<u8>, NoMemory> {
    let mut line = Replies::new(alloc)?;
    let Ok(mut lines) = header_of(alloc, hall, &mut line) else {
        return Err(NoMemory);
    };
    for place in 0..hall.len() {
        put_event(hall, place, &mut line, &mut lines)?;
    }
    Ok(lines)
}
