// Erased by bindings/rust/erase from crates/tool_work/src/page/still.rt, sha256 5021a3f6481848afe2d9d8e1d5f15bc386220de337f7c5df505938c6fbc38354.
//! What a page tells of the events where no script runs: they as a list.

use crate::kit::alloc::AllocError;
use crate::kit::Vec;
use crate::proved::model_asked::event::Event;
use crate::proved::text_records::compact::{put_event, put_reported};
use crate::proved::text_records::line::Line;
use crate::proved::text_records::text::Text;
use crate::proved::tool_work::page::access::put_access;
use crate::proved::tool_work::page::done::{access_in, identity_of, is_refused, Done};

/// Who begins at a line.
fn beginner_at(line: &Line) -> Option<u64> {
    if is_refused(&line.reported) {
        return None;
    }
    match line.event {
        Event::Begin(id) => Some(id),
        Event::Step(_) => None,
        Event::Enter(_) => None,
        Event::Probe(_) => None,
        Event::Seek(_) => None,
        Event::Leave(_) => None,
        Event::Put(_, _) => None,
        Event::Get(_) => None,
        Event::Widen(_) => None,
    }
}

/// Keeps who begins at a line. An error where a growth was refused.
pub(crate) fn keep_beginner(line: &Line, begun: &mut Vec<u64>) -> Result<(), AllocError> {
    match beginner_at(line) {
        Some(id) => begun.push(id).map_err(AllocError::from),
        None => Ok(()),
    }
}

/// The lane of whose event it is: where they stand among those who have begun.
fn lane_of(begun: &[u64], event: Event) -> Option<usize> {
    let id = identity_of(event);
    begun.iter().position(|one| *one == id)
}

/// Appends the lane of an item.
fn put_lane(lane: Option<usize>, out: &mut Text) -> Result<(), AllocError> {
    match lane {
        None => Ok(()),
        Some(lane) => {
            out.put_word(b" style=\"--lane:", lane as u64)?;
            out.put(b"\"")
        }
    }
}

/// Appends what an item of this number and lane begins with.
fn put_item_begin(number: u64, lane: Option<usize>, out: &mut Text) -> Result<(), AllocError> {
    out.put_word(b"<li value=\"", number)?;
    out.put(b"\"")?;
    put_lane(lane, out)?;
    out.put(b">")?;
    Ok(())
}

/// Appends the words of the item of a line, at which a desk did this.
fn put_item_words(line: &Line, done: &Option<Done>, out: &mut Text) -> Result<(), AllocError> {
    put_event(line.event, out)?;
    out.put(b" <b>")?;
    put_access(access_in(done), out)?;
    out.put(b"</b> ")?;
    put_reported(&line.reported, out)?;
    out.put(b"</li>\n")
}

/// Appends the item of a line, at which a desk did this.
fn put_item(
    begun: &[u64],
    number: u64,
    line: &Line,
    done: &Option<Done>,
    out: &mut Text,
) -> Result<(), AllocError> {
    put_item_begin(number, lane_of(begun, line.event), out)?;
    put_item_words(line, done, out)
}

/// Appends the item of a line, at which a desk did this, where that is shown. An error where a growth was refused.
pub(crate) fn put_item_where_shown(
    begun: &[u64],
    number: u64,
    line: &Line,
    is_shown: bool,
    done: &Option<Done>,
    out: &mut Text,
) -> Result<(), AllocError> {
    if is_shown {
        put_item(begun, number, line, done, out)?;
    }
    Ok(())
}
