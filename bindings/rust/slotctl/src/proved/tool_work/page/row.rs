// Erased by bindings/rust/erase from crates/tool_work/src/page/row.rt, sha256 606ae856f9f6ad83f907e63c6a6cbaec767e6801f32b3b9408db8b9ba52733a6.
//! The rows of a page.

use crate::kit::alloc::AllocError;
use crate::proved::model_asked::reply::Reply;
use crate::proved::model_steps::view::View;
use crate::proved::text_records::compact::{put_event, put_owner, put_reported, put_view};
use crate::proved::text_records::line::Line;
use crate::proved::text_records::text::Text;
use crate::proved::tool_work::page::access::{put_access, put_word_of_place};
use crate::proved::tool_work::page::done::Done;
use crate::proved::tool_work::page::form::Form;
use crate::proved::tool_work::page::standing::put_standing;

/// Appends the words of a reply.
fn put_reply(reply: &Reply<View>, out: &mut Text) -> Result<(), AllocError> {
    match reply {
        Reply::Ok => out.put(b"ok"),
        Reply::Quiet => out.put(b"quiet"),
        Reply::Stop => out.put(b"stop"),
        Reply::Right => out.put(b"right"),
        Reply::Down => out.put(b"down"),
        Reply::Place(place) => put_word_of_place(b"place ", *place, out),
        Reply::Proposed(number) => out.put_word(b"proposed ", *number),
        Reply::Saw(view) => put_view(view.pairs(), out),
        Reply::Named(name, _) => out.put_word(b"named ", *name),
        Reply::Spent => out.put(b"spent"),
        Reply::Missed => out.put(b"missed"),
        Reply::Got(number) => out.put_word(b"got ", u64::from(*number)),
        Reply::Left(number) => out.put_word(b"left ", u64::from(*number)),
        Reply::Value(value) => out.put_word(b"value ", *value),
        Reply::Owner(owner) => put_owner(*owner, out),
        Reply::Refused(refusal) => out.put_word(b"refused ", u64::from(refusal.number())),
    }
}

/// Appends what stands in a register, where anything does.
fn put_held(held: Option<u64>, out: &mut Text) -> Result<(), AllocError> {
    match held {
        None => Ok(()),
        Some(word) => out.put_number(word),
    }
}

/// Appends the words of what a desk did, with what parts them.
fn put_done(done: &Done, out: &mut Text) -> Result<(), AllocError> {
    put_reply(&done.reply, out)?;
    out.put(b"\",\"")?;
    put_access(done.access, out)?;
    out.put(b"\",\"")?;
    put_held(done.held, out)?;
    out.put(b"\",\"")?;
    put_standing(Form::Data, &done.standing, out)?;
    out.put_word(b"\",\"", done.size)
}

/// Appends the words of what a desk did, and only what parts them where it did nothing.
fn put_done_or_none(done: &Option<Done>, out: &mut Text) -> Result<(), AllocError> {
    match done {
        None => out.put(b"\",\"\",\"\",\"\",\"\",\"\",\""),
        Some(done) => put_done(done, out),
    }
}

/// Appends the row of a line, at which a desk did this.
fn put_row(line: &Line, done: &Option<Done>, out: &mut Text) -> Result<(), AllocError> {
    out.put(b"[\"")?;
    put_event(line.event, out)?;
    out.put(b"\",\"")?;
    put_reported(&line.reported, out)?;
    out.put(b"\",\"")?;
    put_done_or_none(done, out)?;
    out.put(b"\"],\n")
}

/// Appends the row of a line, at which a desk did this, where that is shown. An error where a growth was refused.
pub(crate) fn put_where_shown(
    line: &Line,
    is_shown: bool,
    done: &Option<Done>,
    out: &mut Text,
) -> Result<(), AllocError> {
    if is_shown {
        put_row(line, done, out)?;
    }
    Ok(())
}
