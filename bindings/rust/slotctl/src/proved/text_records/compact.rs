// Erased by bindings/rust/erase from crates/text_records/src/compact.rt, sha256 627f59a325ad133f9b43270bc5c248436994d56c9f99f6039e248345517bc696.
//! The compact spelling of the lines of a record, as they are written.

use crate::kit::alloc::AllocError;
use crate::kit::itoa::Buffer;
use crate::proved::model_asked::config::Config;
use crate::proved::model_asked::event::Event;
use crate::proved::model_asked::kind::WorldKind;
use crate::proved::model_steps::place::Place;
use crate::proved::text_records::line::Line;
use crate::proved::text_records::reported::Reported;
use crate::proved::text_records::text::Text;

/// Appends the words of the line that asks for an event.
///
/// # Errors
///
/// `AllocError`: the allocation failed. The text is then of no use.
pub fn put_event(event: Event, out: &mut Text) -> Result<(), AllocError> {
    match event {
        Event::Begin(id) => out.put_word(b"begin ", id),
        Event::Step(id) => out.put_word(b"step ", id),
        Event::Enter(id) => out.put_word(b"enter ", id),
        Event::Probe(id) => out.put_word(b"probe ", id),
        Event::Seek(id) => out.put_word(b"seek ", id),
        Event::Leave(id) => out.put_word(b"leave ", id),
        Event::Put(id, value) => {
            out.put_word(b"put ", id)?;
            out.put_word(b" ", value)
        }
        Event::Get(id) => out.put_word(b"get ", id),
        Event::Widen(size) => out.put_word(b"widen ", size),
    }
}

/// Appends the words of a place.
fn put_place(place: Place, out: &mut Text) -> Result<(), AllocError> {
    out.put(b"place ")?;
    out.put(Buffer::new().format(place).as_bytes())
}

/// Appends pairs, each after a space.
fn put_pairs(pairs: &[(u64, u64)], out: &mut Text) -> Result<(), AllocError> {
    for pair in pairs {
        out.put(b" ")?;
        out.put_pair(*pair)?;
    }
    Ok(())
}

/// Appends `saw` and the pairs of a view.
///
/// # Errors
///
/// `AllocError`: the allocation failed. The text is then of no use.
pub fn put_view(pairs: &[(u64, u64)], out: &mut Text) -> Result<(), AllocError> {
    out.put(b"saw")?;
    put_pairs(pairs, out)
}

/// Appends `owner` and the identity that has a name, or `none`.
///
/// # Errors
///
/// `AllocError`: the allocation failed. The text is then of no use.
pub fn put_owner(owner: Option<u64>, out: &mut Text) -> Result<(), AllocError> {
    match owner {
        Some(id) => out.put_word(b"owner ", id),
        None => out.put(b"owner none"),
    }
}

/// Appends the words of a reply that is reported.
fn put_words(reported: &Reported, out: &mut Text) -> Result<(), AllocError> {
    match reported {
        Reported::Ok => out.put(b"ok"),
        Reported::Quiet => out.put(b"quiet"),
        Reported::Stop => out.put(b"stop"),
        Reported::Right => out.put(b"right"),
        Reported::Down => out.put(b"down"),
        Reported::Place(place) => put_place(*place, out),
        Reported::Proposed(number) => out.put_word(b"proposed ", *number),
        Reported::Saw(view) => put_view(view.as_slice(), out),
        Reported::Named(name, _) => out.put_word(b"named ", *name),
        Reported::Spent => out.put(b"spent"),
        Reported::Missed => out.put(b"missed"),
        Reported::Got(number) => out.put_word(b"got ", *number),
        Reported::Left(number) => out.put_word(b"left ", *number),
        Reported::Value(value) => out.put_word(b"value ", *value),
        Reported::Owner(owner) => put_owner(*owner, out),
        Reported::Refused(number) => out.put_word(b"refused ", *number),
    }
}

/// Appends the words of a reply that is reported. These are the words of each reply that is reported so.
///
/// # Errors
///
/// `AllocError`: the allocation failed. The text is then of no use.
pub fn put_reported(reported: &Reported, out: &mut Text) -> Result<(), AllocError> {
    put_words(reported, out)
}

/// Appends the pairs of a view, with a space between two.
fn put_shown(pairs: &[(u64, u64)], out: &mut Text) -> Result<(), AllocError> {
    match pairs {
        [] => Ok(()),
        [first, more @ ..] => {
            out.put_pair(*first)?;
            put_pairs(more, out)
        }
    }
}

/// Appends the view by which a name was given, or nothing if no name was given.
fn put_named_by(
    reported: &Reported,
    view: &[(u64, u64)],
    out: &mut Text,
) -> Result<(), AllocError> {
    if !reported.is_name() {
        return Ok(());
    }
    out.put(b",\"view\":\"")?;
    put_shown(view, out)?;
    out.put(b"\"")
}

/// Appends the line of an event with its reply, in version 2. `view` is the view by which a name was given.
///
/// # Errors
///
/// `AllocError`: the allocation failed. The text is then of no use.
pub fn put_line(line: &Line, view: &[(u64, u64)], out: &mut Text) -> Result<(), AllocError> {
    out.put(b"{\"command\":\"")?;
    put_event(line.event, out)?;
    out.put(b"\",\"reply\":\"")?;
    put_reported(&line.reported, out)?;
    out.put(b"\"")?;
    put_named_by(&line.reported, view, out)?;
    out.put(b"}\n")
}

/// Appends the name of a world.
fn put_world(world: WorldKind, out: &mut Text) -> Result<(), AllocError> {
    out.put(world.name().as_bytes())
}

/// Appends the first line of a record, in version 2.
///
/// # Errors
///
/// `AllocError`: the allocation failed. The text is then of no use.
pub fn put_header(config: Config, out: &mut Text) -> Result<(), AllocError> {
    out.put_word(b"{\"format\":\"slot-record\",\"k\":", config.k)?;
    out.put_word(b",\"limit\":", config.limit)?;
    out.put_word(b",\"m\":", config.m)?;
    out.put(b",\"version\":2,\"world\":\"")?;
    put_world(config.world, out)?;
    out.put(b"\"}\n")
}
