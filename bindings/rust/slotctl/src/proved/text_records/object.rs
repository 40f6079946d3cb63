// Erased by bindings/rust/erase from crates/text_records/src/object.rt, sha256 8fcf4355e2246ad1afd85f367282d0b79a036290f9d07b4fd4c80bb2747e5469.
//! The lines of a record as JSON values.

use crate::kit::serde_json::Value;
use crate::proved::model_asked::config::Config;
use crate::proved::model_asked::kind::WorldKind;
use crate::proved::text_lines::words::is_word;
use crate::proved::text_records::header::{Header, Version};

/// The number of keys of an object.
fn keys(value: &Value) -> Option<usize> {
    match value.as_object() {
        Some(members) => Some(members.len()),
        None => None,
    }
}

/// The text at a key.
fn text<'a>(value: &'a Value, key: &str) -> Option<&'a str> {
    value.get(key).and_then(Value::as_str)
}

/// The whole number at a key.
fn number(value: &Value, key: &str) -> Option<u64> {
    value.get(key).and_then(Value::as_u64)
}

/// The texts of an event's line.
#[derive(Clone, Copy, Debug)]
pub struct LineTexts<'a> {
    /// The command.
    pub command: &'a [u8],
    /// The reply.
    pub reply: &'a [u8],
    /// The view by which a name was given, if one is written.
    pub view: Option<&'a [u8]>,
}

/// Returns the texts of an event's line, or `None` if the value has other keys or other types.
pub fn texts(value: &Value) -> Option<LineTexts<'_>> {
    let command = text(value, "command")?.as_bytes();
    let reply = text(value, "reply")?.as_bytes();
    match keys(value)? {
        2 => Some(LineTexts {
            command,
            reply,
            view: None,
        }),
        3 => Some(LineTexts {
            command,
            reply,
            view: Some(text(value, "view")?.as_bytes()),
        }),
        _ => None,
    }
}

/// The world with a name, if it gives names.
fn world(name: &str) -> Option<WorldKind> {
    let world = WorldKind::named(name)?;
    if !world.gives_names() {
        return None;
    }
    Some(world)
}

/// The numbers of a header, in their ranges or not.
#[derive(Clone, Copy)]
struct Sizes {
    version: Version,
    world: WorldKind,
    m: u64,
    k: u64,
    limit: u64,
}

/// The version of a value that has the keys and the format of a header.
fn version(value: &Value) -> Option<Version> {
    let format = text(value, "format")?;
    if keys(value)? != 6 || !is_word(format.as_bytes(), b"slot-record") {
        return None;
    }
    Version::of_number(number(value, "version")?)
}

/// The numbers of a header.
fn said_sizes(value: &Value) -> Option<Sizes> {
    Some(Sizes {
        version: version(value)?,
        world: world(text(value, "world")?)?,
        m: number(value, "m")?,
        k: number(value, "k")?,
        limit: number(value, "limit")?,
    })
}

/// Returns the header that a value is, or `None` if it is none or a number is out of its range.
pub fn header(value: &Value) -> Option<Header> {
    let Some(sizes) = said_sizes(value) else {
        return None;
    };
    let version = sizes.version;
    if !version.fits(sizes.m) {
        return None;
    }
    match Config::new(sizes.world, sizes.m, sizes.k, sizes.limit) {
        Ok(config) => Some(Header { version, config }),
        Err(_) => None,
    }
}
