// Erased by bindings/rust/erase from crates/service_log/src/etcd/request.rt, sha256 78c40ce47f3c1b72d83fd10fb9eaccebcfc2cfcfb485ac458e0ef954e8a5193f.
//! The requests to etcd. Each is the text of a JSON value.

use crate::kit::alloc::{AllocError, Global};
use crate::kit::base64::engine::general_purpose::STANDARD;
use crate::kit::json::{to_vec, Value};
use crate::kit::vec;
use crate::kit::String;
use crate::kit::Vec;
use crate::proved::service_log::etcd::key::{
    fence_key64, gone_end64, gone_key64, hint_key64, key64, place_text, places_text,
};

// Makes a list of one item.
fn alone<'a>(alloc: Global, value: Value<'a>) -> Result<Value<'a>, AllocError> {
    let items = vec![in alloc; value]?;
    Ok(Value::Array(items))
}

// Makes a list of two items.
fn both<'a>(alloc: Global, one: Value<'a>, other: Value<'a>) -> Result<Value<'a>, AllocError> {
    let items = vec![in alloc; one, other]?;
    Ok(Value::Array(items))
}

// Makes a list of three items.
fn three<'a>(alloc: Global, items: [Value<'a>; 3]) -> Result<Value<'a>, AllocError> {
    let items = Vec::from_array(alloc, items)?;
    Ok(Value::Array(items))
}

// Makes an object of one member.
fn only<'a>(alloc: Global, name: &'a str, value: Value<'a>) -> Result<Value<'a>, AllocError> {
    let members = vec![in alloc; (name, value)]?;
    Ok(Value::Object(members))
}

// Makes an object of two members.
fn object_of<'a>(
    alloc: Global,
    members: [(&'a str, Value<'a>); 2],
) -> Result<Value<'a>, AllocError> {
    let members = Vec::from_array(alloc, members)?;
    Ok(Value::Object(members))
}

// Makes an object of three members.
fn object_of_three<'a>(
    alloc: Global,
    members: [(&'a str, Value<'a>); 3],
) -> Result<Value<'a>, AllocError> {
    let members = Vec::from_array(alloc, members)?;
    Ok(Value::Object(members))
}

// Makes the condition that a key has this value under a name.
fn compared<'a>(
    alloc: Global,
    key: &'a str,
    target: &'a str,
    name: &'a str,
    value: &'a str,
) -> Result<Value<'a>, AllocError> {
    let members = vec![in alloc;
        ("key", Value::String(key)),
        ("target", Value::String(target)),
        ("result", Value::String("EQUAL")),
        (name, Value::String(value)),
    ]?;
    Ok(Value::Object(members))
}

// Makes the condition that a key was created, and stands.
fn created<'a>(alloc: Global, key: &'a str) -> Result<Value<'a>, AllocError> {
    let members = vec![in alloc;
        ("key", Value::String(key)),
        ("target", Value::String("CREATE")),
        ("result", Value::String("GREATER")),
        ("create_revision", Value::String("0")),
    ]?;
    Ok(Value::Object(members))
}

// Makes the condition that no key from `key` on that comes before `end` was created.
fn none_created<'a>(alloc: Global, key: &'a str, end: &'a str) -> Result<Value<'a>, AllocError> {
    let members = vec![in alloc;
        ("key", Value::String(key)),
        ("range_end", Value::String(end)),
        ("target", Value::String("CREATE")),
        ("result", Value::String("EQUAL")),
        ("create_revision", Value::String("0")),
    ]?;
    Ok(Value::Object(members))
}

// Makes the condition that a key was never created.
fn never_created<'a>(alloc: Global, key: &'a str) -> Result<Value<'a>, AllocError> {
    compared(alloc, key, "CREATE", "create_revision", "0")
}

// Makes the condition that a key has this value.
fn holds<'a>(alloc: Global, key: &'a str, value: &'a str) -> Result<Value<'a>, AllocError> {
    compared(alloc, key, "VALUE", "value", value)
}

/// The keys that are compared at a put, in base64.
#[derive(Clone, Copy)]
struct Keys<'a> {
    key: &'a str,
    /// The keys from `gone` on that come before `end` say that the place was given up.
    gone: &'a str,
    end: &'a str,
}

// Makes two conditions: a key was never created, and none that says that it was given up.
//
// The first alone does not do: a key that was deleted has no create revision, as one that was never created.
fn unwritten<'a>(alloc: Global, keys: &Keys<'a>) -> Result<Value<'a>, AllocError> {
    let never = never_created(alloc, keys.key)?;
    both(alloc, never, none_created(alloc, keys.gone, keys.end)?)
}

// Makes these two conditions, and between them a third: the key before has this value.
fn unwritten_behind<'a>(
    alloc: Global,
    keys: &Keys<'a>,
    before: &'a str,
    last: &'a str,
) -> Result<Value<'a>, AllocError> {
    let never = never_created(alloc, keys.key)?;
    let held = holds(alloc, before, last)?;
    let kept = none_created(alloc, keys.gone, keys.end)?;
    three(alloc, [never, held, kept])
}

// Makes the object of a key and its value.
fn pair<'a>(alloc: Global, key: &'a str, value: &'a str) -> Result<Value<'a>, AllocError> {
    object_of(
        alloc,
        [("key", Value::String(key)), ("value", Value::String(value))],
    )
}

// Makes the list of the one request that puts a value at a key.
fn success<'a>(alloc: Global, key: &'a str, value: &'a str) -> Result<Value<'a>, AllocError> {
    let put = pair(alloc, key, value)?;
    alone(alloc, only(alloc, "request_put", put)?)
}

// Makes the transaction that puts a value at a key if all conditions of a list hold.
fn transaction<'a>(
    alloc: Global,
    compared: Value<'a>,
    key: &'a str,
    value: &'a str,
) -> Result<Value<'a>, AllocError> {
    let success = success(alloc, key, value)?;
    object_of(alloc, [("compare", compared), ("success", success)])
}

// Returns an entry in base64.
fn value64(alloc: Global, entry: &[u8]) -> Result<String, AllocError> {
    STANDARD.encode(alloc, entry)
}

// Returns the text of the transaction that puts a value at a key that was never created.
fn text_first<'a>(alloc: Global, keys: &Keys<'a>, value: &'a str) -> Result<Vec<u8>, AllocError> {
    let compared = unwritten(alloc, keys)?;
    to_vec(alloc, &transaction(alloc, compared, keys.key, value)?)
}

/// Returns the text of the request that puts an entry at a place under a prefix, if the place was never written and not
/// given up.
///
/// # Errors
///
/// `AllocError`: an allocation failed.
pub fn put_text(
    alloc: Global,
    prefix: &str,
    place: u64,
    entry: &[u8],
) -> Result<Vec<u8>, AllocError> {
    let key = key64(alloc, prefix, place)?;
    let value = value64(alloc, entry)?;
    let gone = gone_key64(alloc, prefix, place)?;
    let end = gone_end64(alloc, prefix)?;
    let keys = Keys {
        key: key.as_str(),
        gone: gone.as_str(),
        end: end.as_str(),
    };
    text_first(alloc, &keys, value.as_str())
}

// Returns the text of the transaction that puts a value at a key that was never created, if the key before has this
// value.
fn text_behind<'a>(
    alloc: Global,
    before: &'a str,
    last: &'a str,
    keys: &Keys<'a>,
    value: &'a str,
) -> Result<Vec<u8>, AllocError> {
    let compared = unwritten_behind(alloc, keys, before, last)?;
    to_vec(alloc, &transaction(alloc, compared, keys.key, value)?)
}

/// Returns the text of the request that puts an entry at a place, if the place was never written and not given up, and the
/// place before holds `stood`.
///
/// # Errors
///
/// `AllocError`: an allocation failed.
pub fn put_behind_text(
    alloc: Global,
    prefix: &str,
    place: u64,
    stood: &[u8],
    entry: &[u8],
) -> Result<Vec<u8>, AllocError> {
    let before = key64(alloc, prefix, place.saturating_sub(1))?;
    let last = value64(alloc, stood)?;
    let key = key64(alloc, prefix, place)?;
    let value = value64(alloc, entry)?;
    let gone = gone_key64(alloc, prefix, place)?;
    let end = gone_end64(alloc, prefix)?;
    let keys = Keys {
        key: key.as_str(),
        gone: gone.as_str(),
        end: end.as_str(),
    };
    text_behind(alloc, before.as_str(), last.as_str(), &keys, value.as_str())
}

// Makes the transaction that puts a value at the first of these keys that was never created.
fn put_first<'a>(
    alloc: Global,
    keys: &'a [String],
    value: &'a str,
) -> Result<Value<'a>, AllocError> {
    let Some((key, rest)) = keys.split_first() else {
        return Ok(Value::Object(Vec::new(alloc)));
    };
    let never = never_created(alloc, key.as_str())?;
    let compared = alone(alloc, never)?;
    let put = success(alloc, key.as_str(), value)?;
    let others = only(alloc, "request_txn", put_first(alloc, rest, value)?)?;
    let failure = alone(alloc, others)?;
    object_of_three(
        alloc,
        [
            ("compare", compared),
            ("success", put),
            ("failure", failure),
        ],
    )
}

/// What an append compares and gets, all in base64 but the revision.
#[derive(Clone, Copy)]
struct Fenced<'a> {
    /// The key that is changed where the answer to an append was lost.
    fence: &'a str,
    /// The revision at which it was changed last, in digits.
    revision: &'a str,
    /// The key before, and what it holds.
    before: &'a str,
    last: &'a str,
    /// The keys from `gone` on that come before `end` say that the place was given up.
    gone: &'a str,
    end: &'a str,
    /// The keys from `first` on that come before `until` are those of the places.
    first: &'a str,
    until: &'a str,
}

// Makes the three conditions of an append.
fn append_conditions<'a>(alloc: Global, keys: &Fenced<'a>) -> Result<Value<'a>, AllocError> {
    let same = compared(alloc, keys.fence, "MOD", "mod_revision", keys.revision)?;
    let held = holds(alloc, keys.before, keys.last)?;
    let not_gone = none_created(alloc, keys.gone, keys.end)?;
    three(alloc, [same, held, not_gone])
}

// Makes what an append does where its conditions hold.
fn first_free<'a>(
    alloc: Global,
    keys: &Fenced<'a>,
    places: &'a [String],
    value: &'a str,
) -> Result<Value<'a>, AllocError> {
    let put = only(alloc, "request_txn", put_first(alloc, places, value)?)?;
    let found = range(alloc, keys.first, keys.until)?;
    both(alloc, put, only(alloc, "request_range", found)?)
}

// Makes what an append does where its conditions do not hold.
fn reads_fence<'a>(alloc: Global, fence: &'a str) -> Result<Value<'a>, AllocError> {
    let key = only(alloc, "key", Value::String(fence))?;
    alone(alloc, only(alloc, "request_range", key)?)
}

// Returns the text of an append.
fn text_of_append<'a>(
    alloc: Global,
    keys: &Fenced<'a>,
    places: &'a [String],
    value: &'a str,
) -> Result<Vec<u8>, AllocError> {
    let compared = append_conditions(alloc, keys)?;
    let put = first_free(alloc, keys, places, value)?;
    let failure = reads_fence(alloc, keys.fence)?;
    let append = object_of_three(
        alloc,
        [
            ("compare", compared),
            ("success", put),
            ("failure", failure),
        ],
    )?;
    to_vec(alloc, &append)
}

/// Returns the text of the request that puts an entry at the first place from `place` on before `last` that was never
/// written, and gets what is there. It does so only if the place before holds `stood`, the place was not given up, and the
/// fence was changed last at this revision, in digits.
///
/// # Errors
///
/// `AllocError`: an allocation failed.
pub fn append_text(
    alloc: Global,
    prefix: &str,
    place: u64,
    last: u64,
    stood: &[u8],
    entry: &[u8],
    revision: &str,
) -> Result<Vec<u8>, AllocError> {
    let fence = fence_key64(alloc, prefix)?;
    let preceding = key64(alloc, prefix, place.saturating_sub(1))?;
    let held = value64(alloc, stood)?;
    let gone = gone_key64(alloc, prefix, place)?;
    let end = gone_end64(alloc, prefix)?;
    let first = key64(alloc, prefix, place)?;
    let until = key64(alloc, prefix, last)?;
    let places = keys64(alloc, prefix, place, last)?;
    let value = value64(alloc, entry)?;
    let keys = Fenced {
        fence: fence.as_str(),
        revision,
        before: preceding.as_str(),
        last: held.as_str(),
        gone: gone.as_str(),
        end: end.as_str(),
        first: first.as_str(),
        until: until.as_str(),
    };
    text_of_append(alloc, &keys, &places, value.as_str())
}

/// Returns the text of the request that changes the fence under a prefix.
///
/// # Errors
///
/// `AllocError`: an allocation failed.
pub fn fence_text(alloc: Global, prefix: &str) -> Result<Vec<u8>, AllocError> {
    let key = fence_key64(alloc, prefix)?;
    to_vec(alloc, &only(alloc, "key", Value::String(key.as_str()))?)
}

// Makes the request for the keys from `key` on that come before `end`.
fn range<'a>(alloc: Global, key: &'a str, end: &'a str) -> Result<Value<'a>, AllocError> {
    object_of(
        alloc,
        [
            ("key", Value::String(key)),
            ("range_end", Value::String(end)),
        ],
    )
}

/// Returns the text of the request that gets the entries under a prefix from `place` on, before `last`.
///
/// # Errors
///
/// `AllocError`: an allocation failed.
pub fn get_text(alloc: Global, prefix: &str, place: u64, last: u64) -> Result<Vec<u8>, AllocError> {
    let key = key64(alloc, prefix, place)?;
    let end = key64(alloc, prefix, last)?;
    to_vec(alloc, &range(alloc, key.as_str(), end.as_str())?)
}

/// Returns the text of the request that gets the entry at one place under a prefix.
///
/// # Errors
///
/// `AllocError`: an allocation failed.
pub fn one_text(alloc: Global, prefix: &str, place: u64) -> Result<Vec<u8>, AllocError> {
    let key = key64(alloc, prefix, place)?;
    to_vec(alloc, &only(alloc, "key", Value::String(key.as_str()))?)
}

/// Returns the text of the request that gets the place that is noted under a prefix.
///
/// # Errors
///
/// `AllocError`: an allocation failed.
pub fn hint_text(alloc: Global, prefix: &str) -> Result<Vec<u8>, AllocError> {
    let key = hint_key64(alloc, prefix)?;
    to_vec(alloc, &only(alloc, "key", Value::String(key.as_str()))?)
}

/// Returns the text of the request that notes a place under a prefix, in place of the one noted before.
///
/// # Errors
///
/// `AllocError`: an allocation failed.
pub fn put_hint_text(alloc: Global, prefix: &str, place: u64) -> Result<Vec<u8>, AllocError> {
    let key = hint_key64(alloc, prefix)?;
    let digits = place_text(alloc, place)?;
    let value = value64(alloc, &digits)?;
    to_vec(alloc, &pair(alloc, key.as_str(), value.as_str())?)
}

/// Returns the text of the request that gets what was noted of entries that were given up.
///
/// # Errors
///
/// `AllocError`: an allocation failed.
pub fn gone_text(alloc: Global, prefix: &str) -> Result<Vec<u8>, AllocError> {
    let key = gone_key64(alloc, prefix, 0)?;
    let end = gone_end64(alloc, prefix)?;
    to_vec(alloc, &range(alloc, key.as_str(), end.as_str())?)
}

/// Returns the text of the request that lets etcd forget what its keys held before a revision, which is a number in digits.
///
/// # Errors
///
/// `AllocError`: an allocation failed.
pub fn forget_text(alloc: Global, revision: &str) -> Result<Vec<u8>, AllocError> {
    to_vec(alloc, &only(alloc, "revision", Value::String(revision))?)
}

// Returns the keys of the places from `from` on before `to`, in base64.
fn keys64(alloc: Global, prefix: &str, from: u64, to: u64) -> Result<Vec<String>, AllocError> {
    let mut keys = Vec::new(alloc);
    for place in from..to {
        keys.push(key64(alloc, prefix, place)?)?;
    }
    Ok(keys)
}

// Makes the request that deletes a key.
fn delete_of<'a>(alloc: Global, key: &'a str) -> Result<Value<'a>, AllocError> {
    let key = only(alloc, "key", Value::String(key))?;
    only(alloc, "request_delete_range", key)
}

/// What notes the entries that are given up, all in base64.
#[derive(Clone, Copy)]
struct Notes<'a> {
    /// What was noted before is at the keys from `first` on that come before `gone`.
    first: &'a str,
    gone: &'a str,
    value: &'a str,
}

// Makes the requests that note something in place of what was noted before, and delete these keys.
fn trim_changes<'a>(
    alloc: Global,
    notes: &Notes<'a>,
    keys: &'a [String],
) -> Result<Vec<Value<'a>>, AllocError> {
    let older = only(
        alloc,
        "request_delete_range",
        range(alloc, notes.first, notes.gone)?,
    )?;
    let note = only(alloc, "request_put", pair(alloc, notes.gone, notes.value)?)?;
    let mut changes = vec![in alloc; older, note]?;
    for key in keys {
        changes.push(delete_of(alloc, key.as_str())?)?;
    }
    Ok(changes)
}

// Makes the two conditions that a key stands, and none from `above` on that comes before `end`.
fn latest<'a>(
    alloc: Global,
    stands: &'a str,
    above: &'a str,
    end: &'a str,
) -> Result<Value<'a>, AllocError> {
    let stood = created(alloc, stands)?;
    both(alloc, stood, none_created(alloc, above, end)?)
}

// Makes the transaction that gives entries up if all conditions of a list hold.
fn trimming<'a>(
    alloc: Global,
    compared: Value<'a>,
    notes: &Notes<'a>,
    keys: &'a [String],
) -> Result<Value<'a>, AllocError> {
    let changes = trim_changes(alloc, notes, keys)?;
    object_of(
        alloc,
        [("compare", compared), ("success", Value::Array(changes))],
    )
}

// Returns the text of the transaction that gives entries up if the key `stands` does, and none from `above` on that comes
// before `end`.
fn text_of_trim<'a>(
    alloc: Global,
    stands: &'a str,
    above: &'a str,
    end: &'a str,
    notes: &Notes<'a>,
    keys: &'a [String],
) -> Result<Vec<u8>, AllocError> {
    let compared = latest(alloc, stands, above, end)?;
    to_vec(alloc, &trimming(alloc, compared, notes, keys)?)
}

/// Returns the text of the request that gives up the entries below a place, but the first: it notes the place, and deletes
/// the entries from `from` on before `to`.
///
/// It does so only if an entry is at that place, and no later place was noted.
///
/// # Errors
///
/// `AllocError`: an allocation failed.
pub fn trim_text(
    alloc: Global,
    prefix: &str,
    place: u64,
    from: u64,
    to: u64,
) -> Result<Vec<u8>, AllocError> {
    let stands = key64(alloc, prefix, place)?;
    let above = gone_key64(alloc, prefix, place)?;
    let end = gone_end64(alloc, prefix)?;
    let first = gone_key64(alloc, prefix, 0)?;
    let gone = gone_key64(alloc, prefix, place - 1)?;
    let value = value64(alloc, &places_text(alloc, place, to)?)?;
    let keys = keys64(alloc, prefix, from, to)?;
    let notes = Notes {
        first: first.as_str(),
        gone: gone.as_str(),
        value: value.as_str(),
    };
    text_of_trim(
        alloc,
        stands.as_str(),
        above.as_str(),
        end.as_str(),
        &notes,
        &keys,
    )
}
