// Erased by bindings/rust/erase from crates/service_host/src/pool_file.rt, sha256 10973db7015833f86e569bfc6c31f8ee2143dfc6da0a100501c7a300fe9d793f.
//! The pools of a server, as a file lists them.

use crate::kit::alloc::{AllocError, Global};
use crate::kit::Vec;
use crate::proved::service_host::failure::HostFailure;
use crate::proved::service_loop::pool_line::is_pool_name;
use crate::proved::text_lines::words::number;

/// What begins a line that says nothing.
const REMARK: u8 = b'#';

/// The most seconds of grace: a day.
const MOST_GRACE: u64 = 86_400;

/// The most numbers of a pool.
const MOST_NUMBERS: u64 = 65_536;

/// One of the pools of a server.
#[derive(Clone, Copy, Debug, PartialEq, Eq)]
pub struct PoolPlan<'a> {
    /// The name by which clients choose it, which no other has.
    pub name: &'a str,
    /// How many numbers it has, from 1 to 65,536.
    pub size: u64,
    /// How many seconds after its connection has ended a stay ends, from 1 to 86,400; never, where it is not given.
    pub grace: Option<u64>,
}

// The number that a word writes, from 1 to this most.
fn number_to(word: &str, most: u64) -> Option<u64> {
    match number(word.as_bytes()) {
        Some(value) if 1 <= value && value <= most => Some(value),
        _ => None,
    }
}

// The grace time that a word gives.
fn grace_in(word: &str) -> Option<Option<u64>> {
    if word == "forever" {
        return Some(None);
    }
    Some(Some(number_to(word, MOST_GRACE)?))
}

// The same, or this one where there is no word.
fn grace_of(word: Option<&str>, grace: Option<u64>) -> Option<Option<u64>> {
    match word {
        None => Some(grace),
        Some(word) => grace_in(word),
    }
}

// The pool of a line: its name, its numbers, and `forever` or the seconds of its grace, which has this one else.
fn pool_of_line<'a>(line: &'a str, grace: Option<u64>) -> Option<PoolPlan<'a>> {
    let mut words = line.split_ascii_whitespace();
    let name = words.next()?;
    let size = number_to(words.next()?, MOST_NUMBERS)?;
    let grace = grace_of(words.next(), grace)?;
    if words.next().is_some() || !is_pool_name(name.as_bytes()) {
        return None;
    }
    Some(PoolPlan { name, size, grace })
}

// Whether a line says nothing: it has no word, or is a remark.
fn is_silent(line: &str) -> bool {
    match line.split_ascii_whitespace().next() {
        None => true,
        Some(word) => word.as_bytes()[0] == REMARK,
    }
}

// Whether a pool of this name is among these.
fn has_name(pools: &[PoolPlan<'_>], name: &str) -> bool {
    for pool in pools {
        if pool.name == name {
            return true;
        }
    }
    false
}

// The pool of a line is added to those before it, where it has a name of its own. Says whether it was.
fn add_line<'a>(
    pools: &mut Vec<PoolPlan<'a>>,
    line: &'a str,
    grace: Option<u64>,
) -> Result<bool, AllocError> {
    match pool_of_line(line, grace) {
        Some(pool) if !has_name(pools, pool.name) => {
            pools.push(pool)?;
            Ok(true)
        }
        _ => Ok(false),
    }
}

/// The pools that a text lists, a line each: a name, how many numbers it has, and then nothing, `forever`, or the seconds of its grace time. Where it says
/// nothing the pool has this grace time. Empty lines and those that begin with `#` say nothing.
///
/// # Errors
///
/// - `PoolLine`: the first line that is no such line, or that names a pool again.
/// - `NoPools`: there is none.
/// - `Memory`: an allocation failed.
pub fn pools_of<'a>(
    alloc: Global,
    text: &'a str,
    grace: Option<u64>,
) -> Result<Vec<PoolPlan<'a>>, HostFailure> {
    let mut pools = Vec::new(alloc);
    let mut at = 0u64;
    for line in text.split('\n') {
        at = at.saturating_add(1);
        if !is_silent(line) && !add_line(&mut pools, line, grace)? {
            return Err(HostFailure::PoolLine(at));
        }
    }
    if pools.is_empty() {
        return Err(HostFailure::NoPools);
    }
    Ok(pools)
}
