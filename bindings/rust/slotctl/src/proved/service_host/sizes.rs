// Erased by bindings/rust/erase from crates/service_host/src/sizes.rt, sha256 471f51c14fc65d3cb4b5197e2c6016a3b4bf11dccbfebc11594ca673d4672be1.
//! How many numbers the pool of a hall has, and how many it is to have.

use crate::kit::alloc::{AllocError, Global};
use crate::kit::Vec;
use crate::proved::model_asked::config::Config;
use crate::proved::model_asked::kind::WorldKind;
use crate::proved::service_follow::log_fault::LogFault;
use crate::proved::service_follow::log_persister::is_first_line;
use crate::proved::service_follow::pause::Pause;
use crate::proved::service_hall::hall::Hall;
use crate::proved::service_host::failure::HostFailure;
use crate::proved::service_log::store::Store;
use crate::proved::service_log::store_fault::StoreFault;
use crate::proved::text_lines::words::{cut, number};

/// What parts two words.
const SPACE: u8 = 32;

/// How many words stand before the size of the pool in the first entry of a log.
const SIZE_PLACE: u64 = 8;

/// How often a store is asked for one entry, at most; a `Pause` ends it before.
const MOST_TRIES: u32 = 1_000_000;

/// What is to be done about the size of the pool of a hall, where one is asked for.
#[derive(Clone, Copy, Debug, PartialEq, Eq)]
pub enum Sizing {
    /// The pool is taken as it is.
    Fits,
    /// The pool is to be widened.
    Widens,
    /// The start is refused: the pool has more numbers than are asked for.
    Exceeds,
}

/// Returns the number of numbers in the pool of a hall.
pub fn size_of(hall: &Hall) -> u64 {
    hall.slots().pool().size()
}

/// Returns what is to be done about the pool of a hall, where this size is asked for, and clients may have widened it or not.
///
/// A greater size widens it. A lesser one is refused, unless clients may have widened the pool and the hall was made with no more.
pub fn choose_sizing(hall: &Hall, asked: u64, by_clients: bool) -> Sizing {
    let size = size_of(hall);
    if size < asked {
        return Sizing::Widens;
    }
    if size == asked {
        return Sizing::Fits;
    }
    if by_clients && hall.config().k <= asked {
        return Sizing::Fits;
    }
    Sizing::Exceeds
}

// Whether names are given in both worlds or in none, and over places of one kind.
fn are_alike_worlds(kind: WorldKind, other: WorldKind) -> bool {
    other.gives_names() == kind.gives_names() && other.is_tree() == kind.is_tree()
}

/// Returns true if and only if two configs are the same, but for the pool: its size, and whether it may have many numbers.
pub(crate) fn are_alike_but_size(config: Config, other: Config) -> bool {
    are_alike_worlds(config.world, other.world)
        && other.m == config.m
        && other.limit == config.limit
}

// The config of this world, whose pool has this size, and which is else like another, if there is one.
fn resized(config: Config, world: WorldKind, size: u64) -> Option<Config> {
    match Config::new(world, config.m, size, config.limit) {
        Ok(resized) if are_alike_but_size(config, resized) => Some(resized),
        _ => None,
    }
}

// The word at a place of a line, where the line has so many: single spaces part them.
fn word_at(line: &[u8], place: u64) -> Option<&[u8]> {
    let (word, behind) = cut(line, SPACE);
    if place == 0 {
        return Some(word);
    }
    match behind {
        Some(behind) => word_at(behind, place - 1),
        None => None,
    }
}

// The size of the pool that the first entry of a log tells.
fn size_told(entry: &[u8]) -> Option<u64> {
    number(word_at(entry, SIZE_PLACE)?)
}

// The config of this world and size that is else like another, if an entry is the first one of a log of such halls.
fn told_in(
    alloc: Global,
    config: Config,
    world: WorldKind,
    size: u64,
    entry: &[u8],
) -> Result<Option<Config>, AllocError> {
    let Some(tried) = resized(config, world, size) else {
        return Ok(None);
    };
    let is_first = is_first_line(alloc, tried, entry)?;
    Ok(is_first.then_some(tried))
}

/// Returns the config that the hall of a log was made with, as the first entry of the log tells. Returns `None` if and only if that differs from this one in
/// more than the pool.
///
/// # Errors
///
/// `AllocError`: an allocation failed.
pub fn config_of_log(
    alloc: Global,
    config: Config,
    entry: &[u8],
) -> Result<Option<Config>, AllocError> {
    let Some(size) = size_told(entry) else {
        return Ok(None);
    };
    for world in WorldKind::all() {
        if let Some(told) = told_in(alloc, config, world, size, entry)? {
            return Ok(Some(told));
        }
    }
    Ok(None)
}

// Reads the first entry of a log, as soon as the store answers; tells whether there is one.
fn read_first<S: Store, P: Pause>(
    store: &mut S,
    pause: &mut P,
    entry: &mut Vec<u8>,
) -> Result<bool, StoreFault> {
    pause.begin();
    for _ in 0..MOST_TRIES {
        match store.get(0, entry) {
            Ok(found) => return Ok(found),
            Err(StoreFault::Memory) => return Err(StoreFault::Memory),
            Err(fault) => {
                if !pause.again() {
                    return Err(fault);
                }
            }
        }
    }
    Err(StoreFault::Lost)
}

/// Returns the config that the hall of a log was made with, if that differs from this one in the pool alone, and else this one.
///
/// # Errors
///
/// - `Log`: the store did not answer.
/// - `Memory`: an allocation failed.
pub(crate) fn config_in<S: Store, P: Pause>(
    alloc: Global,
    store: &mut S,
    pause: &mut P,
    config: Config,
) -> Result<Config, HostFailure> {
    let mut entry = Vec::new(alloc);
    match read_first(store, pause, &mut entry) {
        Ok(true) => match config_of_log(alloc, config, &entry)? {
            Some(found) => Ok(found),
            None => Ok(config),
        },
        Ok(false) => Ok(config),
        Err(StoreFault::Memory) => Err(HostFailure::Memory),
        Err(fault) => Err(HostFailure::Log(LogFault::Store(fault))),
    }
}
