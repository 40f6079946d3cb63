// Erased by bindings/rust/erase from crates/model_asked/src/config.rt, sha256 2b09ff7edfa680f1a2c3fff04058061271718f302908ab3ff485bfed43a6ad0e.
//! The configuration of a run.

use crate::proved::model_asked::kind::WorldKind;
use crate::proved::model_steps::refusal::Refusal;

/// The most numbers that the pool of a run may get, but in the wide world.
pub const MOST_NUMBERS: usize = 64;

/// The configuration of a run: its world and its sizes, each in its range.
#[derive(Clone, Copy, Debug, PartialEq, Eq)]
pub struct Config {
    /// The world.
    pub world: WorldKind,
    /// The most participants: from 1 to 64 if the world is `Tree`, and from 1 to 16 otherwise.
    pub m: u64,
    /// The size of the pool: from 1 to 65,536 if the world is `Wide`, and from 1 to 64 otherwise.
    pub k: u64,
    /// The round limit, from 1 to 1,000,000.
    pub limit: u64,
}

impl Config {
    /// Makes a configuration of these values.
    ///
    /// # Errors
    ///
    /// `OutOfRange`: one of them is outside its range.
    pub fn new(world: WorldKind, m: u64, k: u64, limit: u64) -> Result<Config, Refusal> {
        if m < 1
            || world.most() < m
            || k < 1
            || world.most_numbers() < k
            || limit < 1
            || 1_000_000 < limit
        {
            return Err(Refusal::OutOfRange);
        }
        Ok(Config { world, m, k, limit })
    }
}
