// Erased by bindings/rust/erase from crates/text_records/src/header.rt, sha256 3c5a314aaf26e36dd5e99fa6bd42dad5ffe2fb510545c36a6fdaca59459f8ceb.
//! The first line of a record.

use crate::proved::model_asked::config::Config;

/// The most participants of a record of version 1.
const MOST_OF_ONE: u64 = 16;

/// The version of a record.
#[derive(Clone, Copy, Debug, PartialEq, Eq)]
pub enum Version {
    /// The view by which a name was given is not written, and there are at most 16 participants.
    One,
    /// This view is written, beside each reply that is a name.
    Two,
}

impl Version {
    /// Returns the version with this number, or `None` if there is none.
    pub fn of_number(number: u64) -> Option<Version> {
        match number {
            1 => Some(Version::One),
            2 => Some(Version::Two),
            _ => None,
        }
    }

    /// Whether a record of this version may have `most` participants.
    pub fn fits(self, most: u64) -> bool {
        match self {
            Version::One => most <= MOST_OF_ONE,
            Version::Two => true,
        }
    }
}

/// The first line of a record: its version, and the configuration of its run.
#[derive(Clone, Copy, Debug)]
pub struct Header {
    /// The version, which fixes how lines are spelled.
    pub version: Version,
    /// The configuration of its run.
    pub config: Config,
}
