// Erased by bindings/rust/erase from crates/service_follow/src/log_fault.rt, sha256 b95fed7e683a560cb94cc895728c3facfce18ea91a10595e574789879c2c73ce.
//! Why a hall over a log is not served, or no more.

use crate::proved::model_steps::refusal::Refusal;
use crate::proved::service_follow::hall_terms::HallTerms;
use crate::proved::service_log::serve_fault::{Cause, ServeFault};
use crate::proved::service_log::store_fault::StoreFault;
use std::error::Error;
use std::fmt;

/// Why a hall over a log is not served, or no more. What was answered before stands in the log.
#[derive(Clone, Copy, Debug, PartialEq, Eq)]
pub enum LogFault {
    /// A growth was refused. Where that was while an entry was applied nothing more can be answered.
    Memory,
    /// An entry of the log is damaged, or tells another history than those before it.
    Damaged,
    /// Names are not given in the config's world.
    NoNames,
    /// The log is one of another config, or of another version.
    OtherConfig,
    /// The hall has these terms, and this front end was started with those.
    OtherTerms(HallTerms, HallTerms),
    /// The token has the end of a line in it.
    Token,
    /// The lines are too long for one entry.
    TooLong,
    /// The log has no place left.
    Full,
    /// Connections took other lines than were prefetched.
    Astray,
    /// The log was put back to an older state than was applied.
    WentBack,
    /// Entries of the log were given up before they were read here. A start reads from the last compaction on.
    Trimmed,
    /// The store does not answer, as the hall is opened.
    Store(StoreFault),
}

impl LogFault {
    /// The fault behind which nothing more is served; `None` where the store may be asked again.
    pub fn of_serving(fault: ServeFault) -> Option<LogFault> {
        match fault {
            ServeFault::TooLong => Some(LogFault::TooLong),
            ServeFault::Unknown(cause) => LogFault::of_cause(cause),
        }
    }

    /// The same, of what kept a replica from its next step.
    pub fn of_cause(cause: Cause) -> Option<LogFault> {
        match cause {
            Cause::Memory => Some(LogFault::Memory),
            Cause::Damaged => Some(LogFault::Damaged),
            Cause::Poisoned => Some(LogFault::Memory),
            Cause::Full => Some(LogFault::Full),
            Cause::Store(fault) => LogFault::of_store(fault),
            Cause::Busy => None,
        }
    }

    /// What comes of a call of a log that may be made again.
    ///
    /// # Errors
    ///
    /// The fault behind which nothing more is served, where the call met one (`of_cause`).
    pub fn unless_gone<T>(tried: Result<T, Cause>) -> Result<(), LogFault> {
        match tried {
            Ok(_) => Ok(()),
            Err(cause) => match LogFault::of_cause(cause) {
                Some(fault) => Err(fault),
                None => Ok(()),
            },
        }
    }

    /// The fault behind which nothing more is served, of a fault of the store.
    pub fn of_store(fault: StoreFault) -> Option<LogFault> {
        match fault {
            StoreFault::WentBack => Some(LogFault::WentBack),
            StoreFault::Trimmed => Some(LogFault::Trimmed),
            StoreFault::Memory => None,
            StoreFault::Lost => None,
            StoreFault::Wrong => None,
            StoreFault::NoSpace => None,
        }
    }
}

impl From<Refusal> for LogFault {
    fn from(why: Refusal) -> LogFault {
        match why {
            Refusal::NoMemory => LogFault::Memory,
            _ => LogFault::NoNames,
        }
    }
}

impl fmt::Display for LogFault {
    fn fmt(&self, f: &mut fmt::Formatter<'_>) -> fmt::Result {
        f.write_str(match self {
            LogFault::Memory => "no memory",
            LogFault::Damaged => {
                "an entry of the log is damaged, or tells another history than those before it"
            }
            LogFault::NoNames => "no names are given in this world",
            LogFault::OtherConfig => "log of another config",
            LogFault::OtherTerms(hall, own) => {
                return write!(f, "the hall has {hall}, and this server {own}");
            }
            LogFault::Token => "a token of more than a line",
            LogFault::TooLong => "too many lines for one entry",
            LogFault::Full => "the log is full",
            LogFault::Astray => "other lines were taken than learnt",
            LogFault::WentBack => "the log went back",
            LogFault::Trimmed => "the log was trimmed before it was read here",
            LogFault::Store(fault) => return write!(f, "{fault}"),
        })
    }
}

impl Error for LogFault {}
