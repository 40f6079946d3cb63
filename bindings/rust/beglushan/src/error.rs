//! What is refused.

use core::fmt;

/// Why a call has no value.
///
/// ```
/// use beglushan::{Error, Pool};
///
/// let refused = Pool::new(5000).unwrap_err();
/// assert_eq!(refused, Error::Size { asked: 5000, most: 4096 });
/// assert_eq!(refused.to_string(), "a size is from 1 to 4096, and not 5000");
/// ```
#[derive(Debug, Clone, Copy, PartialEq, Eq)]
#[non_exhaustive]
pub enum Error {
    /// A size is from 1 to `most`, and the call asked for another.
    Size {
        /// What the call asked for.
        asked: usize,
        /// The greatest size.
        most: usize,
    },
    /// An allocation failed, or a value is larger than any allocation can be.
    NoMemory,
    /// All of `most` places are taken.
    Full {
        /// How many places there are.
        most: usize,
    },
    /// The identity is 0, which is nobody's, or it has a seat already.
    Identity {
        /// The identity.
        identity: u64,
    },
    /// No number was free until the time was over.
    TimedOut,
    /// The call came from within another call of this thread that makes what it asks for.
    Nested,
    /// The process was forked while another thread was in a call, and this is the child.
    Forked,
}

impl fmt::Display for Error {
    fn fmt(&self, f: &mut fmt::Formatter<'_>) -> fmt::Result {
        match self {
            Error::Size { asked, most } => {
                write!(f, "a size is from 1 to {most}, and not {asked}")
            }
            Error::NoMemory => f.write_str("no memory"),
            Error::Full { most } => write!(f, "all of {most} places are taken"),
            Error::Identity { identity: 0 } => f.write_str("0 is nobody's identity"),
            Error::Identity { identity } => write!(f, "identity {identity} has a seat already"),
            Error::TimedOut => f.write_str("no number was free in time"),
            Error::Nested => f.write_str("called from within the call that makes the value"),
            Error::Forked => f.write_str("the process was forked in the midst of a call"),
        }
    }
}

impl core::error::Error for Error {}
