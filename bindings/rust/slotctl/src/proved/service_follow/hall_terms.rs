// Erased by bindings/rust/erase from crates/service_follow/src/hall_terms.rt, sha256 f00740557cc1d9d273b305e030a4ce4b67213a55f05b0a7ac83a9dc9934a3341.
//! For how long stays go on in the pool of a hall in a log, as its entries tell.

use crate::kit::alloc::AllocError;
use crate::kit::Vec;
use crate::proved::service_follow::log_persister::push_count;
use crate::proved::service_follow::machine::behind_first_line;
use crate::proved::service_follow::marks::{is_there, number_of};
use std::fmt;

/// What ends a line.
const LF: u8 = 10;

/// How many bytes the text of terms has, with the LF behind it.
const TEXT: usize = 45;

/// How many bytes a first line with terms has at least: those of a token, and the text.
const LEAST: usize = 78;

/// For how long a stay in the pool goes on that nobody keeps.
#[derive(Clone, Copy, Debug, PartialEq, Eq)]
pub enum HallTerms {
    /// Until somebody gives the number back. Front ends make no beats.
    Forever,
    /// For so many seconds.
    Grace(u32),
}

impl HallTerms {
    /// Returns the seconds of grace; 0 where stays go on forever.
    pub(crate) fn grace(self) -> u32 {
        match self {
            HallTerms::Forever => 0,
            HallTerms::Grace(seconds) => seconds,
        }
    }

    // The number that a text has for them.
    fn number(self) -> u64 {
        match self {
            HallTerms::Forever => 0,
            HallTerms::Grace(seconds) => u64::from(seconds) + 1,
        }
    }

    // The terms for which a text has this number.
    fn of_number(number: u64) -> HallTerms {
        if number == 0 {
            return HallTerms::Forever;
        }
        HallTerms::Grace((number - 1).min(4_294_967_295) as u32)
    }
}

// As the options of `slotctl host` that give them.
impl fmt::Display for HallTerms {
    fn fmt(&self, f: &mut fmt::Formatter<'_>) -> fmt::Result {
        match self {
            HallTerms::Forever => f.write_str("--hold forever"),
            HallTerms::Grace(seconds) => write!(f, "--hold connection --grace {seconds}"),
        }
    }
}

/// What the first line of an entry tells of the terms of its hall.
#[derive(Clone, Copy, Debug, PartialEq, Eq)]
pub struct ToldTerms {
    /// The terms of the hall from there on.
    pub terms: HallTerms,
    /// The terms before a change, and the same where nothing was changed.
    pub was: HallTerms,
}

// Appends the text of terms.
fn push_terms(line: &mut Vec<u8>, told: ToldTerms) -> Result<(), AllocError> {
    line.extend_from_slice(b" terms ")?;
    push_count(line, 16, told.terms.number())?;
    line.extend_from_slice(b" was ")?;
    push_count(line, 16, told.was.number())?;
    Ok(())
}

/// Appends the text of terms, if there are some, to a first line without its end.
///
/// # Errors
///
/// `AllocError`: an allocation failed.
pub(crate) fn push_told(line: &mut Vec<u8>, told: Option<ToldTerms>) -> Result<(), AllocError> {
    match told {
        Some(told) => push_terms(line, told),
        None => Ok(()),
    }
}

// What 45 bytes tell, if they are the text of terms with an LF behind it.
fn text_tells(text: &[u8; 45]) -> Option<ToldTerms> {
    if &text[..7] != b" terms ".as_slice() {
        return None;
    }
    if &text[23..28] != b" was ".as_slice() {
        return None;
    }
    if !is_there(text, 44, LF) {
        return None;
    }
    Some(ToldTerms {
        terms: HallTerms::of_number(number_of(&text[7..23])),
        was: HallTerms::of_number(number_of(&text[28..44])),
    })
}

/// Returns what the first line of an entry tells of the terms of its hall, at its end; `None` if it tells nothing. Clients never
/// write a first line.
pub fn terms_of(entry: &[u8]) -> Option<ToldTerms> {
    let long = entry.len() - behind_first_line(entry).len();
    if long < LEAST {
        return None;
    }
    let mut text = [0u8; 45];
    text.copy_from_slice(&entry[long - TEXT..long]);
    text_tells(&text)
}
