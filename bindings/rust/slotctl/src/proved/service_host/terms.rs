// Erased by bindings/rust/erase from crates/service_host/src/terms.rt, sha256 089e79fc675d90db96694df8d2f4e0ec9e2231c5a7320e2243c838ae3d0bf800.
//! For how long stays go on in a hall over a log, and how an operator changes that.

use crate::kit::alloc::Global;
use crate::kit::fs::File;
use crate::kit::io::Write;
use crate::kit::net::Net;
use crate::kit::rt::{Clock, Files};
use crate::proved::model_asked::config::Config;
use crate::proved::service_follow::hall_terms::{HallTerms, ToldTerms};
use crate::proved::service_follow::log_persister::{LogPersister, TermsChange};
use crate::proved::service_follow::pause::Pause;
use crate::proved::service_follow::reply_queue::ReplyQueue;
use crate::proved::service_host::failure::HostFailure;
use crate::proved::service_host::log_plan::{fresh_token, LogPlan, Patience};
use crate::proved::service_host::sizes::config_in;
use crate::proved::service_host::start::store_of;
use crate::proved::service_log::store::Store;

/// The most seconds of grace: a day.
const MOST_GRACE: u64 = 86_400;

/// What is said where a hall has no terms.
const NO_TERMS: &str =
    "slotctl: this hall in etcd was made by an older version, and does not tell how its stays are held; give it --hold and --grace by --change-terms\n";

/// Returns the terms of a hall whose stays end so many seconds after their connection, or never where no number is given.
pub(crate) fn terms_by(grace: Option<u64>) -> HallTerms {
    match grace {
        Some(grace) => HallTerms::Grace(grace.min(MOST_GRACE) as u32),
        None => HallTerms::Forever,
    }
}

/// What the hall of a log is opened for.
#[derive(Clone, Copy, Debug, PartialEq, Eq)]
pub(crate) enum Opening {
    /// To serve its clients by these terms, which have to be its own.
    ToServe,
    /// To serve nobody, whatever its terms.
    ToLook,
}

/// Opens the hall of a log, whatever that stands in, and whatever the size of its pool: all that stands there is applied.
///
/// # Errors
///
/// - Those of `config_in`.
/// - `NoToken`: the system gave no random bytes.
/// - Those of `LogPersister::open`, or of `LogPersister::open_any` where nobody is served.
pub(crate) fn followed<R: Files<File = File>, S: Store, P: Pause>(
    rt: &R,
    alloc: Global,
    config: Config,
    store: S,
    pause: P,
    terms: HallTerms,
    opening: Opening,
) -> Result<LogPersister<S, P>, HostFailure> {
    let (mut store, mut pause) = (store, pause);
    let config = match config_in(alloc, &mut store, &mut pause, config) {
        Ok(config) => config,
        Err(failure) => return Err(failure),
    };
    let token = match fresh_token(rt) {
        Ok(token) => token,
        Err(failure) => return Err(failure),
    };
    match opening {
        Opening::ToServe => Ok(LogPersister::open(
            alloc, store, pause, config, token, terms,
        )?),
        Opening::ToLook => Ok(LogPersister::open_any(
            alloc, store, pause, config, token, terms,
        )?),
    }
}

/// Says so on standard error, if the log tells no terms of its hall.
pub(crate) fn warn_of_none<E: Write>(told: Option<ToldTerms>, errors: &mut E) {
    if told.is_none() {
        // A standard error that takes no text changes nothing.
        let _ = errors.write_all(NO_TERMS.as_bytes());
    }
}

// Tells what the terms of a hall are now, and what they were.
fn tell_change<W: Write>(
    was: Option<ToldTerms>,
    terms: HallTerms,
    output: &mut W,
) -> Result<(), HostFailure> {
    let written = match was {
        Some(told) if told.terms == terms => {
            write!(output, "the hall has {terms} as before\n")
        }
        Some(told) => {
            let was = told.terms;
            write!(output, "the hall has {terms} now, and had {was}\n")
        }
        None => write!(output, "the hall has {terms} now, and had no terms\n"),
    };
    match written {
        Ok(()) => Ok(()),
        Err(_) => Err(HostFailure::Output),
    }
}

/// Has the stays of the hall of a log be held so from now on: until so many seconds after their connection has ended, or forever where no number
/// is given. Serves nobody. Its servers end as soon as they read of it, and start again with these terms.
///
/// # Errors
///
/// - Those of the log: no member answers, or it holds another hall.
/// - `Competing`: numbers are held forever, and somebody competes: no server would tell that he is there.
/// - `Output`: what was changed could not be written.
pub fn change_terms<R: Net + Clock + Files<File = File>, W: Write>(
    rt: &R,
    alloc: Global,
    config: Config,
    log: LogPlan<'_>,
    grace: Option<u64>,
    output: &mut W,
) -> Result<(), HostFailure> {
    let pause = Patience::new(rt, log.patience);
    let terms = terms_by(grace);
    match store_of(rt, alloc, log) {
        Ok(store) => change_followed(rt, alloc, config, store, pause, terms, output),
        Err(failure) => Err(failure),
    }
}

// Changes the terms of the hall of a log, whatever that stands in.
fn change_followed<R: Files<File = File>, S: Store, P: Pause, W: Write>(
    rt: &R,
    alloc: Global,
    config: Config,
    store: S,
    pause: P,
    terms: HallTerms,
    output: &mut W,
) -> Result<(), HostFailure> {
    let mut persister = match followed(rt, alloc, config, store, pause, terms, Opening::ToLook) {
        Ok(persister) => persister,
        Err(failure) => return Err(failure),
    };
    let was = persister.told_terms();
    let mut reply_queue = ReplyQueue::new(alloc);
    match persister.change_terms(&mut reply_queue) {
        Ok(TermsChange::Stands) => tell_change(was, terms, output),
        Ok(TermsChange::Held) => Err(HostFailure::Competing),
        Err(fault) => Err(HostFailure::from(fault)),
    }
}
