// Erased by bindings/rust/erase from crates/service_host/src/widening.rt, sha256 8c0f70e8a525b1f8d30bdd52f30c9fb3035032506503bab1004eb8a7a548b324.
//! How a hall gets more numbers before it is served.

use crate::kit::alloc::Global;
use crate::kit::io::Write;
use crate::proved::model_asked::event::Event;
use crate::proved::model_asked::reply::Reply;
use crate::proved::model_steps::refusal::Refusal;
use crate::proved::model_steps::view::View;
use crate::proved::service_follow::log_fault::LogFault;
use crate::proved::service_follow::log_persister::LogPersister;
use crate::proved::service_follow::pause::Pause;
use crate::proved::service_follow::reply_queue::ReplyQueue;
use crate::proved::service_hall::hall::Hall;
use crate::proved::service_host::failure::HostFailure;
use crate::proved::service_host::persisters::Recorded;
use crate::proved::service_host::reading::Reading;
use crate::proved::service_host::sizes::{choose_sizing, size_of, Sizing};
use crate::proved::service_journal::disk::Disk;
use crate::proved::service_journal::write_ahead::WriteAhead;
use crate::proved::service_log::store::Store;
use crate::proved::service_log::store_fault::StoreFault;
use crate::proved::service_loop::persist::{Persist, Prefetch};
use crate::proved::text_lines::events::print_event;
use crate::proved::text_lines::replies::Replies;
use crate::proved::text_player::service::Service;

/// How often a pool in a log is widened, at most, where another front end comes first each time: a pool is widened 63 times at most.
const MOST_TRIES: u32 = 64;

/// What is asked for by a server that starts.
#[derive(Clone, Copy, Debug)]
pub struct SizeAsked {
    /// How many numbers the pool is to have.
    pub size: u64,
    /// Whether clients may widen the pool.
    pub by_clients: bool,
}

/// Returns an error if the pool of a hall has more numbers than are asked for, or may not get as many.
///
/// # Errors
///
/// - `Wider`: it has more.
/// - `AtMost`: it may not get as many.
pub(crate) fn check_size(hall: &Hall, asked: SizeAsked) -> Result<(), HostFailure> {
    match choose_sizing(hall, asked.size, asked.by_clients) {
        Sizing::Fits => Ok(()),
        Sizing::Widens => {
            let most = hall.slots().pool().most();
            if most < asked.size {
                return Err(HostFailure::AtMost(most));
            }
            Ok(())
        }
        Sizing::Exceeds => Err(HostFailure::Wider(size_of(hall))),
    }
}

// The line of `widen`.
fn widen_line(alloc: Global, size: u64) -> Result<Replies<Global>, HostFailure> {
    let mut line = Replies::new(alloc)?;
    print_event(Event::Widen(size), &mut line);
    line.put(b"\n");
    Ok(line)
}

/// Has a service widen its pool, by this line, and its persister keep that, before anybody is served. Returns the reply, or `None` if it was not prefetched in
/// time.
///
/// # Errors
///
/// Those of the persister.
pub(crate) fn ask_to_widen<R, D: Service<R>, K: Persist<D>>(
    rt: &R,
    service: &mut D,
    persister: &mut K,
    size: u64,
    line: &[u8],
) -> Result<Option<Reply<()>>, K::Fault> {
    let mut view = View::new();
    match persister.prefetch(service, line)? {
        Prefetch::Known => {
            let reply = service.apply(rt, Event::Widen(size), &mut view);
            persister.persist(service)?;
            Ok(Some(reply))
        }
        Prefetch::Lost => Ok(None),
    }
}

// Says on standard error that a pool was widened, or tells why it was not.
fn tell_wider<E: Write>(
    reply: Reply<()>,
    was: u64,
    size: u64,
    errors: &mut E,
) -> Result<(), HostFailure> {
    match reply {
        Reply::Ok => {
            // A standard error that takes no text changes nothing.
            let _ = write!(
                errors,
                "slotctl: the pool is widened to {size} numbers, from {was}\n"
            );
            Ok(())
        }
        Reply::Refused(Refusal::NoMemory) => Err(HostFailure::Memory),
        _ => Err(HostFailure::NotWidened),
    }
}

/// Widens the pool of a hall with a journal, if it has fewer numbers than are asked for, and says so.
///
/// # Errors
///
/// - `Wider`: the pool has more numbers. `AtMost`: it may not get as many. Nothing changed.
/// - `NotWidened`: the history is full. Nothing changed.
/// - Those of the journal, and `Memory`.
pub(crate) fn widen_recorded<R, D: Disk, E: Write>(
    rt: &R,
    alloc: Global,
    asked: SizeAsked,
    reading: &mut Reading<WriteAhead>,
    persister: &mut Recorded<D>,
    errors: &mut E,
) -> Result<(), HostFailure> {
    check_size(reading.service.hall(), asked)?;
    let size = size_of(reading.service.hall());
    match choose_sizing(reading.service.hall(), asked.size, asked.by_clients) {
        Sizing::Fits => return Ok(()),
        Sizing::Exceeds => return Err(HostFailure::Wider(size)),
        Sizing::Widens => {}
    }
    let line = widen_line(alloc, asked.size)?;
    match ask_to_widen(rt, reading, persister, asked.size, line.as_slice()) {
        Ok(Some(reply)) => tell_wider(reply, size, asked.size, errors),
        Ok(None) => Err(HostFailure::NotWidened),
        Err(fault) => Err(HostFailure::from(fault)),
    }
}

/// Widens the pool of a hall in a log, if it has fewer numbers than are asked for, and says so. If another front end comes first, it looks again.
///
/// # Errors
///
/// - `Wider`: the pool has more numbers. `AtMost`: it may not get as many. Nothing changed.
/// - `NotWidened`: the history is full. Nothing changed.
/// - Those of the log, and `Memory`.
pub(crate) fn widen_followed<R, S: Store, P: Pause, E: Write>(
    rt: &R,
    alloc: Global,
    asked: SizeAsked,
    reply_queue: &mut ReplyQueue,
    persister: &mut LogPersister<S, P>,
    errors: &mut E,
) -> Result<(), HostFailure> {
    check_size(persister.hall(), asked)?;
    let line = widen_line(alloc, asked.size)?;
    for _ in 0..MOST_TRIES {
        let size = size_of(persister.hall());
        match choose_sizing(persister.hall(), asked.size, asked.by_clients) {
            Sizing::Fits => return Ok(()),
            Sizing::Exceeds => return Err(HostFailure::Wider(size)),
            Sizing::Widens => {}
        }
        match ask_to_widen(rt, reply_queue, persister, asked.size, line.as_slice()) {
            Ok(Some(Reply::Refused(Refusal::OutOfRange))) => {}
            Ok(Some(reply)) => return tell_wider(reply, size, asked.size, errors),
            Ok(None) => return Err(HostFailure::Log(LogFault::Store(StoreFault::Lost))),
            Err(fault) => return Err(HostFailure::from(fault)),
        }
    }
    Err(HostFailure::NotWidened)
}
