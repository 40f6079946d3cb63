// Erased by bindings/rust/erase from crates/service_loop/src/releasing.rt, sha256 4cde325166f4753715504f7040a3b0809baa35756d129ceb1ef2a945ae16bc37.
//! Stays that a server ends.

use crate::kit::alloc::Global;
use crate::proved::model_asked::event::Event;
use crate::proved::model_asked::reply::Reply;
use crate::proved::model_steps::refusal::Refusal;
use crate::proved::model_steps::view::View;
use crate::proved::service_loop::attended::Attended;
use crate::proved::service_loop::audit::{Asker, Audit};
use crate::proved::service_loop::host_fault::HostFault;
use crate::proved::service_loop::persist::Persist;
use crate::proved::service_loop::searching::{most_said, searching};
use crate::proved::text_player::service::Service;

// Whether a `probe` was missed, by the reply to it.
fn is_missed(reply: &Reply<()>) -> bool {
    matches!(reply, Reply::Missed)
}

// Whether the identity competes and holds no number, by the reply to `leave`.
fn lacks_number(reply: &Reply<()>) -> bool {
    matches!(reply, Reply::Refused(Refusal::NotHolding))
}

// Searches for a number of an identity: says `seek` once in the wide world, elsewhere `probe` as often as it takes to hold one, and no more often than
// there are numbers.
fn search_to_number<R, D: Service<R>>(
    rt: &R,
    service: &mut Attended<D>,
    view: &mut View,
    identity: u64,
    wide: bool,
) {
    for _tries in 0..most_said(wide) {
        let reply = service.apply(rt, searching(wide, identity), view);
        if !is_missed(&reply) {
            break;
        }
    }
}

// Says `leave` of an identity. Where it does not compete its stay is forgotten.
fn say_leave<R, D: Service<R>>(
    rt: &R,
    service: &mut Attended<D>,
    view: &mut View,
    identity: u64,
) -> Reply<()> {
    let reply = service.apply(rt, Event::Leave(identity), view);
    if let Reply::Refused(Refusal::NotCompeting) = reply {
        service.forget(identity);
    }
    reply
}

/// Ends the stay of an identity by events of the service: `leave`; or, where it competes and holds no number, in the wide world one `seek`, elsewhere
/// `probe` until it holds one, and then `leave`. Where `leave` is refused since an allocation failed or the history is full, the stay goes on.
pub fn release<R, D: Service<R>>(
    rt: &R,
    service: &mut Attended<D>,
    view: &mut View,
    identity: u64,
    wide: bool,
) {
    let reply = say_leave(rt, service, view, identity);
    if lacks_number(&reply) {
        search_to_number(rt, service, view, identity, wide);
        say_leave(rt, service, view, identity);
    }
}

/// Ends the stays of these identities (`release`), one after another.
pub fn release_all<R, D: Service<R>>(
    rt: &R,
    service: &mut Attended<D>,
    view: &mut View,
    due: &[u64],
    wide: bool,
) {
    for identity in due {
        release(rt, service, view, *identity, wide);
    }
}

// Forgets the stay of an identity, if it does not compete any more.
fn forget_one<D, K: Persist<D>>(service: &mut Attended<D>, persister: &K, identity: u64) {
    if !persister.has_stay(&service.service, identity) {
        service.audit.note_ended(identity);
        service.forget(identity);
    }
}

// Forgets the stays of those of these identities that do not compete any more.
fn forget_ended<D, K: Persist<D>>(service: &mut Attended<D>, persister: &K, due: &[u64]) {
    for identity in due {
        forget_one(service, persister, *identity);
    }
}

// Tells an audit which of these identities compete.
fn note_due<D, K: Persist<D>>(audit: &mut Audit, service: &D, persister: &K, due: &[u64]) {
    audit.clear_due();
    for identity in due {
        if persister.has_stay(service, *identity) {
            audit.note_due(*identity);
        }
    }
}

// Ends the stays of these identities: by events of the service (`release_all`), which are kept like all that it tells; or by the persister, where other
// servers share the stays.
fn end_these<R, D: Service<R>, K: Persist<D>>(
    rt: &R,
    service: &mut Attended<D>,
    persister: &mut K,
    view: &mut View,
    due: &[u64],
    wide: bool,
) -> Result<(), K::Fault> {
    if persister.shares_stays() {
        note_due(&mut service.audit, &service.service, persister, due);
        persister.end_stays(&mut service.service, due)?;
        service.audit.note_gone(persister.ended_of_gone());
        forget_ended(service, persister, due);
        return Ok(());
    }
    if due.is_empty() {
        return Ok(());
    }
    service.audit.listen_to(Asker::Grace);
    release_all(rt, service, view, due, wide);
    service.audit.listen_to(Asker::Client);
    persister.persist(&mut service.service)
}

/// Ends the stays that are due at this tick, and no others: by events of the service (`release_all`), which are kept like all that it tells; or by the
/// persister, where other servers share the stays.
///
/// # Errors
///
/// - `Memory`: an allocation failed, and nothing was ended.
/// - `Persist`: the fault of what keeps.
pub fn end_due<R, D: Service<R>, K: Persist<D>>(
    rt: &R,
    alloc: Global,
    service: &mut Attended<D>,
    persister: &mut K,
    view: &mut View,
    wide: bool,
    grace: u64,
    tick: u64,
) -> Result<(), HostFault<K::Fault>> {
    let Ok(due) = service.stays.due(alloc, grace, tick) else {
        return Err(HostFault::Memory);
    };
    match end_these(rt, service, persister, view, &due, wide) {
        Ok(()) => Ok(()),
        Err(fault) => Err(HostFault::Persist(fault)),
    }
}
