// Erased by bindings/rust/erase from crates/service_host/src/pools.rt, sha256 521e26476b05b8023c82cfde3cf8f55f934887d72606c8bcb85b74341078b472.
//! A whole server of several pools, by its plan.

use crate::kit::alloc::{AllocError, AllocGlobal, Global};
use crate::kit::format;
use crate::kit::fs;
use crate::kit::fs::File;
use crate::kit::io::Write;
use crate::kit::net::Net;
use crate::kit::rt::{Clock, Files};
use crate::kit::sync::Wait;
use crate::kit::String;
use crate::kit::Vec;
use crate::proved::model_asked::config::Config;
use crate::proved::model_asked::kind::WorldKind;
use crate::proved::model_pool::stays::stays::Stays;
use crate::proved::service_hall::compactor::Compactor;
use crate::proved::service_hall::hall::Hall;
use crate::proved::service_host::audit_file::AuditFile;
use crate::proved::service_host::failure::HostFailure;
use crate::proved::service_host::keepers::stays_at_start;
use crate::proved::service_host::persisters::{Recorded, Unrecorded};
use crate::proved::service_host::pool_file::{pools_of, PoolPlan};
use crate::proved::service_host::reading::Reading;
use crate::proved::service_host::start::{open_audit, open_journal, recorded, HostPlan, Keeping};
use crate::proved::service_journal::disk::Disk;
use crate::proved::service_journal::file_disk::FileDisk;
use crate::proved::service_journal::journal::{JournalFault, Opened};
use crate::proved::service_journal::sealed_disk::SealedDisk;
use crate::proved::service_journal::write_ahead::WriteAhead;
use crate::proved::service_loop::attended::Attended;
use crate::proved::service_loop::audit_log::AuditLog;
use crate::proved::service_loop::persist::Persist;
use crate::proved::service_loop::pools::{host_pools, HostedPool};
use crate::proved::service_watch::listeners::listening::{listen, Listening};
use crate::proved::text_player::service::Service;

/// After how many seconds a client of a pool with a grace time that says nothing is closed, where the plan has no grace time.
const IDLE_OF_HOLDERS: u64 = 30;

/// A pool of a server, and the paths of its files.
struct PlannedPool<'a> {
    /// The name by which clients choose it.
    name: String,
    /// What is hosted of it.
    plan: HostPlan<'a>,
    /// The path of its journal, where the server has a folder of them.
    journal: Option<String>,
    /// The path of its audit log, where the server has a folder of them.
    log: Option<String>,
}

// The plan of one pool, by that of its server.
fn plan_of<'a>(server: &HostPlan<'a>, pool: PoolPlan<'_>) -> Result<HostPlan<'a>, HostFailure> {
    let asked = server.config;
    let world = match asked.world {
        WorldKind::Rename if asked.world.most_numbers() < pool.size => WorldKind::Wide,
        world => world,
    };
    let config = Config::new(world, asked.m, pool.size, asked.limit)?;
    let idle = match (server.idle, server.grace, pool.grace) {
        (Some(idle), None, Some(_)) => Some(idle.min(IDLE_OF_HOLDERS)),
        (idle, _, _) => idle,
    };
    Ok(HostPlan {
        config,
        listen: server.listen,
        owners: server.owners,
        clients: server.clients,
        idle,
        grace: pool.grace,
        rules: server.rules,
        keeping: server.keeping,
        reports: server.reports,
        log: server.log,
        pools: None,
    })
}

// The path of the file of this name in a folder, where there is one.
fn path_in(alloc: Global, folder: Option<&str>, name: &str) -> Result<Option<String>, AllocError> {
    match folder {
        Some(folder) => Ok(Some(format!(in alloc; "{folder}/{name}")?)),
        None => Ok(None),
    }
}

// The folder of the journals, where there is one.
fn journals_of<'a>(keeping: Keeping<'a>) -> Option<&'a str> {
    match keeping {
        Keeping::Journal(folder) | Keeping::NewJournal(folder) => Some(folder),
        Keeping::Nothing | Keeping::Log(_) => None,
    }
}

// What is hosted of one pool, and where.
fn planned_pool<'a>(
    alloc: Global,
    server: &HostPlan<'a>,
    pool: PoolPlan<'_>,
) -> Result<PlannedPool<'a>, HostFailure> {
    let plan = plan_of(server, pool)?;
    let journal = path_in(alloc, journals_of(server.keeping), pool.name)?;
    let log = path_in(alloc, server.log, pool.name)?;
    Ok(PlannedPool {
        name: String::from_str(alloc, pool.name)?,
        plan,
        journal,
        log,
    })
}

// What is hosted of these pools, and where.
fn planned_pools<'a>(
    alloc: Global,
    server: &HostPlan<'a>,
    pools: &[PoolPlan<'_>],
) -> Result<Vec<PlannedPool<'a>>, HostFailure> {
    let mut planned = Vec::new(alloc);
    for pool in pools {
        let one = planned_pool(alloc, server, *pool)?;
        if planned.push(one).is_err() {
            return Err(HostFailure::Memory);
        }
    }
    Ok(planned)
}

// Says on standard error of which pool a failure is told next.
fn tell_pool<E: Write>(alloc: Global, name: &str, errors: &mut E) {
    if let Ok(line) = format!(in alloc; "slotctl: the pool {name} is not hosted\n") {
        // A standard error that takes no text changes nothing.
        let _ = errors.write_all(line.as_bytes());
    }
}

// The audit log of a pool, where it has one.
fn log_of<'a, R: Files<File = File>>(
    rt: &'a R,
    pool: &'a PlannedPool<'_>,
) -> Result<Option<AuditFile<'a, R>>, HostFailure> {
    let path = match &pool.log {
        Some(path) => Some(path.as_str()),
        None => None,
    };
    match open_audit(rt, path) {
        Ok(log) => Ok(log),
        Err(why) => Err(HostFailure::AuditLog(why)),
    }
}

// The journal of a pool. Where it is missing it is made, if it may be.
fn journal_of<R: Clock + Files<File = File> + AllocGlobal + Copy>(
    rt: &R,
    alloc: Global,
    pool: &PlannedPool<'_>,
    new: bool,
) -> Result<Opened<SealedDisk<FileDisk<R>>>, HostFailure> {
    let Some(path) = &pool.journal else {
        return Err(HostFailure::Missing);
    };
    match open_journal(rt, alloc, pool.plan.config, path, false) {
        Err(HostFailure::Missing) if new => open_journal(rt, alloc, pool.plan.config, path, true),
        opened => opened,
    }
}

// A pool whose history ends with the program.
fn unrecorded_pool<R: Net + Clock, L: AuditLog>(
    rt: &R,
    alloc: Global,
    pool: &PlannedPool<'_>,
    log: L,
) -> Result<HostedPool<Reading<Hall>, Unrecorded, L>, HostFailure> {
    let plan = &pool.plan;
    let name = String::from_str(alloc, &pool.name)?;
    let reading = Reading {
        service: Hall::new(alloc, plan.config)?,
        rules: plan.rules,
    };
    let stays = Stays::new(alloc);
    let attended = Attended::new(
        alloc,
        reading,
        stays,
        plan.grace.is_some(),
        plan.audit(alloc),
    );
    let persister = Unrecorded {
        alloc,
        compactor: Compactor::new(),
        compactions: 0,
    };
    let options = plan.options(plan.config.world);
    Ok(HostedPool::new(
        rt, alloc, name, options, attended, persister, log,
    )?)
}

// A pool whose history is in a journal.
fn recorded_pool<R: Net + Clock, D: Disk, L: AuditLog, E: Write>(
    rt: &R,
    alloc: Global,
    pool: &PlannedPool<'_>,
    opened: Opened<D>,
    log: L,
    errors: &mut E,
) -> Result<HostedPool<Reading<WriteAhead>, Recorded<D>, L>, HostFailure> {
    let plan = &pool.plan;
    let (reading, persister) = match recorded(rt, alloc, plan, opened, errors) {
        Ok(recorded) => recorded,
        Err(failure) => return Err(failure),
    };
    let stays = match stays_at_start(alloc, reading.service.hall(), plan.grace) {
        Ok(stays) => stays,
        Err(failure) => return Err(failure),
    };
    let Ok(name) = String::from_str(alloc, &pool.name) else {
        return Err(HostFailure::Memory);
    };
    let options = plan.options(reading.service.hall().config().world);
    let attended = Attended::new(
        alloc,
        reading,
        stays,
        plan.grace.is_some(),
        plan.audit(alloc),
    );
    match HostedPool::new(rt, alloc, name, options, attended, persister, log) {
        Ok(pool) => Ok(pool),
        Err(fault) => Err(HostFailure::from(fault)),
    }
}

// The pool of a plan, whose history ends with the program.
fn open_unrecorded<'a, R: Net + Clock + Files<File = File>>(
    rt: &'a R,
    alloc: Global,
    pool: &'a PlannedPool<'_>,
) -> Result<HostedPool<Reading<Hall>, Unrecorded, Option<AuditFile<'a, R>>>, HostFailure> {
    match log_of(rt, pool) {
        Ok(log) => unrecorded_pool(rt, alloc, pool, log),
        Err(failure) => Err(failure),
    }
}

// A pool whose history is in a journal of a file.
type FilePool<'a, R> =
    HostedPool<Reading<WriteAhead>, Recorded<SealedDisk<FileDisk<R>>>, Option<AuditFile<'a, R>>>;

// The pool of a plan, whose history is in its journal.
fn open_recorded<'a, R, E: Write>(
    rt: &'a R,
    alloc: Global,
    pool: &'a PlannedPool<'_>,
    new: bool,
    errors: &mut E,
) -> Result<FilePool<'a, R>, HostFailure>
where
    R: Net + Clock + Files<File = File> + AllocGlobal + Copy,
{
    let log = match log_of(rt, pool) {
        Ok(log) => log,
        Err(failure) => return Err(failure),
    };
    match journal_of(rt, alloc, pool, new) {
        Ok(opened) => recorded_pool(rt, alloc, pool, opened, log, errors),
        Err(failure) => Err(failure),
    }
}

// Adds a pool that was opened to others, or says which pool it is that was not.
fn add_pool<T, E: Write>(
    alloc: Global,
    name: &str,
    opened: Result<T, HostFailure>,
    pools: &mut Vec<T>,
    errors: &mut E,
) -> Result<(), HostFailure> {
    match opened {
        Ok(pool) => match pools.push(pool) {
            Ok(()) => Ok(()),
            Err(_) => Err(HostFailure::Memory),
        },
        Err(failure) => {
            tell_pool(alloc, name, errors);
            Err(failure)
        }
    }
}

// Serves these pools.
fn serve_pools<
    R,
    D: Service<R>,
    K: Persist<D, Fault = JournalFault>,
    L: AuditLog,
    W: Write,
    E: Write,
>(
    rt: &R,
    alloc: Global,
    server: &HostPlan<'_>,
    pools: &mut [HostedPool<D, K, L>],
    output: &mut W,
    errors: &mut E,
) -> Result<(), HostFailure>
where
    R: Net + Wait + Clock + Files,
{
    let Listening { listeners, files } = match listen(rt, alloc, server.listen) {
        Ok(listening) => listening,
        Err(fault) => return Err(HostFailure::from(fault)),
    };
    match host_pools(rt, alloc, server.clients, listeners, pools, output, errors) {
        Ok(_) => {
            files.remove(rt);
            Ok(())
        }
        Err(fault) => Err(HostFailure::from(fault)),
    }
}

// Serves pools whose histories end with the program.
fn host_unrecorded_pools<R, W: Write, E: Write>(
    rt: &R,
    alloc: Global,
    server: &HostPlan<'_>,
    planned: &[PlannedPool<'_>],
    output: &mut W,
    errors: &mut E,
) -> Result<(), HostFailure>
where
    R: Net + Wait + Clock + Files<File = File>,
{
    let mut pools = Vec::new(alloc);
    for pool in planned {
        let opened = open_unrecorded(rt, alloc, pool);
        if let Err(failure) = add_pool(alloc, &pool.name, opened, &mut pools, errors) {
            return Err(failure);
        }
    }
    serve_pools(rt, alloc, server, &mut pools, output, errors)
}

// Serves pools whose histories are in journals. Those that are missing are made, if they may be.
fn host_recorded_pools<R, W: Write, E: Write>(
    rt: &R,
    alloc: Global,
    server: &HostPlan<'_>,
    planned: &[PlannedPool<'_>],
    new: bool,
    output: &mut W,
    errors: &mut E,
) -> Result<(), HostFailure>
where
    R: Net + Wait + Clock + Files<File = File> + AllocGlobal + Copy,
{
    let mut pools = Vec::new(alloc);
    for pool in planned {
        let opened = open_recorded(rt, alloc, pool, new, errors);
        if let Err(failure) = add_pool(alloc, &pool.name, opened, &mut pools, errors) {
            return Err(failure);
        }
    }
    serve_pools(rt, alloc, server, &mut pools, output, errors)
}

/// Serves the pools that a file lists (`pools_of`) to clients, each of which chooses one by its first line, until standard input ends where that is a pipe,
/// or else until the program is killed.
///
/// Each pool is served as `host_hall` serves the hall of a journal, of the plan's world and with the numbers and the grace time of its line. Its journal is
/// the file of its name in the folder that the plan names, and so is its audit log. A journal that is missing is made where the plan has a new one.
///
/// # Errors
///
/// - `Pools`, and those of `pools_of`: the file that lists the pools.
/// - `PoolsOverLog`: the plan keeps the history in a log.
/// - Those of `host_hall`, of any pool. That of which one is told stands in a line of its own on standard error.
pub(crate) fn host_pool_file<R, W: Write, E: Write>(
    rt: &R,
    alloc: Global,
    server: HostPlan<'_>,
    file: &str,
    output: &mut W,
    errors: &mut E,
) -> Result<(), HostFailure>
where
    R: Net + Wait + Clock + Files<File = File> + AllocGlobal + Copy,
{
    let text = match fs::read_to_string(rt, file) {
        Ok(text) => text,
        Err(error) => return Err(HostFailure::Pools(error.kind())),
    };
    let listed = pools_of(alloc, &text, server.grace)?;
    let planned = planned_pools(alloc, &server, &listed)?;
    match server.keeping {
        Keeping::Nothing => host_unrecorded_pools(rt, alloc, &server, &planned, output, errors),
        Keeping::Journal(_) => {
            host_recorded_pools(rt, alloc, &server, &planned, false, output, errors)
        }
        Keeping::NewJournal(_) => {
            host_recorded_pools(rt, alloc, &server, &planned, true, output, errors)
        }
        Keeping::Log(_) => Err(HostFailure::PoolsOverLog),
    }
}
