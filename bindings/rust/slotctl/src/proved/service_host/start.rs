// Erased by bindings/rust/erase from crates/service_host/src/start.rt, sha256 70c377791fb376fb033e48a14e5d6b4776fdf7ac67a78850d3f5f913e9772bf4.
//! A whole server of a hall, by its plan.

use crate::kit::alloc::{AllocGlobal, Global};
use crate::kit::fs::File;
use crate::kit::io::{ErrorKind, Write};
use crate::kit::net::Net;
use crate::kit::rt::{Clock, Files};
use crate::kit::sync::Wait;
use crate::kit::time::Duration;
use crate::kit::String;
use crate::proved::model_asked::config::Config;
use crate::proved::model_asked::kind::WorldKind;
use crate::proved::model_pool::stays::stays::Stays;
use crate::proved::service_follow::hall_terms::HallTerms;
use crate::proved::service_follow::pause::Pause;
use crate::proved::service_follow::reply_queue::ReplyQueue;
use crate::proved::service_hall::compactor::Compactor;
use crate::proved::service_hall::hall::Hall;
use crate::proved::service_hall::rules::Rules;
use crate::proved::service_host::audit_file::AuditFile;
use crate::proved::service_host::export::write_events;
use crate::proved::service_host::failure::HostFailure;
use crate::proved::service_host::holders::config_of;
use crate::proved::service_host::keepers::stays_at_start;
use crate::proved::service_host::log_plan::{members_of, LogPlan, Patience, MEMBER_SECONDS};
use crate::proved::service_host::persisters::{Recorded, Unrecorded};
use crate::proved::service_host::pools::host_pool_file;
use crate::proved::service_host::reading::Reading;
use crate::proved::service_host::sizes::are_alike_but_size;
use crate::proved::service_host::terms::{followed, terms_by, warn_of_none, Opening};
use crate::proved::service_host::widening::{
    check_size, widen_followed, widen_recorded, SizeAsked,
};
use crate::proved::service_journal::disk::Disk;
use crate::proved::service_journal::file_disk::FileDisk;
use crate::proved::service_journal::journal::{Journal, NotOpened, Opened};
use crate::proved::service_journal::opening::OpenFault;
use crate::proved::service_journal::sealed_disk::SealedDisk;
use crate::proved::service_journal::write_ahead::WriteAhead;
use crate::proved::service_log::etcd::dial::TcpDial;
use crate::proved::service_log::etcd::etcd_store::EtcdStore;
use crate::proved::service_log::store::Store;
use crate::proved::service_loop::attended::Attended;
use crate::proved::service_loop::audit::Audit;
use crate::proved::service_loop::audit_log::AuditLog;
use crate::proved::service_loop::host_fault::HostFault;
use crate::proved::service_loop::hosting::{host, HostOptions};
use crate::proved::service_loop::persist::Persist;
use crate::proved::service_watch::listeners::fault::ListenFault;
use crate::proved::service_watch::listeners::listening::{listen, ListenPlan, Listening};
use crate::proved::text_player::service::Service;

/// Where the history of a hall is kept.
#[derive(Clone, Copy, Debug)]
pub enum Keeping<'a> {
    /// Nowhere: it ends with the program.
    Nothing,
    /// In the journal of this file, which is there.
    Journal(&'a str),
    /// In the journal of this file, which is made, and is not there yet.
    NewJournal(&'a str),
    /// In a log, which other servers of the hall share.
    Log(LogPlan<'a>),
}

/// What is hosted.
#[derive(Clone, Copy, Debug)]
pub struct HostPlan<'a> {
    /// The world of the hall, in which names are given, and its sizes.
    pub config: Config,
    /// What is listened on. Nothing is encrypted. Unless clients own their identities, whoever reaches it may say everything.
    pub listen: ListenPlan<'a>,
    /// Whether clients own their identities by secrets. Who connects to the socket for administrators names every identity.
    pub owners: bool,
    /// How many clients are served at once; others wait to be accepted.
    pub clients: usize,
    /// After how many seconds a client that says nothing is closed; never, where it is not given.
    pub idle: Option<u64>,
    /// How many seconds after its connection has ended a stay ends; never, where it is not given.
    pub grace: Option<u64>,
    /// Whether the history stores reads, the `get` of clients, and what clients may ask for.
    pub rules: Rules,
    /// Where the history is kept.
    pub keeping: Keeping<'a>,
    /// Whether a line at first and then one a minute tells how much there is.
    pub reports: bool,
    /// The file to which a log of an audit is appended, where one is wanted; where there are several pools, the folder of such files, one for each.
    pub log: Option<&'a str>,
    /// The file that lists the pools, where there are several (`pools_of`). Then `keeping` names the folder of their journals.
    pub pools: Option<&'a str>,
}

impl HostPlan<'_> {
    /// What the loop serves, over a hall of this world.
    pub(crate) fn options(&self, kind: WorldKind) -> HostOptions {
        HostOptions {
            kind,
            tokens: self.rules.tokens,
            owners: self.owners,
            clients: self.clients,
            idle: self.idle,
            grace: self.grace,
            reports: self.reports,
            logs: self.log.is_some(),
        }
    }

    // How many numbers the pool is to have.
    fn size_asked(&self) -> SizeAsked {
        SizeAsked {
            size: self.config.k,
            by_clients: self.rules.widening,
        }
    }

    /// What is told of numbers and refusals.
    pub(crate) fn audit(&self, alloc: Global) -> Audit {
        Audit::new(alloc, self.log.is_some())
    }
}

// Listens, and serves clients of a service over a world of this kind. Where that ended well the files of the sockets are removed.
fn serve<R, D, K, L: AuditLog, W: Write, E: Write>(
    rt: &R,
    alloc: Global,
    plan: &HostPlan<'_>,
    kind: WorldKind,
    service: D,
    stays: Stays,
    persister: K,
    audit: &mut L,
    output: &mut W,
    errors: &mut E,
) -> Result<Result<(), HostFault<K::Fault>>, ListenFault>
where
    R: Net + Wait + Clock + Files,
    D: Service<R>,
    K: Persist<D>,
{
    let Listening { listeners, files } = match listen(rt, alloc, plan.listen) {
        Ok(listening) => listening,
        Err(fault) => return Err(fault),
    };
    let mut persister = persister;
    let mut attended = Attended::new(
        alloc,
        service,
        stays,
        plan.grace.is_some(),
        plan.audit(alloc),
    );
    let hosted = host(
        rt,
        alloc,
        plan.options(kind),
        listeners,
        &mut attended,
        &mut persister,
        audit,
        output,
        errors,
    );
    match hosted {
        Ok(_) => {
            files.remove(rt);
            Ok(Ok(()))
        }
        Err(fault) => Ok(Err(fault)),
    }
}

// Opens a journal that was not opened with a config, if that differs from the one that it was made with in the size of the pool alone.
fn reopened<D: Disk>(
    alloc: Global,
    refused: NotOpened<D>,
    config: Config,
) -> Result<Opened<D>, HostFailure> {
    let NotOpened { fault, mut disk } = refused;
    if fault != OpenFault::OtherConfig {
        return Err(HostFailure::from(fault));
    }
    let bytes = disk.read(alloc)?;
    let made = config_of(alloc, &bytes)?;
    if !are_alike_but_size(config, made) {
        return Err(HostFailure::OtherConfig);
    }
    Ok(Journal::open(alloc, disk, made)?)
}

/// Opens the journal of a path, or makes it where it is to be new. One that another server has is refused.
pub(crate) fn open_journal<R: Clock + Files<File = File> + AllocGlobal + Copy>(
    rt: &R,
    alloc: Global,
    config: Config,
    path: &str,
    new: bool,
) -> Result<Opened<SealedDisk<FileDisk<R>>>, HostFailure> {
    let disk = if new {
        FileDisk::create(rt, path)?
    } else {
        FileDisk::open(rt, path)?
    };
    let lines = SealedDisk::open(alloc, disk)?;
    match Journal::open(alloc, lines, config) {
        Ok(opened) => Ok(opened),
        Err(refused) => reopened(alloc, refused, config),
    }
}

// Serves a hall whose history is in the journal of a path.
fn host_journal<R, L: AuditLog, W: Write, E: Write>(
    rt: &R,
    alloc: Global,
    plan: &HostPlan<'_>,
    path: &str,
    new: bool,
    audit: &mut L,
    output: &mut W,
    errors: &mut E,
) -> Result<(), HostFailure>
where
    R: Net + Wait + Clock + Files<File = File> + AllocGlobal + Copy,
{
    match open_journal(rt, alloc, plan.config, path, new) {
        Ok(opened) => host_recorded(rt, alloc, plan, opened, audit, output, errors),
        Err(failure) => Err(failure),
    }
}

/// What serves a hall that was read of a journal: it is compacted before where it is long, and widened where the plan asks for more numbers.
pub(crate) fn recorded<R, D: Disk, E: Write>(
    rt: &R,
    alloc: Global,
    plan: &HostPlan<'_>,
    opened: Opened<D>,
    errors: &mut E,
) -> Result<(Reading<WriteAhead>, Recorded<D>), HostFailure> {
    let Opened {
        journal,
        mut write_ahead,
    } = opened;
    if let Err(failure) = check_size(write_ahead.hall(), plan.size_asked()) {
        return Err(failure);
    }
    let mut persister = Recorded {
        journal,
        alloc,
        compactor: Compactor::new(),
    };
    if let Err(fault) = persister.compact_when_due(&mut write_ahead) {
        return Err(HostFailure::from(fault));
    }
    // The operator may widen the pool where clients may not.
    let mut reading = Reading {
        service: write_ahead,
        rules: Rules::all(plan.rules.reads),
    };
    let asked = plan.size_asked();
    match widen_recorded(rt, alloc, asked, &mut reading, &mut persister, errors) {
        Ok(()) => {}
        Err(failure) => return Err(failure),
    }
    reading.rules = plan.rules;
    Ok((reading, persister))
}

// Serves what was read of a journal.
fn host_recorded<R: Net + Wait + Clock + Files, D: Disk, L: AuditLog, W: Write, E: Write>(
    rt: &R,
    alloc: Global,
    plan: &HostPlan<'_>,
    opened: Opened<D>,
    audit: &mut L,
    output: &mut W,
    errors: &mut E,
) -> Result<(), HostFailure> {
    let (reading, persister) = match recorded(rt, alloc, plan, opened, errors) {
        Ok(recorded) => recorded,
        Err(failure) => return Err(failure),
    };
    let stays = match stays_at_start(alloc, reading.service.hall(), plan.grace) {
        Ok(stays) => stays,
        Err(failure) => return Err(failure),
    };
    let kind = reading.service.hall().config().world;
    match serve(
        rt, alloc, plan, kind, reading, stays, persister, audit, output, errors,
    ) {
        Ok(hosted) => hosted.map_err(HostFailure::from),
        Err(fault) => Err(HostFailure::from(fault)),
    }
}

// Serves a hall whose history ends with the program.
fn host_unrecorded<R: Net + Wait + Clock + Files, L: AuditLog, W: Write, E: Write>(
    rt: &R,
    alloc: Global,
    plan: &HostPlan<'_>,
    audit: &mut L,
    output: &mut W,
    errors: &mut E,
) -> Result<(), HostFailure> {
    let hall = Hall::new(alloc, plan.config)?;
    let reading = Reading {
        service: hall,
        rules: plan.rules,
    };
    let persister = Unrecorded {
        alloc,
        compactor: Compactor::new(),
        compactions: 0,
    };
    let kind = plan.config.world;
    let stays = Stays::new(alloc);
    match serve(
        rt, alloc, plan, kind, reading, stays, persister, audit, output, errors,
    ) {
        Ok(hosted) => hosted.map_err(HostFailure::from),
        Err(fault) => Err(HostFailure::from(fault)),
    }
}

/// The store in which the log of a plan stands.
///
/// # Errors
///
/// Those of `members_of`.
pub(crate) fn store_of<'r, R: Net>(
    rt: &'r R,
    alloc: Global,
    log: LogPlan<'_>,
) -> Result<EtcdStore<TcpDial<'r, R>>, HostFailure> {
    let members = members_of(alloc, log.members)?;
    let Ok(prefix) = String::from_str(alloc, log.prefix) else {
        return Err(HostFailure::Memory);
    };
    let dial = TcpDial::new(rt, members, Duration::from_secs(MEMBER_SECONDS));
    Ok(EtcdStore::new(alloc, dial, prefix))
}

// Serves a hall whose history is in a log.
fn host_log<R, L: AuditLog, W: Write, E: Write>(
    rt: &R,
    alloc: Global,
    plan: &HostPlan<'_>,
    log: LogPlan<'_>,
    audit: &mut L,
    output: &mut W,
    errors: &mut E,
) -> Result<(), HostFailure>
where
    R: Net + Wait + Clock + Files<File = File>,
{
    let pause = Patience::new(rt, log.patience);
    match store_of(rt, alloc, log) {
        Ok(store) => host_followed(rt, alloc, plan, store, pause, audit, output, errors),
        Err(failure) => Err(failure),
    }
}

// Serves what follows a log, whatever that stands in: a proof over a store in etcd is long.
fn host_followed<R, S: Store, P: Pause, L: AuditLog, W: Write, E: Write>(
    rt: &R,
    alloc: Global,
    plan: &HostPlan<'_>,
    store: S,
    pause: P,
    audit: &mut L,
    output: &mut W,
    errors: &mut E,
) -> Result<(), HostFailure>
where
    R: Net + Wait + Clock + Files<File = File>,
{
    let terms = terms_by(plan.grace);
    let mut persister = match followed(
        rt,
        alloc,
        plan.config,
        store,
        pause,
        terms,
        Opening::ToServe,
    ) {
        Ok(persister) => persister,
        Err(failure) => return Err(failure),
    };
    warn_of_none(persister.told_terms(), errors);
    // Who kept the stays that are there at the start follows from the log.
    let mut queue = ReplyQueue::new(alloc);
    if let Err(failure) = widen_followed(
        rt,
        alloc,
        plan.size_asked(),
        &mut queue,
        &mut persister,
        errors,
    ) {
        return Err(failure);
    }
    persister.choose_rules(plan.rules);
    let kind = persister.hall().config().world;
    let stays = Stays::new(alloc);
    match serve(
        rt, alloc, plan, kind, queue, stays, persister, audit, output, errors,
    ) {
        Ok(hosted) => hosted.map_err(HostFailure::from),
        Err(fault) => Err(HostFailure::from(fault)),
    }
}

/// Writes the accepted events of the history that stands in a log as the lines of commands that ask for them, and serves nobody.
///
/// # Errors
///
/// - Those of the log: no member answers, or it holds another hall.
/// - `Memory`, `Output`: those of `write_events`.
pub fn export_hall<R: Net + Clock + Files<File = File>, W: Write>(
    rt: &R,
    alloc: Global,
    config: Config,
    log: LogPlan<'_>,
    output: &mut W,
) -> Result<(), HostFailure> {
    let pause = Patience::new(rt, log.patience);
    match store_of(rt, alloc, log) {
        Ok(store) => export_followed(rt, alloc, config, store, pause, output),
        Err(failure) => Err(failure),
    }
}

// Writes the events of the hall of a log, whatever that stands in.
fn export_followed<R: Files<File = File>, S: Store, P: Pause, W: Write>(
    rt: &R,
    alloc: Global,
    config: Config,
    store: S,
    pause: P,
    output: &mut W,
) -> Result<(), HostFailure> {
    // It ends no stays, so that it may be of any terms.
    match followed(
        rt,
        alloc,
        config,
        store,
        pause,
        HallTerms::Forever,
        Opening::ToLook,
    ) {
        Ok(persister) => write_events(alloc, persister.hall(), output),
        Err(failure) => Err(failure),
    }
}

/// The file of an audit log, where one is named.
pub(crate) fn open_audit<'a, R: Files<File = File>>(
    rt: &'a R,
    path: Option<&'a str>,
) -> Result<Option<AuditFile<'a, R>>, ErrorKind> {
    match path {
        Some(path) => Ok(Some(AuditFile::open(rt, path)?)),
        None => Ok(None),
    }
}

/// Serves a hall to clients until standard input ends where that is a pipe, or else until the program is killed.
///
/// Where a journal is named, its file is read, or made where it is to be new, and the hall is that of its record: a last line that was cut off by a crash is
/// dropped, and a file that is no record of a run of this config is refused, with nothing changed. Each accepted event is on the disk
/// before its reply is sent.
///
/// A hall whose pool has fewer numbers than the plan's config is widened before anything is listened on, and that is said on standard error. One with more is
/// refused.
///
/// Where a log is named, the hall is that of all that stands in it, by whichever server of the hall it came there, and each reply is sent
/// once its line stands there. Clients wait while the members do not answer, and are closed once the plan's patience ends.
///
/// Where a file lists pools, each is such a hall, with a journal of its own, and clients choose one by their first line (`host_pool_file`).
///
/// The first lines written are `listening ADDRESS:PORT` and `listening PATH`, of what is listened on, and `metrics ADDRESS:PORT`; the last is
/// `served N`. At a good end the files of the sockets are removed. Where the journal cannot be written, nothing is sent of that
/// turn, and the server ends.
///
/// # Errors
///
/// - Before anything is listened on: the audit log could not be opened; the journal or the log could not be opened, or holds another hall; the pool has more
///   numbers, or could not be widened; or an address could not be bound.
/// - Later: the journal, the log, standard output, the system's poll or an allocation failed. Nothing is sent of that turn.
pub fn host_hall<R, W: Write, E: Write>(
    rt: &R,
    alloc: Global,
    plan: HostPlan<'_>,
    output: &mut W,
    errors: &mut E,
) -> Result<(), HostFailure>
where
    R: Net + Wait + Clock + Files<File = File> + AllocGlobal + Copy,
{
    if let Some(file) = plan.pools {
        return host_pool_file(rt, alloc, plan, file, output, errors);
    }
    let mut audit = match open_audit(rt, plan.log) {
        Ok(audit) => audit,
        Err(why) => return Err(HostFailure::AuditLog(why)),
    };
    match plan.keeping {
        Keeping::Nothing => host_unrecorded(rt, alloc, &plan, &mut audit, output, errors),
        Keeping::Journal(path) => {
            host_journal(rt, alloc, &plan, path, false, &mut audit, output, errors)
        }
        Keeping::NewJournal(path) => {
            host_journal(rt, alloc, &plan, path, true, &mut audit, output, errors)
        }
        Keeping::Log(log) => host_log(rt, alloc, &plan, log, &mut audit, output, errors),
    }
}
