// Erased by bindings/rust/erase from crates/service_host/src/failure.rt, sha256 08522faa99c2dcbe7e4b5a7f317698b1a2ef60b331163d3f4eabf0d0a5e34fe6.
//! Why a hall is not hosted, or no more.

use crate::kit::alloc::AllocError;
use crate::kit::io::ErrorKind;
use crate::kit::thiserror::Error;
use crate::proved::model_steps::refusal::{NoMemory, Refusal};
use crate::proved::service_follow::hall_terms::HallTerms;
use crate::proved::service_follow::log_fault::LogFault;
use crate::proved::service_journal::disk::{Disk, DiskFault};
use crate::proved::service_journal::file_disk::FileFault;
use crate::proved::service_journal::journal::{JournalFault, NotOpened};
use crate::proved::service_journal::opening::OpenFault;
use crate::proved::service_loop::host_fault::HostFault;
use crate::proved::service_watch::listeners::fault::ListenFault;
use crate::proved::text_checker::verdict::Verdict;

/// Why a hall is not hosted, or no more. Its `Display` is the text for the operator.
#[derive(Clone, Copy, Debug, PartialEq, Eq, Error)]
pub enum HostFailure {
    /// A growth was refused.
    #[error("no memory")]
    Memory,
    /// To listen or to wait failed, so the system told.
    #[error("network fault: {0}")]
    Network(ErrorKind),
    /// Nothing is listened on.
    #[error("{0}")]
    Listen(ListenFault),
    /// What it was to read could not be read.
    #[error("read fault")]
    Input,
    /// What it tells was not taken.
    #[error("write fault")]
    Output,
    /// Names are not given in the config's world.
    #[error("no names are given in this world")]
    NoNames,
    /// Another server has the journal.
    #[error("journal in use")]
    InUse,
    /// The path of the journal names a device, a pipe or a socket.
    #[error("journal fault: no regular file, but a device, a pipe or a socket")]
    NotRegular,
    /// The file of the journal has more than one name.
    #[error("journal fault: the file has more than one name (a hard link), and a compaction would part them")]
    Linked,
    /// There is no journal at the path, and none was to be made.
    #[error("journal: there is no such file; --new makes one, with no event (is the disk mounted that it is on?)")]
    Missing,
    /// There is a journal at the path, and one was to be made.
    #[error("journal: --new makes no file where one is; leave it out to go on with that")]
    Exists,
    /// The file of the journal was deleted, moved or cut short under the server.
    #[error("journal fault: the file was deleted, moved or cut short under the server; what was not synced was not answered")]
    Moved,
    /// The file of the journal failed. What was not synced was not answered.
    #[error("journal fault: {0}")]
    Journal(ErrorKind),
    /// The journal is no record of a run: the number of its first line at fault, and of the reason.
    #[error("journal: line {0} follows in no run from those before it, by reason {1}; the file was not changed")]
    No(u64, u8),
    /// The line of this number of the journal is none of a record.
    #[error("journal: line {0} is none of a record, as host and play --record write it; the file was not changed")]
    BadRecord(u64),
    /// The journal is one of another config, or of an older version.
    #[error("journal of another config: its first line says of which")]
    OtherConfig,
    /// The pool of the hall has so many numbers, and fewer were asked for.
    #[error("this hall has {0} numbers, and --k asks for fewer: numbers are never taken away; start it with --k {0}")]
    Wider(u64),
    /// The pool of the hall may get so many numbers at most, and more were asked for.
    #[error("this hall can have {0} numbers at most, and --k asks for more: one that begins with more than {0} can have up to 65536")]
    AtMost(u64),
    /// The history of the hall is full, so that its pool was not widened.
    #[error("the history of this hall is full, so that --k does not widen its pool")]
    NotWidened,
    /// The line of this number of the journal is none that a server writes.
    #[error("journal: line {0} is none of a server")]
    OtherLine(u64),
    /// The words for the members of the log are no addresses.
    #[error("no such address of a member")]
    NoMembers,
    /// The system gave no random bytes.
    #[error("no random bytes")]
    NoToken,
    /// The log is one of another config, or of another version.
    #[error("log of another config")]
    OtherLog,
    /// The hall of the log has these terms, and the server was started with those.
    #[error("this hall in etcd has {0}, and this server was started with {1}; change these options, or the hall by --change-terms")]
    OtherTerms(HallTerms, HallTerms),
    /// Numbers of the hall of the log are held forever, and somebody competes for them: its terms were not changed.
    #[error("somebody competes for numbers of this hall, which are held forever, so that no server tells that he is there; change this once all have left")]
    Competing,
    /// The log was put back to an older state under the server, which answers nothing more.
    #[error("the log went back")]
    WentBack,
    /// Entries of the log were given up before this server had read them. It answers nothing more.
    #[error("entries of the log were deleted before this server had read them; start it again: it begins at the last compaction")]
    Trimmed,
    /// The file of the audit log could not be opened.
    #[error("the file of --log could not be opened: {0}")]
    AuditLog(ErrorKind),
    /// The file that lists the pools could not be read.
    #[error("the file of --pools could not be read: {0}")]
    Pools(ErrorKind),
    /// The line of this number of the file that lists the pools lists none, or one that is listed before.
    #[error("the file of --pools: line {0} is not NAME NUMBERS, and then nothing, forever, or the seconds of its grace time; or it names a pool again")]
    PoolLine(u64),
    /// The file that lists the pools lists none.
    #[error("the file of --pools lists no pool")]
    NoPools,
    /// Several pools were asked for, over a log.
    #[error("--pools is for journals: over etcd each pool has a server of its own, since each waits for etcd")]
    PoolsOverLog,
    /// The members of the log did not answer, or the log failed.
    #[error("log fault: {0}")]
    Log(LogFault),
}

impl From<ListenFault> for HostFailure {
    fn from(fault: ListenFault) -> HostFailure {
        HostFailure::Listen(fault)
    }
}

impl From<FileFault> for HostFailure {
    fn from(fault: FileFault) -> HostFailure {
        match fault {
            FileFault::InUse => HostFailure::InUse,
            FileFault::NotRegular => HostFailure::NotRegular,
            FileFault::Linked => HostFailure::Linked,
            FileFault::Missing => HostFailure::Missing,
            FileFault::Exists => HostFailure::Exists,
            FileFault::Failed(kind) => HostFailure::Journal(kind),
        }
    }
}

impl From<DiskFault> for HostFailure {
    fn from(fault: DiskFault) -> HostFailure {
        match fault {
            DiskFault::NoMemory => HostFailure::Memory,
            DiskFault::Moved => HostFailure::Moved,
            DiskFault::Failed(kind) => HostFailure::Journal(kind),
        }
    }
}

impl From<OpenFault> for HostFailure {
    fn from(fault: OpenFault) -> HostFailure {
        match fault {
            OpenFault::Disk(fault) => HostFailure::from(fault),
            OpenFault::NoMemory | OpenFault::Judged(Verdict::NoMemory) => HostFailure::Memory,
            OpenFault::Judged(Verdict::No(line, reason)) => HostFailure::No(line, reason.number()),
            OpenFault::Judged(Verdict::BadRecord(line)) => HostFailure::BadRecord(line),
            // A record of a run, of which a line is none of a server.
            OpenFault::Judged(Verdict::Yes) => HostFailure::OtherConfig,
            OpenFault::OtherConfig => HostFailure::OtherConfig,
            OpenFault::OtherLine(line) => HostFailure::OtherLine(line),
            OpenFault::NoNames => HostFailure::NoNames,
        }
    }
}

impl<D: Disk> From<NotOpened<D>> for HostFailure {
    fn from(refused: NotOpened<D>) -> HostFailure {
        HostFailure::from(refused.fault)
    }
}

impl From<Refusal> for HostFailure {
    fn from(why: Refusal) -> HostFailure {
        match why {
            Refusal::NoMemory => HostFailure::Memory,
            _ => HostFailure::NoNames,
        }
    }
}

impl From<AllocError> for HostFailure {
    fn from(_refused: AllocError) -> HostFailure {
        HostFailure::Memory
    }
}

impl From<NoMemory> for HostFailure {
    fn from(_refused: NoMemory) -> HostFailure {
        HostFailure::Memory
    }
}

impl From<JournalFault> for HostFailure {
    fn from(fault: JournalFault) -> HostFailure {
        match fault {
            JournalFault::Disk(fault) => HostFailure::from(fault),
            JournalFault::Ended => HostFailure::Journal(ErrorKind::Other),
        }
    }
}

impl From<HostFault<JournalFault>> for HostFailure {
    fn from(fault: HostFault<JournalFault>) -> HostFailure {
        match fault {
            HostFault::Memory => HostFailure::Memory,
            HostFault::Network(kind) => HostFailure::Network(kind),
            HostFault::Output => HostFailure::Output,
            HostFault::Persist(fault) => HostFailure::from(fault),
        }
    }
}

impl From<LogFault> for HostFailure {
    fn from(fault: LogFault) -> HostFailure {
        match fault {
            LogFault::Memory => HostFailure::Memory,
            LogFault::NoNames => HostFailure::NoNames,
            LogFault::OtherConfig => HostFailure::OtherLog,
            LogFault::OtherTerms(hall, own) => HostFailure::OtherTerms(hall, own),
            LogFault::WentBack => HostFailure::WentBack,
            LogFault::Trimmed => HostFailure::Trimmed,
            other => HostFailure::Log(other),
        }
    }
}

impl From<HostFault<LogFault>> for HostFailure {
    fn from(fault: HostFault<LogFault>) -> HostFailure {
        match fault {
            HostFault::Memory => HostFailure::Memory,
            HostFault::Network(kind) => HostFailure::Network(kind),
            HostFault::Output => HostFailure::Output,
            HostFault::Persist(fault) => HostFailure::from(fault),
        }
    }
}
