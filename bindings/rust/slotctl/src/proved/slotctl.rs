// Erased by bindings/rust/erase from crates/slotctl/src/main.rt, sha256 95eaf285fa09eeacda93e9b3002302a55da3217a8ad4be341ac5e5b508f85c07.
//! The program `slotctl`: plays schedules of shared-memory algorithms, one access a step.
//!
//! `slotctl play --world splitter --m 2` reads commands from the standard input, one a line, and writes a reply to each to
//! the standard output. `slotctl serve` answers the commands of connections over one hall, and `slotctl host` those of a hall
//! that outlives it. What the words of the command line ask for is done by `program` of `tool_work`, over any reader and
//! writer, but to race, which is `race`, to serve, which is `serve` of `service_lock::server`, and to host, which is `host_hall` of `service_host`. The status is 0
//! where it was done and for help, 1 where a record is none of a run or a journal is not there, 2 where the words are refused, and 3 at a fault or for
//! an allocation failure; at 2 and 3, and where a page was asked for at 1, a text on the standard error says why.

use crate::kit::HostRuntime;
use crate::kit::String;
use crate::kit::Vec;
mod race;

use crate::kit::alloc::{AllocGlobal, Global};
use crate::kit::env;
use crate::kit::fs::File;
use crate::kit::io::{ErrorKind, Write};
use crate::kit::marker::Brand;
use crate::kit::net::{IpAddr, Net, SocketAddr};
use crate::kit::rt::{Clock, Files};
use crate::kit::sync::ledger::Blank;
use crate::kit::sync::Wait;
use crate::kit::thread::Threads;
use crate::proved::service_hall::reads::Reads;
use crate::proved::service_hall::rules::Rules;
use crate::proved::service_host::failure::HostFailure;
use crate::proved::service_host::holders::write_holders;
use crate::proved::service_host::log_plan::LogPlan;
use crate::proved::service_host::start::{export_hall, host_hall, HostPlan, Keeping};
use crate::proved::service_host::terms::change_terms;
use crate::proved::service_lock::book::Opened;
use crate::proved::service_lock::server::server::{serve, Plan};
use crate::proved::service_lock::server::server_fault::ServeFault;
use crate::proved::service_watch::listeners::listening::ListenPlan;
use crate::proved::service_watch::listeners::socket_file::SocketPlan;
use crate::proved::text_lines::fault::Fault;
use crate::proved::text_player::tried::Tried;
use crate::proved::tool_work::asked::{
    Admissions, Endpoints, Holding, Hosting, Keeping as KeepingWords, LogWords, Serving,
};
use crate::proved::tool_work::failure::Failure;
use crate::proved::tool_work::misuse::Misuse;
use crate::proved::tool_work::outcome::Outcome;
use crate::proved::tool_work::program::{program, report};
use crate::proved::tool_work::progress::{in_sight, may_take_long};
use crate::proved::tool_work::words::refused;
use std::fmt::Display;
use std::process::ExitCode;

// What is reported where `--etcd` names no members.
const MEMBERS_WANTED: &str =
    "error: '--etcd' wants addresses with ports, a comma between them, as 10.0.0.1:2379; no names are looked up\n";

// The words of the command line.
fn command_words(rt: &HostRuntime) -> Result<Vec<String>, Misuse> {
    let alloc = rt.alloc();
    match env::args(rt) {
        Ok(args) => Ok(args.collect(alloc)?),
        Err(error) if error.kind() == ErrorKind::OutOfMemory => Err(Misuse::Memory),
        Err(_) => Err(refused(alloc, "error: the words are no text\n")),
    }
}

// What the words ask for, beside a sign that it goes on: over streams of its own.
fn by_words<'a, T: Threads + Sync>(
    threads: &T,
    rt: &HostRuntime,
    alloc: Global,
    words: &'a [String],
) -> Outcome<'a> {
    let mut input = Tried::new(rt.stdin());
    let mut output = Tried::new(rt.stdout());
    program(
        threads,
        alloc,
        words,
        &mut input,
        &mut output,
        &mut rt.stderr(),
    )
}

// What is to be served.
fn plan_of(serving: Serving) -> Plan {
    Plan {
        config: serving.config,
        port: serving.port as u16,
        workers: serving.workers,
        count: serving.count,
    }
}

// Tells a fault of what serves or hosts, and answers the status.
fn tell<F: Display, E: Write>(fault: &F, errors: &mut E) -> u8 {
    // A standard error that takes no text leaves the status alone to tell.
    let _ = write!(errors, "slotctl: {fault}\n");
    3
}

// Tells why not all was served, and answers the status.
fn report_served<W: Write, E: Write>(fault: ServeFault, output: &mut W, errors: &mut E) -> u8 {
    match fault {
        ServeFault::Server(fault) => tell(&fault, errors),
        ServeFault::Write => report(Failure::Fault(Fault::Write), output, errors),
    }
}

// The log that words name.
fn log_plan_of<'a>(words: LogWords<'a>) -> LogPlan<'a> {
    LogPlan {
        members: words.members,
        prefix: words.prefix,
        patience: words.patience,
    }
}

// Where words have a history kept.
fn keeping_of<'a>(words: KeepingWords<'a>) -> Keeping<'a> {
    match words {
        KeepingWords::Nothing => Keeping::Nothing,
        KeepingWords::Journal(path) => Keeping::Journal(path),
        KeepingWords::NewJournal(path) => Keeping::NewJournal(path),
        KeepingWords::Log(log) => Keeping::Log(log_plan_of(log)),
    }
}

// A port of an address, where one is named.
fn port_at(address: IpAddr, port: Option<u16>) -> Option<SocketAddr> {
    match port {
        Some(port) => Some(SocketAddr::new(address, port)),
        None => None,
    }
}

/// The mode of the socket for administrators: whoever runs the server may connect.
const ADMIN_MODE: u32 = 0o600;

// What is to be listened on: where neither a port nor a socket is named, a port that is free.
fn listen_plan_of<'a>(endpoints: Endpoints<'a>) -> ListenPlan<'a> {
    let port = match (endpoints.port, endpoints.unix) {
        (None, None) => Some(0),
        (port, _) => port,
    };
    ListenPlan {
        network: port_at(endpoints.address, port),
        local: match endpoints.unix {
            Some(path) => Some(SocketPlan {
                path,
                mode: endpoints.mode as u32,
            }),
            None => None,
        },
        admin: match endpoints.admin {
            Some(path) => Some(SocketPlan {
                path,
                mode: ADMIN_MODE,
            }),
            None => None,
        },
        metrics: port_at(endpoints.metrics_address, endpoints.metrics),
    }
}

// The seconds of grace of stays that are held so, where they end.
fn grace_by(holding: Holding) -> Option<u64> {
    match holding {
        Holding::Forever => None,
        Holding::Connection(grace) => Some(grace),
    }
}

// The rules for clients who may ask for so much.
fn rules_of(admissions: Admissions, stores_reads: bool) -> Rules {
    Rules {
        reads: if stores_reads {
            Reads::Logged
        } else {
            Reads::Plain
        },
        widening: admissions.widening,
        naming: admissions.naming,
        tokens: admissions.tokens,
    }
}

// What is to be hosted, where somebody may look on.
fn host_plan_of<'a>(hosting: Hosting<'a>, seen: bool) -> HostPlan<'a> {
    HostPlan {
        config: hosting.config,
        listen: listen_plan_of(hosting.endpoints),
        owners: hosting.endpoints.owners,
        clients: hosting.clients as usize,
        idle: if hosting.idle == 0 {
            None
        } else {
            Some(hosting.idle)
        },
        grace: grace_by(hosting.holding),
        rules: rules_of(hosting.admissions, hosting.stores_reads),
        keeping: keeping_of(hosting.keeping),
        reports: hosting.verbose || seen,
        log: hosting.log,
        pools: hosting.pools,
    }
}

// Tells that a journal is no record, by the line of `check` and then in words, and answers the status.
fn report_judged<W: Write, E: Write>(
    judged: Failure,
    failure: HostFailure,
    output: &mut W,
    errors: &mut E,
) -> u8 {
    let status = report(judged, output, errors);
    let _ = tell(&failure, errors);
    status
}

// Tells why no hall is hosted, and answers the status.
fn report_hosted<W: Write, E: Write>(
    alloc: Global,
    failure: HostFailure,
    output: &mut W,
    errors: &mut E,
) -> u8 {
    let failure = match failure {
        HostFailure::NoMembers => Failure::Misuse(refused(alloc, MEMBERS_WANTED)),
        HostFailure::No(line, reason) => {
            return report_judged(Failure::No(line, reason), failure, output, errors);
        }
        HostFailure::BadRecord(line) => {
            return report_judged(Failure::BadRecord(line), failure, output, errors);
        }
        // To start again would change neither.
        HostFailure::Missing | HostFailure::Exists | HostFailure::AuditLog(_) => {
            let _ = tell(&failure, errors);
            return 1;
        }
        HostFailure::Input => Failure::Fault(Fault::Read),
        HostFailure::Output => Failure::Fault(Fault::Write),
        HostFailure::Memory => Failure::Fault(Fault::Memory),
        other => return tell(&other, errors),
    };
    report(failure, output, errors)
}

// A hall is hosted, or its history is written out, or how its stays are held is changed.
fn host_words<R, W: Write, E: Write>(
    rt: &R,
    alloc: Global,
    hosting: Hosting<'_>,
    seen: bool,
    output: &mut W,
    errors: &mut E,
) -> Result<(), HostFailure>
where
    R: Net + Wait + Clock + Files<File = File> + AllocGlobal + Copy,
{
    if let KeepingWords::Log(log) = hosting.keeping {
        if log.exported {
            return export_hall(rt, alloc, hosting.config, log_plan_of(log), output);
        }
        if log.changes_terms {
            let grace = grace_by(hosting.holding);
            return change_terms(rt, alloc, hosting.config, log_plan_of(log), grace, output);
        }
    }
    host_hall(rt, alloc, host_plan_of(hosting, seen), output, errors)
}

pub fn main(rt: HostRuntime) -> ExitCode {
    let alloc = rt.alloc();
    let mut output = Tried::new(rt.stdout());
    let mut errors = rt.stderr();
    let words = match command_words(&rt) {
        Ok(words) => words,
        Err(misuse) => {
            return ExitCode::from(report(Failure::Misuse(misuse), &mut output, &mut errors));
        }
    };
    let outcome = if errors.is_terminal() && may_take_long(&words) {
        in_sight(&rt, rt.stderr(), || by_words(&rt, &rt, alloc, &words))
    } else {
        let mut input = Tried::new(rt.stdin());
        program(&rt, alloc, &words, &mut input, &mut output, &mut errors)
    };
    let status = match outcome {
        Outcome::Ended(status) => status,
        Outcome::Race(racing) => match race::race(&rt, alloc, racing, &mut output) {
            Ok(true) => 0,
            Ok(false) => 1,
            Err(fault) => report(Failure::Fault(fault), &mut output, &mut errors),
        },
        Outcome::Serve(serving) => {
            let blank = Blank::new(1_000_001);
            let history = Opened::new();
            match serve::<Brand, _, _>(&rt, alloc, plan_of(serving), &mut output, blank, history) {
                Ok(()) => 0,
                Err(fault) => report_served(fault, &mut output, &mut errors),
            }
        }
        Outcome::Held => match write_holders(alloc, &mut rt.stdin(), &mut output) {
            Ok(()) => 0,
            Err(failure) => report_hosted(alloc, failure, &mut output, &mut errors),
        },
        Outcome::Host(hosting) => {
            let seen = errors.is_terminal();
            match host_words(&rt, alloc, hosting, seen, &mut output, &mut errors) {
                Ok(()) => 0,
                Err(failure) => report_hosted(alloc, failure, &mut output, &mut errors),
            }
        }
    };
    ExitCode::from(status)
}
