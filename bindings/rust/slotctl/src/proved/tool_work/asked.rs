// Erased by bindings/rust/erase from crates/tool_work/src/asked.rt, sha256 877c5938931c2b874389076af1ba08a13d7943db0d2649b33b739807c753a1cf.
//! What the program can be asked for.

use crate::kit::net::IpAddr;
use crate::proved::model_asked::config::Config;

/// What the words of a command line ask for.
#[derive(Clone, Copy)]
pub enum Ask<'a> {
    /// A run of `play`.
    Play(Playing),
    /// The check of a record.
    Check,
    /// A record that is written again in version 2.
    Migrate,
    /// A record as a page that shows its run.
    Show(Showing),
    /// Drawn schedules.
    Draw(Drawing),
    /// Threads that race for names.
    Race(Racing),
    /// Connections that are served.
    Serve(Serving),
    /// A hall that is hosted.
    Host(Hosting<'a>),
    /// Who holds numbers by a record.
    Held,
}

/// The run that is played.
#[derive(Clone, Copy)]
pub struct Playing {
    /// Its world and its sizes.
    pub config: Config,
    /// Whether its record is written in place of the replies.
    pub recorded: bool,
}

impl Playing {
    /// Returns a run of this config, or `None` if a record is to be written in a world without names.
    pub fn new(config: Config, recorded: bool) -> Option<Playing> {
        if recorded && !config.world.gives_names() {
            return None;
        }
        Some(Playing { config, recorded })
    }
}

/// The events of a record that are shown.
#[derive(Clone, Copy)]
pub struct Showing {
    /// The number of the first of them, from 1 to 1,000,000.
    pub from: u64,
    /// How many they are at most, from 1 to 1,000,000.
    pub count: u64,
}

impl Showing {
    /// Returns a showing of these values, or `None` if one of them is outside its range.
    pub fn new(from: u64, count: u64) -> Option<Showing> {
        if from < 1 || 1_000_000 < from || count < 1 || 1_000_000 < count {
            return None;
        }
        Some(Showing { from, count })
    }
}

/// The schedules that are drawn: the schedule of a seed as its lines, or runs of it and of the seeds after it.
#[derive(Clone, Copy)]
pub struct Drawing {
    /// The seed of the first.
    pub seed: u64,
    /// How many identities there are, from 1 to 64.
    pub ids: u64,
    /// How many steps are taken, at most 1,000,000.
    pub steps: u64,
    /// How many runs are made, at most 1,000; with none, the schedule is written.
    pub runs: u64,
    /// How many are made at once, at most 64; with 0, as many as there are processors.
    pub jobs: u64,
    /// The world of the runs, in which names are given, and its sizes.
    pub config: Config,
}

impl Drawing {
    /// Returns a drawing of these values, or `None` if one of them is outside its range.
    pub fn new(
        seed: u64,
        ids: u64,
        steps: u64,
        runs: u64,
        jobs: u64,
        config: Config,
    ) -> Option<Drawing> {
        if ids < 1 || 64 < ids || 1_000_000 < steps || 1_000 < runs || 64 < jobs {
            return None;
        }
        if !config.world.gives_names() {
            return None;
        }
        Some(Drawing {
            seed,
            ids,
            steps,
            runs,
            jobs,
            config,
        })
    }
}

/// Threads that race for names over shared atomic words, in rounds, each with identities of its own.
#[derive(Clone, Copy)]
pub struct Racing {
    /// How many threads there are, from 1 to 64.
    pub threads: u64,
    /// How many rounds, from 1 to 1,000,000.
    pub rounds: u64,
    /// The seed of the identities.
    pub seed: u64,
}

impl Racing {
    /// Returns a race of these values, or `None` if one of them is outside its range.
    pub fn new(threads: u64, rounds: u64, seed: u64) -> Option<Racing> {
        if threads < 1 || 64 < threads || rounds < 1 || 1_000_000 < rounds {
            return None;
        }
        Some(Racing {
            threads,
            rounds,
            seed,
        })
    }
}

/// The connections that are served, over one hall.
#[derive(Clone, Copy)]
pub struct Serving {
    /// The world of the hall, in which names are given, and its sizes.
    pub config: Config,
    /// The port that is listened on, at most 65,535; with 0 any that is free.
    pub port: u64,
    /// How many are served at once, from 1 to 16.
    pub workers: u64,
    /// How many are served, from 1 to 1,000,000.
    pub count: u64,
}

impl Serving {
    /// Returns a serving of these values, or `None` if one of them is outside its range.
    pub fn new(config: Config, port: u64, workers: u64, count: u64) -> Option<Serving> {
        if 65_535 < port || workers < 1 || 16 < workers || count < 1 || 1_000_000 < count {
            return None;
        }
        if !config.world.gives_names() {
            return None;
        }
        Some(Serving {
            config,
            port,
            workers,
            count,
        })
    }
}

/// The log that keeps the history of a hall, and that other servers of it share.
#[derive(Clone, Copy)]
pub struct LogWords<'a> {
    /// The addresses of the members that hold it, with a comma between them.
    pub members: &'a str,
    /// The name that all its keys begin with.
    pub prefix: &'a str,
    /// For how many seconds clients wait while no member answers, from 1 to 3,600.
    pub patience: u64,
    /// Whether its history is written out, and nobody served.
    pub exported: bool,
    /// Whether how its stays are held is changed, and nobody served.
    pub changes_terms: bool,
}

impl<'a> LogWords<'a> {
    /// Returns a log of these words, or `None` if the patience is outside its range.
    pub fn new(
        members: &'a str,
        prefix: &'a str,
        patience: u64,
        exported: bool,
        changes_terms: bool,
    ) -> Option<LogWords<'a>> {
        if patience < 1 || 3_600 < patience {
            return None;
        }
        Some(LogWords {
            members,
            prefix,
            patience,
            exported,
            changes_terms,
        })
    }
}

/// Where the history of a hall is kept.
#[derive(Clone, Copy)]
pub enum Keeping<'a> {
    /// Nowhere: it ends with the program.
    Nothing,
    /// In the journal of this file, which is there.
    Journal(&'a str),
    /// In the journal of this file, which is to be made.
    NewJournal(&'a str),
    /// In a log.
    Log(LogWords<'a>),
}

/// How long a stay in the pool goes on without the client that entered it.
#[derive(Clone, Copy)]
pub enum Holding {
    /// Until somebody gives the number back.
    Forever,
    /// Until so many seconds after the connection has ended, from 1 to 86,400.
    Connection(u64),
}

/// What a hall is reached by.
#[derive(Clone, Copy)]
pub struct Endpoints<'a> {
    /// The address of the port.
    pub address: IpAddr,
    /// The port for clients, where one is named; with 0 any that is free.
    pub port: Option<u16>,
    /// The path of the socket for clients of this machine, where one is named.
    pub unix: Option<&'a str>,
    /// The bits of the mode of that socket, at most 0o777.
    pub mode: u64,
    /// The path of the socket for administrators, where one is named.
    pub admin: Option<&'a str>,
    /// Whether clients own their identities by secrets.
    pub owners: bool,
    /// The address of the port for those who watch.
    pub metrics_address: IpAddr,
    /// The port for those who watch, where one is named; with 0 any that is free.
    pub metrics: Option<u16>,
}

impl<'a> Endpoints<'a> {
    /// Returns endpoints of these values, or `None` if the mode is outside its range.
    pub fn new(
        address: IpAddr,
        port: Option<u16>,
        unix: Option<&'a str>,
        mode: u64,
        admin: Option<&'a str>,
        owners: bool,
        metrics_address: IpAddr,
        metrics: Option<u16>,
    ) -> Option<Endpoints<'a>> {
        if 0o777 < mode {
            return None;
        }
        Some(Endpoints {
            address,
            port,
            unix,
            mode,
            admin,
            owners,
            metrics_address,
            metrics,
        })
    }
}

/// What clients may ask for, beside numbers.
#[derive(Clone, Copy)]
pub struct Admissions {
    /// Whether they may begin and step, to get names.
    pub naming: bool,
    /// Whether they may widen the pool.
    pub widening: bool,
    /// Whether they are given tokens with their numbers.
    pub tokens: bool,
}

/// The hall that is hosted.
#[derive(Clone, Copy)]
pub struct Hosting<'a> {
    /// The world of the hall, in which names are given, and its sizes.
    pub config: Config,
    /// What clients may ask for.
    pub admissions: Admissions,
    /// What it is reached by.
    pub endpoints: Endpoints<'a>,
    /// How many clients are served at once, from 1 to 1,000,000.
    pub clients: u64,
    /// After how many seconds a client that says nothing is closed, at most 31,536,000; with 0 never.
    pub idle: u64,
    /// How long a stay in the pool goes on.
    pub holding: Holding,
    /// Whether the history stores reads, the `get` of clients.
    pub stores_reads: bool,
    /// Where its history is kept.
    pub keeping: Keeping<'a>,
    /// Whether it tells once a minute how much there is.
    pub verbose: bool,
    /// The file to which it appends who took numbers, gave them back or was refused, where one is named.
    pub log: Option<&'a str>,
    /// The file that lists its pools, where one is named.
    pub pools: Option<&'a str>,
}

impl<'a> Hosting<'a> {
    /// Returns a hosting of these values, or `None` if one of them is outside its range.
    pub fn new(
        config: Config,
        admissions: Admissions,
        endpoints: Endpoints<'a>,
        clients: u64,
        idle: u64,
        holding: Holding,
        stores_reads: bool,
        keeping: Keeping<'a>,
        verbose: bool,
        log: Option<&'a str>,
        pools: Option<&'a str>,
    ) -> Option<Hosting<'a>> {
        if clients < 1 || 1_000_000 < clients || 31_536_000 < idle {
            return None;
        }
        if !config.world.gives_names() {
            return None;
        }
        Some(Hosting {
            config,
            admissions,
            endpoints,
            clients,
            idle,
            holding,
            stores_reads,
            keeping,
            verbose,
            log,
            pools,
        })
    }
}
