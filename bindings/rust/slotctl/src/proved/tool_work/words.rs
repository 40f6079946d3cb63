// Erased by bindings/rust/erase from crates/tool_work/src/words.rt, sha256 d8b2e7c5ad91af6a0bba209d162bb5a443f997cdd15ebc95c6403455483f44f4.
//! What the words of a command line ask for.

use crate::kit::alloc::Global;
use crate::kit::clap::error::ErrorKind;
use crate::kit::clap::{ArgMatches, Error};
use crate::kit::convert::AsStr;
use crate::kit::net::IpAddr;
use crate::kit::String;
use crate::proved::model_asked::config::Config;
use crate::proved::model_asked::kind::WorldKind;
use crate::proved::tool_work::asked::{
    Admissions, Ask, Drawing, Endpoints, Holding, Hosting, Keeping, LogWords, Playing, Racing,
    Serving, Showing,
};
use crate::proved::tool_work::command_line::slotctl_command;
use crate::proved::tool_work::misuse::Misuse;

// The world with this name, where it is one that may be typed: the wide world is none.
fn typed_world(name: &str) -> Option<WorldKind> {
    match WorldKind::named(name) {
        Some(world) if !world.is_wide() => Some(world),
        _ => None,
    }
}

// The text that is matched for an option, where there is one.
fn text_given<'a>(matches: &ArgMatches<'a>, name: &str) -> Option<&'a str> {
    matches.get_str(name)
}

// The world that is matched.
fn world_given(matches: &ArgMatches<'_>) -> Option<WorldKind> {
    typed_world(text_given(matches, "world")?)
}

// The number that is matched for an option.
fn number_given(matches: &ArgMatches<'_>, name: &str) -> Option<u64> {
    matches.get_one::<u64>(name)
}

// Whether a flag is matched.
fn flag_given(matches: &ArgMatches<'_>, name: &str) -> bool {
    matches.get_str(name) == Some("true")
}

// The config that the options of `play` or of `serve` give, where they give one.
fn config_given(matches: &ArgMatches<'_>) -> Option<Config> {
    let world = world_given(matches)?;
    let m = number_given(matches, "m")?;
    let k = number_given(matches, "k")?;
    let limit = number_given(matches, "limit")?;
    Config::new(world, m, k, limit).ok()
}

// What the options of `play` give, where they give something.
fn play_given(matches: &ArgMatches<'_>) -> Option<Playing> {
    let config = config_given(matches)?;
    Playing::new(config, flag_given(matches, "record"))
}

/// The size of the pool of a drawn run, which no drawn event uses.
const DRAWN_POOL: u64 = 4;

// What the options of `draw` give, where they give something.
fn draw_given(matches: &ArgMatches<'_>) -> Option<Drawing> {
    let seed = number_given(matches, "seed")?;
    let ids = number_given(matches, "ids")?;
    let steps = number_given(matches, "steps")?;
    let runs = number_given(matches, "runs")?;
    let jobs = number_given(matches, "jobs")?;
    let world = world_given(matches)?;
    let m = number_given(matches, "m")?;
    let limit = number_given(matches, "limit")?;
    let config = Config::new(world, m, DRAWN_POOL, limit).ok()?;
    Drawing::new(seed, ids, steps, runs, jobs, config)
}

// What the options of `show` give, where they give something.
fn show_given(matches: &ArgMatches<'_>) -> Option<Showing> {
    let from = number_given(matches, "from")?;
    let count = number_given(matches, "count")?;
    Showing::new(from, count)
}

// What the options of `race` give, where they give something.
fn race_given(matches: &ArgMatches<'_>) -> Option<Racing> {
    let threads = number_given(matches, "threads")?;
    let rounds = number_given(matches, "rounds")?;
    let seed = number_given(matches, "seed")?;
    Racing::new(threads, rounds, seed)
}

// What the options of `serve` give, where they give something.
fn serve_given(matches: &ArgMatches<'_>) -> Option<Serving> {
    let config = config_given(matches)?;
    let port = number_given(matches, "port")?;
    let workers = number_given(matches, "workers")?;
    let count = number_given(matches, "count")?;
    Serving::new(config, port, workers, count)
}

// The address that is matched for an option, where it is one.
fn address_given(matches: &ArgMatches<'_>, name: &str) -> Option<IpAddr> {
    text_given(matches, name)?.parse::<IpAddr>().ok()
}

// A number as a port, where it is one.
fn as_port(number: u64) -> Option<u16> {
    if 65_535 < number {
        return None;
    }
    Some(number as u16)
}

// The port that is matched for an option, where there is one.
fn port_given(matches: &ArgMatches<'_>, name: &str) -> Option<u16> {
    as_port(number_given(matches, name)?)
}

// The mode that is matched, where it is octal digits.
fn mode_given(matches: &ArgMatches<'_>) -> Option<u64> {
    u64::from_str_radix(text_given(matches, "mode")?, 8).ok()
}

// Whether an option that only a log has is matched.
fn log_asked(matches: &ArgMatches<'_>) -> bool {
    text_given(matches, "etcd").is_some()
        || text_given(matches, "prefix").is_some()
        || flag_given(matches, "export")
        || flag_given(matches, "change-terms")
}

// The log that the options of `host` give, where they give one.
fn log_given<'a>(matches: &ArgMatches<'a>) -> Option<LogWords<'a>> {
    let members = text_given(matches, "etcd")?;
    let prefix = text_given(matches, "prefix")?;
    let patience = number_given(matches, "patience")?;
    let exported = flag_given(matches, "export");
    let changes_terms = flag_given(matches, "change-terms");
    LogWords::new(members, prefix, patience, exported, changes_terms)
}

// The same, where an option is matched that only a log has.
fn log_kept<'a>(matches: &ArgMatches<'a>) -> Option<Keeping<'a>> {
    match (text_given(matches, "journal"), flag_given(matches, "new")) {
        (None, false) => Some(Keeping::Log(log_given(matches)?)),
        (Some(_), _) => None,
        (None, true) => None,
    }
}

// Where the options of `host` have the history kept, where they say so in one way.
fn keeping_given<'a>(matches: &ArgMatches<'a>) -> Option<Keeping<'a>> {
    if log_asked(matches) {
        return log_kept(matches);
    }
    match (text_given(matches, "journal"), flag_given(matches, "new")) {
        (None, false) => Some(Keeping::Nothing),
        (Some(path), false) => Some(Keeping::Journal(path)),
        (Some(path), true) => Some(Keeping::NewJournal(path)),
        (None, true) => None,
    }
}

/// How many seconds of grace a connection has, where they are not given.
const GRACE: u64 = 10;

/// After how many seconds a silent client is closed, where they are not given.
const IDLE: u64 = 600;

/// The same, where stays are held by connections: who holds a number says something in time, and of who vanished no word comes else.
const IDLE_OF_HOLDERS: u64 = 30;

/// The most seconds of grace: a day.
const MOST_GRACE: u64 = 86_400;

// The seconds of grace that the options of `host` give, where they give some.
fn grace_given(matches: &ArgMatches<'_>) -> Option<u64> {
    match number_given(matches, "grace") {
        None => Some(GRACE),
        Some(grace) if 1 <= grace && grace <= MOST_GRACE => Some(grace),
        Some(_) => None,
    }
}

// How the options of `host` have stays held, where they say so in one way.
fn holding_given(matches: &ArgMatches<'_>) -> Option<Holding> {
    match text_given(matches, "hold")? {
        "forever" => match number_given(matches, "grace") {
            None => Some(Holding::Forever),
            Some(_grace) => None,
        },
        "connection" => Some(Holding::Connection(grace_given(matches)?)),
        _ => None,
    }
}

// After how many seconds the options of `host` have a silent client closed.
fn idle_given(matches: &ArgMatches<'_>, holding: Holding) -> u64 {
    match (number_given(matches, "idle"), holding) {
        (Some(idle), _) => idle,
        (None, Holding::Forever) => IDLE,
        (None, Holding::Connection(_)) => IDLE_OF_HOLDERS,
    }
}

// Whether the options of `host` have the history store reads, where they say so.
fn reads_given(matches: &ArgMatches<'_>) -> Option<bool> {
    match text_given(matches, "reads")? {
        "logged" => Some(true),
        "plain" => Some(false),
        _ => None,
    }
}

// The world that the options of `host` ask for.
fn hall_world_given(matches: &ArgMatches<'_>) -> Option<WorldKind> {
    match text_given(matches, "world") {
        Some(name) => typed_world(name),
        None => Some(WorldKind::Rename),
    }
}

// The world of the hall, where this world and so many numbers are asked for.
fn hall_world(asked: WorldKind, k: u64) -> WorldKind {
    match asked {
        WorldKind::Rename if asked.most_numbers() < k => WorldKind::Wide,
        _ => asked,
    }
}

// The config of the hall that the options of `host` give, where they give one.
fn hall_given(matches: &ArgMatches<'_>) -> Option<Config> {
    let asked = hall_world_given(matches)?;
    let m = number_given(matches, "m")?;
    let k = number_given(matches, "k")?;
    let limit = number_given(matches, "limit")?;
    Config::new(hall_world(asked, k), m, k, limit).ok()
}

// What the options of `host` have clients ask for, where they say so.
fn admissions_given(matches: &ArgMatches<'_>) -> Option<Admissions> {
    let naming = text_given(matches, "world").is_some();
    let tokens = flag_given(matches, "tokens");
    match text_given(matches, "admit") {
        None => Some(Admissions {
            naming,
            widening: false,
            tokens,
        }),
        Some("widen") => Some(Admissions {
            naming,
            widening: true,
            tokens,
        }),
        Some(_) => None,
    }
}

// What the options of `host` have the hall reached by, where they say so.
fn endpoints_given<'a>(matches: &ArgMatches<'a>) -> Option<Endpoints<'a>> {
    let address = address_given(matches, "address")?;
    let port = port_given(matches, "port");
    let unix = text_given(matches, "unix");
    let mode = mode_given(matches)?;
    let admin = text_given(matches, "admin");
    let owners = flag_given(matches, "owners");
    let metrics_address = address_given(matches, "metrics-address")?;
    let metrics = port_given(matches, "metrics");
    Endpoints::new(
        address,
        port,
        unix,
        mode,
        admin,
        owners,
        metrics_address,
        metrics,
    )
}

// What the options of `host` give, where they give something.
fn host_given<'a>(matches: &ArgMatches<'a>) -> Option<Hosting<'a>> {
    let config = hall_given(matches)?;
    let admissions = admissions_given(matches)?;
    let endpoints = endpoints_given(matches)?;
    let clients = number_given(matches, "clients")?;
    let holding = holding_given(matches)?;
    let idle = idle_given(matches, holding);
    let stores_reads = reads_given(matches)?;
    let keeping = keeping_given(matches)?;
    let verbose = flag_given(matches, "verbose");
    let log = text_given(matches, "log");
    let pools = text_given(matches, "pools");
    Hosting::new(
        config,
        admissions,
        endpoints,
        clients,
        idle,
        holding,
        stores_reads,
        keeping,
        verbose,
        log,
        pools,
    )
}

// What a subcommand with these options asks for, where it asks for something.
fn asked_of<'a>(name: &str, options: &ArgMatches<'a>) -> Option<Ask<'a>> {
    match name {
        "play" => Some(Ask::Play(play_given(options)?)),
        "check" => Some(Ask::Check),
        "migrate" => Some(Ask::Migrate),
        "show" => Some(Ask::Show(show_given(options)?)),
        "draw" => Some(Ask::Draw(draw_given(options)?)),
        "race" => Some(Ask::Race(race_given(options)?)),
        "serve" => Some(Ask::Serve(serve_given(options)?)),
        "host" => Some(Ask::Host(host_given(options)?)),
        "held" => Some(Ask::Held),
        _ => None,
    }
}

// What the matches ask for, where they ask for something.
fn asked<'a>(matches: &ArgMatches<'a>) -> Option<Ask<'a>> {
    let (name, options) = matches.subcommand()?;
    asked_of(name, options)
}

// Why options that clap takes ask for nothing in a world that there is, as a text for people.
fn why_nothing_in(world: WorldKind, options: &ArgMatches<'_>) -> &'static str {
    if world.most() < number_given(options, "m").unwrap_or(0) {
        return "error: '--m' is at most 16, or 64 in the world tree\n";
    }
    if world.is_tree() && world.most_numbers() < number_given(options, "k").unwrap_or(0) {
        return "error: '--k' is at most 64 in the world tree\n";
    }
    if !world.gives_names() {
        return "error: no names are given in this world: '--record', draw, serve and host want rename or tree\n";
    }
    if address_given(options, "address").is_none() {
        return "error: '--address' wants an IPv4 or IPv6 address; no names are looked up, and '--port' gives the port\n";
    }
    if address_given(options, "metrics-address").is_none() {
        return "error: '--metrics-address' wants an IPv4 or IPv6 address; no names are looked up, and '--metrics' gives the port\n";
    }
    if !mode_given(options).is_some_and(|mode| mode <= 0o777) {
        return "error: '--mode' wants octal digits, at most 777\n";
    }
    if holding_given(options).is_none() {
        return "error: '--hold' wants forever or connection, and '--grace' goes with the latter alone\n";
    }
    if reads_given(options).is_none() {
        return "error: '--reads' wants plain or logged\n";
    }
    if admissions_given(options).is_none() {
        return "error: '--admit' wants widen\n";
    }
    if text_given(options, "journal").is_some() {
        return "error: '--journal' goes with none of '--etcd', '--prefix', '--export' and '--change-terms'\n";
    }
    if flag_given(options, "new") {
        return "error: '--new' goes with '--journal' alone\n";
    }
    "error: '--etcd' and '--prefix' go together, and '--export' and '--change-terms' want both\n"
}

// Why what clap takes asks for nothing, as a text for people.
fn why_nothing(matches: &ArgMatches<'_>) -> &'static str {
    if let Some((name, options)) = matches.subcommand() {
        let world = match name {
            "host" => hall_world_given(options),
            _ => world_given(options),
        };
        if let Some(world) = world {
            return why_nothing_in(world, options);
        }
    }
    "error: no such world: there are splitter, grid, rename and tree, and the last two give names\n"
}

/// Returns that the words are refused for this reason, or `Memory` if an allocation failed.
pub fn refused(alloc: Global, why: &str) -> Misuse {
    match String::from_str(alloc, why) {
        Ok(text) => Misuse::Words(text),
        Err(_) => Misuse::Memory,
    }
}

// What clap answers in place of matches: help, or why it refuses the words.
fn misuse_of(alloc: Global, error: &Error) -> Misuse {
    let kind = error.kind();
    if kind == ErrorKind::OutOfMemory {
        return Misuse::Memory;
    }
    let Ok(text) = error.to_string(alloc) else {
        return Misuse::Memory;
    };
    match kind {
        ErrorKind::DisplayHelp | ErrorKind::DisplayVersion => Misuse::Help(text),
        _ => Misuse::Words(text),
    }
}

/// Returns what the words of a command line ask for. The first word is the program's name.
///
/// # Errors
///
/// - `Help`: they ask for help or for the version.
/// - `Words`: they are refused.
/// - `Memory`: an allocation failed.
pub fn ask<'a, S: AsStr>(alloc: Global, words: &'a [S]) -> Result<Ask<'a>, Misuse> {
    let command = slotctl_command(alloc)?;
    let matches = match command.try_get_matches_from(words) {
        Ok(matches) => matches,
        Err(error) => return Err(misuse_of(alloc, &error)),
    };
    match asked(&matches) {
        Some(asked) => Ok(asked),
        None => Err(refused(alloc, why_nothing(&matches))),
    }
}
