// Erased by bindings/rust/erase from crates/tool_work/src/command_line.rt, sha256 32c9d1be69cf41d51f17e433d5fd49b647978ede8c04c2a052468c256284aca9.
//! The command line of the program, for `clap`.

use crate::kit::alloc::{AllocError, Global};
use crate::kit::clap::builder::ValueParser;
use crate::kit::clap::{Arg, ArgAction, Command};
use crate::proved::model_asked::kind::ANY_WORLD;

/// What an option takes.
#[derive(Clone, Copy)]
enum Takes {
    /// A text, which the help calls so.
    Text(&'static str),
    /// A text, which the help calls so, and the one that it has where it is not given.
    TextOr(&'static str, &'static str),
    /// A number in this range, and a text of the one that it has where it is not given.
    Number(u64, u64, &'static str),
    /// A number in this range, or none.
    SomeNumber(u64, u64),
    /// A number in this range, which has to be given.
    Needed(u64, u64),
    /// No value.
    Nothing,
}

/// An option of a subcommand.
#[derive(Clone, Copy)]
struct Choice {
    name: &'static str,
    takes: Takes,
    help: &'static str,
}

/// What the help tells of a subcommand: its name, its options, and two examples under them.
#[derive(Clone, Copy)]
struct Manual {
    name: &'static str,
    about: &'static str,
    examples: &'static str,
    choices: &'static [Choice],
}

// The text of `--version` behind the name.
const VERSION: &str = "0.4, rattle-kit-13f logic dac8208d650f15bf";

// `--world NAME`, of the worlds that give names.
const WORLD_OF_NAMES: Choice = Choice {
    name: "world",
    takes: Takes::TextOr("NAME", "rename"),
    help: "where names are given: rename or tree",
};

// `--world NAME`, of any world.
const WORLD: Choice = Choice {
    name: "world",
    takes: Takes::TextOr("NAME", "rename"),
    help: ANY_WORLD,
};

// `--m NUMBER`.
const MOST_PARTICIPANTS: Choice = Choice {
    name: "m",
    takes: Takes::Number(1, 64, "4"),
    help: "the most participants, from 1 to 16, or to 64 in the world tree",
};

// `--k NUMBER`.
const POOL_SIZE: Choice = Choice {
    name: "k",
    takes: Takes::Number(1, 64, "4"),
    help: "the size of the pool, from 1 to 64",
};

// `--limit NUMBER`.
const PROPOSAL_LIMIT: Choice = Choice {
    name: "limit",
    takes: Takes::Number(1, 1_000_000, "1000"),
    help: "the most proposals of each participant, from 1 to 1000000; above 3(5^m - 1)/4 nobody is spent",
};

// `--port NUMBER`.
const PORT: Choice = Choice {
    name: "port",
    takes: Takes::Number(0, 65_535, "0"),
    help: "the port, or 0 for one that is free",
};

// `slotctl play`.
const PLAY: Manual = Manual {
    name: "play",
    about: "Plays the commands of the standard input, and writes a reply to each",
    examples: "Examples:
  slotctl play --m 2 < lines
  printf 'begin 10\\nstep 10\\n' | slotctl play --world grid",
    choices: &[
        WORLD,
        MOST_PARTICIPANTS,
        POOL_SIZE,
        PROPOSAL_LIMIT,
        Choice {
            name: "record",
            takes: Takes::Nothing,
            help: "writes the record of the run in place of the replies",
        },
    ],
};

// `slotctl check`.
const CHECK: Manual = Manual {
    name: "check",
    about: "Checks the record of the standard input, and writes its verdict",
    examples: "Examples:
  slotctl play --record < lines | slotctl check
  slotctl check < run.record",
    choices: &[],
};

// `slotctl migrate`.
const MIGRATE: Manual = Manual {
    name: "migrate",
    about: "Writes the record of the standard input again, in version 2",
    examples: "Examples:
  slotctl migrate < old.record > new.record
  slotctl migrate < old.record | slotctl check",
    choices: &[],
};

// `slotctl show`.
const SHOW: Manual = Manual {
    name: "show",
    about: "Writes the record of the standard input as a page that shows its run",
    examples: "Examples:
  slotctl play --record < lines | slotctl show > run.html
  slotctl show --from 5001 --count 200 < run.record > part.html",
    choices: &[
        Choice {
            name: "from",
            takes: Takes::Number(1, 1_000_000, "1"),
            help: "the first event that is shown, from 1 to 1000000",
        },
        Choice {
            name: "count",
            takes: Takes::Number(1, 1_000_000, "1000"),
            help: "how many events are shown, from 1 to 1000000",
        },
    ],
};

// `slotctl draw`.
const DRAW: Manual = Manual {
    name: "draw",
    about: "Draws schedules, and writes one, or a line for each of many that are played",
    examples: "Examples:
  slotctl draw --seed 7 --ids 4 --steps 200 | slotctl play
  slotctl draw --seed 7 --ids 16 --steps 20000 --runs 100 --m 16",
    choices: &[
        Choice {
            name: "seed",
            takes: Takes::Needed(0, u64::MAX),
            help: "the seed of the generator",
        },
        Choice {
            name: "ids",
            takes: Takes::Needed(1, 64),
            help: "how many identities, from 1 to 64",
        },
        Choice {
            name: "steps",
            takes: Takes::Needed(0, 1_000_000),
            help: "how many steps, at most 1000000",
        },
        Choice {
            name: "runs",
            takes: Takes::Number(0, 1_000, "0"),
            help: "how many are played, at most 1000",
        },
        Choice {
            name: "jobs",
            takes: Takes::Number(0, 64, "0"),
            help:
                "how many are played at once, at most 64, or 0 for as many as there are processors",
        },
        WORLD_OF_NAMES,
        MOST_PARTICIPANTS,
        PROPOSAL_LIMIT,
    ],
};

// `slotctl race`.
const RACE: Manual = Manual {
    name: "race",
    about: "Lets threads race for names over shared atomic words, with no lock, and writes who got which",
    examples: "Examples:
  slotctl race --threads 4
  slotctl race --threads 16 --rounds 1000 --seed 7",
    choices: &[
        Choice {
            name: "threads",
            takes: Takes::Number(1, 64, "4"),
            help: "how many threads, from 1 to 64",
        },
        Choice {
            name: "rounds",
            takes: Takes::Number(1, 1_000_000, "1"),
            help: "how many rounds, from 1 to 1000000",
        },
        Choice {
            name: "seed",
            takes: Takes::Number(0, u64::MAX, "1"),
            help: "the seed of the identities",
        },
    ],
};

// `slotctl serve`.
const SERVE: Manual = Manual {
    name: "serve",
    about: "Serves the commands of connections to 127.0.0.1, over one hall",
    examples: "Examples:
  slotctl serve --port 7070 --count 2
  slotctl serve --world tree --m 64 --workers 16 --count 1000",
    choices: &[
        WORLD_OF_NAMES,
        MOST_PARTICIPANTS,
        POOL_SIZE,
        PROPOSAL_LIMIT,
        PORT,
        Choice {
            name: "workers",
            takes: Takes::Number(1, 16, "2"),
            help: "how many connections are served at once, from 1 to 16",
        },
        Choice {
            name: "count",
            takes: Takes::Number(1, 1_000_000, "1"),
            help: "how many connections are served, from 1 to 1000000",
        },
    ],
};

// `--world NAME`, of the worlds that give names, where clients are to have some.
const WORLD_OF_CLIENTS: Choice = Choice {
    name: "world",
    takes: Takes::Text("NAME"),
    help: "gives names to clients: rename or tree; without this begin and step are refused 14",
};

// `slotctl host`.
const HOST: Manual = Manual {
    name: "host",
    about: "Hosts a hall: clients of a socket in one thread, with a journal or a log",
    examples: "Examples:
  slotctl host --port 7070 --journal slots.record --new
  slotctl host --unix /run/slotctl/socket --mode 660 --metrics 9470 --journal slots.record
  slotctl host --port 7070 --hold connection --grace 30
  slotctl host --port 7070 --pools pools.conf --journal journals --new
  slotctl host --port 7070 --etcd 10.0.0.1:2379,10.0.0.2:2379 --prefix slots/
  slotctl host --etcd 10.0.0.1:2379 --prefix slots/ --export | slotctl play",
    choices: &[
        WORLD_OF_CLIENTS,
        MOST_PARTICIPANTS,
        Choice {
            name: "k",
            takes: Takes::Number(1, 65_536, "4"),
            help: "the size of the pool, from 1 to 65536, or to 64 in the world tree; a smaller one that is there is widened, and a larger one is refused",
        },
        PROPOSAL_LIMIT,
        Choice {
            name: "admit",
            takes: Takes::Text("WHAT"),
            help: "widen: clients may widen the pool too; without this widen is refused 14",
        },
        Choice {
            name: "tokens",
            takes: Takes::Nothing,
            help: "take is answered got NUMBER TOKEN: a token is above all that the number ever had; put ID 0 is answered value TOKEN, with the next one",
        },
        Choice {
            name: "address",
            takes: Takes::TextOr("ADDRESS", "127.0.0.1"),
            help: "the address; whoever reaches another than this may say everything, unless identities have secrets (--owners); nothing is encrypted",
        },
        Choice {
            name: "port",
            takes: Takes::SomeNumber(0, 65_535),
            help: "the port, or 0 for one that is free, which is taken too where neither this nor --unix is given",
        },
        Choice {
            name: "unix",
            takes: Takes::Text("PATH"),
            help: "a socket of the file system, beside the port or without one; an old one on which nobody listens is replaced",
        },
        Choice {
            name: "mode",
            takes: Takes::TextOr("BITS", "660"),
            help: "the mode of that socket, in octal digits; whoever may write may connect",
        },
        Choice {
            name: "owners",
            takes: Takes::Nothing,
            help: "a secret of 22 to 64 letters, digits, - and _ may stand behind an identity, as take ID SECRET: then whoever lacks it cannot speak for that stay",
        },
        Choice {
            name: "admin",
            takes: Takes::Text("PATH"),
            help: "one more socket of the file system, of mode 600, at which with --owners every identity may be named",
        },
        Choice {
            name: "metrics",
            takes: Takes::SomeNumber(0, 65_535),
            help: "a port for Prometheus: /metrics, /healthz and /readyz, or 0 for one that is free",
        },
        Choice {
            name: "metrics-address",
            takes: Takes::TextOr("ADDRESS", "127.0.0.1"),
            help: "the address of that port",
        },
        Choice {
            name: "clients",
            takes: Takes::Number(1, 1_000_000, "10000"),
            help: "how many clients are served at once, from 1 to 1000000",
        },
        Choice {
            name: "idle",
            takes: Takes::SomeNumber(0, 31_536_000),
            help: "after how many seconds a client that says nothing is closed, or 0 for never; without this 30 with --hold connection, and else 600; \
                an empty line, answered bad 3, keeps it and adds nothing",
        },
        Choice {
            name: "hold",
            takes: Takes::TextOr("HOW", "forever"),
            help: "forever: a number is held until it is given back; connection: until the grace time after the connection that entered has ended",
        },
        Choice {
            name: "grace",
            takes: Takes::SomeNumber(1, 86_400),
            help: "how many seconds the grace time has, with --hold connection alone, which has 10 without this; after quit there is none",
        },
        Choice {
            name: "reads",
            takes: Takes::TextOr("HOW", "plain"),
            help: "plain: a get is answered and stored nowhere; logged: it is an event of the history, which ends at 1000000 events",
        },
        Choice {
            name: "journal",
            takes: Takes::Text("FILE"),
            help: "the file of the journal, which is there; without this the history ends with the program",
        },
        Choice {
            name: "new",
            takes: Takes::Nothing,
            help: "makes the file of the journal, where none is: for the first start alone, since all numbers are free then",
        },
        Choice {
            name: "etcd",
            takes: Takes::Text("MEMBERS"),
            help: "the members of etcd that hold the history in place of a journal, as 10.0.0.1:2379,10.0.0.2:2379 (no names are looked up)",
        },
        Choice {
            name: "prefix",
            takes: Takes::Text("NAME"),
            help: "what the keys of the history in etcd begin with; all servers of one hall have the same, and nobody else deletes any there",
        },
        Choice {
            name: "patience",
            takes: Takes::Number(1, 3_600, "10"),
            help: "for how many seconds clients wait while etcd does not answer, before they are closed",
        },
        Choice {
            name: "export",
            takes: Takes::Nothing,
            help: "writes the accepted events of the history in etcd as commands, and serves nobody",
        },
        Choice {
            name: "change-terms",
            takes: Takes::Nothing,
            help: "makes --hold and --grace those of the hall in etcd, and serves nobody; its servers end, and start again with these",
        },
        Choice {
            name: "verbose",
            takes: Takes::Nothing,
            help: "tells on standard error once a minute how many clients, events and bytes there are",
        },
        Choice {
            name: "log",
            takes: Takes::Text("FILE"),
            help: "appends to a file a line of JSON for each number taken or given back and each refusal 8, 9 or 10, \
                with the time and the peer; moved away it is made anew",
        },
        Choice {
            name: "pools",
            takes: Takes::Text("FILE"),
            help: "hosts the pools that a file lists: in each line NAME NUMBERS, and then nothing, forever, or the seconds of its grace time; clients \
                say pool NAME first, --k counts for none, and --journal and --log name folders, with a file for each pool",
        },
    ],
};

// `slotctl held`.
const HELD: Manual = Manual {
    name: "held",
    about: "Writes who holds numbers by the journal of the standard input",
    examples: "Examples:
  slotctl held < journal
  ssh machine cat /var/lib/slotctl/journal | slotctl held",
    choices: &[],
};

/// A subcommand.
#[derive(Clone, Copy)]
enum Subcommand {
    Play,
    Check,
    Migrate,
    Show,
    Draw,
    Race,
    Serve,
    Host,
    Held,
}

// The subcommands, in the order of the help.
const SUBCOMMANDS: &[Subcommand] = &[
    Subcommand::Play,
    Subcommand::Check,
    Subcommand::Migrate,
    Subcommand::Show,
    Subcommand::Draw,
    Subcommand::Race,
    Subcommand::Serve,
    Subcommand::Host,
    Subcommand::Held,
];

impl Subcommand {
    // What the help tells of it. There is no table of these tables, since in the proof of a table each of its texts is looked up among all.
    fn manual(self) -> Manual {
        match self {
            Subcommand::Play => PLAY,
            Subcommand::Check => CHECK,
            Subcommand::Migrate => MIGRATE,
            Subcommand::Show => SHOW,
            Subcommand::Draw => DRAW,
            Subcommand::Race => RACE,
            Subcommand::Serve => SERVE,
            Subcommand::Host => HOST,
            Subcommand::Held => HELD,
        }
    }
}

// An option with a text.
fn text_option<'a>(alloc: Global, name: &'a str, value: &'a str, help: &'a str) -> Arg<'a> {
    Arg::new(alloc, name)
        .long(name)
        .action(ArgAction::Set)
        .value_name(value)
        .help(help)
}

// An option with a text, and the text that it has where it is not given.
fn chosen_option<'a>(
    alloc: Global,
    name: &'a str,
    value: &'a str,
    default: &'a str,
    help: &'a str,
) -> Arg<'a> {
    text_option(alloc, name, value, help).default_value(default)
}

// An option with a number in this range, and a text of the number that it has where it is not given.
fn number_option<'a>(
    alloc: Global,
    name: &'a str,
    least: u64,
    most: u64,
    default: &'a str,
    help: &'a str,
) -> Arg<'a> {
    text_option(alloc, name, "NUMBER", help)
        .value_parser(ValueParser::unsigned(least, most))
        .default_value(default)
}

// An option with a number in this range, or none.
fn some_number_option<'a>(
    alloc: Global,
    name: &'a str,
    least: u64,
    most: u64,
    help: &'a str,
) -> Arg<'a> {
    text_option(alloc, name, "NUMBER", help).value_parser(ValueParser::unsigned(least, most))
}

// An option with a number in this range, which has to be given.
fn needed_option<'a>(
    alloc: Global,
    name: &'a str,
    least: u64,
    most: u64,
    help: &'a str,
) -> Arg<'a> {
    text_option(alloc, name, "NUMBER", help)
        .required(true)
        .value_parser(ValueParser::unsigned(least, most))
}

// An option with no value.
fn flag<'a>(alloc: Global, name: &'a str, help: &'a str) -> Arg<'a> {
    Arg::new(alloc, name)
        .long(name)
        .action(ArgAction::SetTrue)
        .help(help)
}

// An option of a subcommand, for clap.
fn option_of<'a>(alloc: Global, choice: Choice) -> Arg<'a> {
    let Choice { name, takes, help } = choice;
    match takes {
        Takes::Text(value) => text_option(alloc, name, value, help),
        Takes::TextOr(value, default) => chosen_option(alloc, name, value, default, help),
        Takes::Number(least, most, default) => {
            number_option(alloc, name, least, most, default, help)
        }
        Takes::SomeNumber(least, most) => some_number_option(alloc, name, least, most, help),
        Takes::Needed(least, most) => needed_option(alloc, name, least, most, help),
        Takes::Nothing => flag(alloc, name, help),
    }
}

// A subcommand with its options, for clap.
fn command_of<'a>(alloc: Global, manual: Manual) -> Result<Command<'a>, AllocError> {
    let mut command = Command::new(alloc, manual.name)
        .about(manual.about)
        .after_help(manual.examples);
    for choice in manual.choices {
        command = command.arg(option_of(alloc, *choice))?;
    }
    Ok(command)
}

// A program with these subcommands more, for clap.
fn with_subcommands<'a>(
    alloc: Global,
    mut program: Command<'a>,
    subcommands: &[Subcommand],
) -> Result<Command<'a>, AllocError> {
    for subcommand in subcommands {
        let command = command_of(alloc, subcommand.manual())?;
        program = program.subcommand(command)?;
    }
    Ok(program)
}

/// Returns the program with its subcommands, one of which has to be given.
///
/// # Errors
///
/// - `AllocError`: an allocation failed.
pub fn slotctl_command<'a>(alloc: Global) -> Result<Command<'a>, AllocError> {
    let program = Command::new(alloc, "slotctl")
        .version(VERSION)
        .about("Plays schedules of shared-memory algorithms, one access a step")
        .subcommand_required(true);
    with_subcommands(alloc, program, SUBCOMMANDS)
}
