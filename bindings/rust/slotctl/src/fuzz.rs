//! Drawn bytes over `play`, `check` and the lines of `host`: for a second, or for as many as `SLOTCTL_FUZZ_SECONDS` says.
//!
//! Whatever the bytes are, and however they are cut: nothing panics, what is played in pieces is what is played at once,
//! what is recorded is judged as a run, and a connection of `host` gets the replies of `play`.

use crate::kit::alloc::Global;
use crate::kit::io::{self, Read, Write};
use crate::kit::HostRuntime;
use crate::proved::model_asked::config::Config;
use crate::proved::model_asked::kind::WorldKind;
use crate::proved::model_pool::stays::stays::Stays;
use crate::proved::service_hall::compactor::Compactor;
use crate::proved::service_hall::hall::Hall;
use crate::proved::service_hall::reads::Reads;
use crate::proved::service_hall::rules::Rules;
use crate::proved::service_host::persisters::Unrecorded;
use crate::proved::service_host::reading::Reading;
use crate::proved::service_loop::answering::answer_queries;
use crate::proved::service_loop::attended::Attended;
use crate::proved::service_loop::audit::Audit;
use crate::proved::service_loop::buffers::Buffers;
use crate::proved::service_loop::connection::{Connection, ConnectionStage};
use crate::proved::service_loop::first_point::FirstPoint;
use crate::proved::service_loop::manner::Manner;
use crate::proved::service_loop::shared::SharedBuffers;
use crate::proved::service_loop::stream::Stream;
use crate::proved::service_loop::taking::serve_takings;
use crate::proved::service_loop::terms::Terms;
use crate::proved::service_loop::turns::iterate;
use crate::proved::text_lines::sink::Sink;
use crate::proved::text_player::source::Source;
use crate::proved::text_worlds::playing::play;
use crate::proved::text_worlds::recording::record;
use crate::proved::tool_work::checking::check_for;
use std::time::{Duration, Instant};

/// Numbers that are drawn (xorshift64*).
struct Drawn(u64);

impl Drawn {
    fn below(&mut self, bound: usize) -> usize {
        self.0 ^= self.0 >> 12;
        self.0 ^= self.0 << 25;
        self.0 ^= self.0 >> 27;
        (self.0.wrapping_mul(0x2545_f491_4f6c_dd1d) >> 33) as usize % bound
    }

    fn of<'t, T>(&mut self, items: &'t [T]) -> &'t T {
        &items[self.below(items.len())]
    }
}

/// Bytes that come in pieces, and those that were written.
struct Pipe {
    input: Vec<u8>,
    at: usize,
    pieces: Drawn,
    most: usize,
    output: Vec<u8>,
}

impl Pipe {
    fn new(input: &[u8], pieces: u64, most: usize) -> Pipe {
        Pipe {
            input: input.to_vec(),
            at: 0,
            pieces: Drawn(pieces),
            most,
            output: Vec::new(),
        }
    }
}

impl Read for Pipe {
    fn read(&mut self, bytes: &mut [u8]) -> io::Result<usize> {
        let left = &self.input[self.at..];
        let most = left
            .len()
            .min(bytes.len())
            .min(1 + self.pieces.below(self.most));
        bytes[..most].copy_from_slice(&left[..most]);
        self.at += most;
        Ok(most)
    }
}

impl Write for Pipe {
    fn write(&mut self, bytes: &[u8]) -> io::Result<usize> {
        let most = bytes.len().min(1 + self.pieces.below(self.most));
        self.output.extend_from_slice(&bytes[..most]);
        Ok(most)
    }

    fn flush(&mut self) -> io::Result<()> {
        Ok(())
    }
}

impl Source for Pipe {
    fn read_once(&mut self, bytes: &mut [u8]) -> io::Result<usize> {
        self.read(bytes)
    }
}

impl Sink for Pipe {
    fn write_once(&mut self, bytes: &[u8]) -> io::Result<usize> {
        self.write(bytes)
    }
}

/// A connection that often has nothing to read and no room.
impl Stream for Pipe {
    fn read_some(&mut self, bytes: &mut [u8]) -> io::Result<usize> {
        match self.pieces.below(4) {
            0 => Err(io::ErrorKind::WouldBlock.into()),
            1 => Err(io::ErrorKind::Interrupted.into()),
            _ => self.read(bytes),
        }
    }

    fn write_some(&mut self, bytes: &[u8]) -> io::Result<usize> {
        match self.pieces.below(4) {
            0 => Err(io::ErrorKind::WouldBlock.into()),
            _ => self.write(bytes),
        }
    }
}

const WORDS: &[&str] = &[
    "begin 10\n",
    "begin 20\n",
    "begin 30\n",
    "step 10\n",
    "step 20\n",
    "step 30\n",
    "step 10\nstep 20\nstep 10\n",
    "enter 5\n",
    "enter 6\n",
    "probe 5\n",
    "probe 6\n",
    "put 5 18446744073709551615\n",
    "get 5\n",
    "leave 5\n",
    "leave 6\n",
    "owner 1\n",
    "owner 0\n",
    "widen 2\n",
    "quit\n",
    "\n",
    " ",
    "\r\n",
    "step",
    "18446744073709551616",
    "00",
    "-1",
    "\t",
    "\u{e9}",
];

/// Lines that `host` answers, and that `play` does not know.
const ASKED: &[&str] = &["held\n", "held 5\n", "take 7\n", "terms\n"];

const TERMS: Terms = Terms {
    grace: None,
    idle: Some(600),
};

/// Lines, some of them damaged; in half of the cases some that `play` does not know.
fn drawn_lines(drawn: &mut Drawn) -> Vec<u8> {
    let mut bytes = Vec::new();
    let asks = drawn.below(2) == 0;
    for _ in 0..drawn.below(120) {
        let words = if asks && drawn.below(8) == 0 {
            ASKED
        } else {
            WORDS
        };
        bytes.extend_from_slice(drawn.of(words).as_bytes());
    }
    damage(drawn, &mut bytes);
    bytes
}

/// Changes some bytes, takes some out, doubles some and cuts the rest.
fn damage(drawn: &mut Drawn, bytes: &mut Vec<u8>) {
    for _ in 0..drawn.below(5) {
        let at = drawn.below(bytes.len() + 1);
        let few = (bytes.len() - at).min(1 + drawn.below(40));
        match drawn.below(6) {
            0 => bytes.truncate(at),
            1 => drop(bytes.drain(at..at + few)),
            2 => drop(bytes.splice(at..at, bytes[at..at + few].to_vec())),
            3 => bytes.insert(at, drawn.below(256) as u8),
            _ if few > 0 => bytes[at] = *drawn.of(b" \n\0\xff{}[]\":,\\0123456789eE+-."),
            _ => {}
        }
    }
}

fn drawn_config(drawn: &mut Drawn, worlds: &[WorldKind]) -> Config {
    let (m, k) = (1 + drawn.below(4), 1 + drawn.below(4));
    match Config::new(
        *drawn.of(worlds),
        m as u64,
        k as u64,
        *drawn.of(&[1, 3, 1000]),
    ) {
        Ok(config) => config,
        Err(_) => unreachable!("each is in its range"),
    }
}

fn played(config: Config, bytes: &[u8], pieces: u64, most: usize) -> Vec<u8> {
    let mut reader = Pipe::new(bytes, pieces, most);
    let mut writer = Pipe::new(&[], pieces, most);
    assert!(play(Global, &mut reader, &mut writer, config).is_ok());
    writer.output
}

fn recorded(config: Config, bytes: &[u8]) -> Vec<u8> {
    let mut writer = Pipe::new(&[], 1, 1 << 20);
    let mut reader = Pipe::new(bytes, 1, 1 << 20);
    assert!(record(Global, &mut reader, &mut writer, config).is_ok());
    writer.output
}

fn judged(bytes: &[u8], pieces: u64, most: usize) -> Vec<u8> {
    let mut writer = Pipe::new(&[], 1, 1 << 20);
    let mut reader = Pipe::new(bytes, pieces, most);
    assert!(check_for(Global, &mut reader, &mut writer).is_ok());
    writer.output
}

/// What a connection of `host` gets.
fn hosted(config: Config, bytes: &[u8], pieces: u64, most: usize) -> Vec<u8> {
    let made = (
        Hall::new(Global, config),
        SharedBuffers::new(Global),
        Buffers::new(Global, config.world),
    );
    let (Ok(hall), Ok(mut shared), Ok(buffers)) = made else {
        unreachable!("there is memory");
    };
    let reading = Reading {
        service: hall,
        rules: Rules::all(Reads::Logged),
    };
    let mut service = Attended::new(
        Global,
        reading,
        Stays::new(Global),
        false,
        Audit::new(Global, true),
    );
    let mut persister = Unrecorded {
        alloc: Global,
        compactor: Compactor::new(),
        compactions: 0,
    };
    let mut seats = [Some(Connection::new(
        Pipe::new(bytes, pieces, most),
        buffers,
        0,
    ))];
    loop {
        let Some(connection) = &mut seats[0] else {
            unreachable!("its seat stays");
        };
        if connection.is_done() {
            return std::mem::take(&mut connection.stream.output);
        }
        (connection.readable, connection.writable, connection.stage) =
            (true, true, ConnectionStage::Queued);
        shared.share_among(1);
        let served = iterate(
            &HostRuntime,
            &mut service,
            &mut persister,
            &mut shared,
            &mut seats,
            &[1],
            &[0],
        );
        assert!(matches!(served, Ok(1)));
        if shared.waits {
            let taken = serve_takings(
                &HostRuntime,
                &mut service,
                &mut persister,
                &mut shared,
                &mut seats,
                &[1],
                &[0],
                Manner {
                    wide: false,
                    tokens: false,
                },
                false,
            );
            assert!(taken.is_ok());
            answer_queries(
                &service.service,
                &persister,
                TERMS,
                &service.changes,
                &FirstPoint::new(1),
                &mut shared,
                &mut seats,
                &[0],
            );
        }
    }
}

fn text(bytes: &[u8]) -> String {
    String::from_utf8_lossy(bytes).into_owned()
}

/// One case: of a seed, which a failure shows.
fn run(seed: u64) {
    let drawn = &mut Drawn(seed.wrapping_mul(0x9e37_79b9_7f4a_7c15) | 1);
    let pieces = 1 + drawn.below(1000) as u64;
    let most = *drawn.of(&[1, 2, 7, 64, 5000]);
    let lines = drawn_lines(drawn);
    let any = drawn_config(
        drawn,
        &[
            WorldKind::Splitter,
            WorldKind::Grid,
            WorldKind::Rename,
            WorldKind::Tree,
        ],
    );
    let whole = played(any, &lines, 1, 1 << 20);
    assert_eq!(
        text(&played(any, &lines, pieces, most)),
        text(&whole),
        "seed {seed}, in pieces"
    );
    let config = drawn_config(drawn, &[WorldKind::Rename, WorldKind::Tree]);
    let mut record = recorded(config, &lines);
    assert_eq!(
        text(&judged(&record, pieces, most)),
        "yes\n",
        "seed {seed}, its record"
    );
    damage(drawn, &mut record);
    let verdict = judged(&record, 1, 1 << 20);
    assert_eq!(
        text(&judged(&record, pieces, most)),
        text(&verdict),
        "seed {seed}, a damaged record in pieces"
    );
    let replies = hosted(config, &lines, pieces, most);
    let told = text(&lines);
    if !["held", "take", "terms"]
        .iter()
        .any(|word| told.contains(word))
    {
        // A line that was cut is acted on by nobody.
        let whole = lines
            .iter()
            .rposition(|byte| *byte == b'\n')
            .map_or(0, |at| at + 1);
        let wanted = played(config, &lines[..whole], 1, 1 << 20);
        assert_eq!(text(&replies), text(&wanted), "seed {seed}, hosted");
    }
}

#[test]
fn drawn_bytes() {
    let seconds =
        std::env::var("SLOTCTL_FUZZ_SECONDS").map_or(1, |word| word.parse().expect("seconds"));
    let began = Instant::now();
    let mut seed = 0;
    while began.elapsed() < Duration::from_secs(seconds) {
        run(seed);
        seed += 1;
    }
    println!("{seed} cases");
}
