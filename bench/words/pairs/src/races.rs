//! Races of threads for names, and what a name takes.

use crate::accesses::{Accesses, Atomic, Held};
use crate::plain_names::{Renaming, Words};
use crate::proved_names::ProvedSeat;
use std::sync::atomic::{AtomicUsize, Ordering::SeqCst};
use std::sync::{Arc, Barrier, Mutex};
use std::time::Instant;

/// The most seats of each race's names.
const SEATS: usize = 64;

/// How many races there are of each kind in a turn, and how many turns.
const RACES: usize = 200;
const TURNS: usize = 11;

/// What names one thread of a race. It is called once, and dropped when the time is taken.
type Seat = Box<dyn FnMut() -> u64 + Send>;

/// A kind of names: what it is called, and the seats of a race for these identities.
type Kind = (&'static str, fn(&[u64]) -> Vec<Seat>);

const KINDS: [Kind; 4] =
    [("proved names", proved), ("plain words", plain), ("mutex held for a name", held), ("mutex held for each access", locked)];

fn proved(identities: &[u64]) -> Vec<Seat> {
    let seats = ProvedSeat::all(SEATS, identities).into_iter();
    seats.map(|mut seat| -> Seat { Box::new(move || seat.name()) }).collect()
}

/// The words of a race, and a mutex that not every kind takes.
type Shared = (Words, Mutex<()>);

/// The seats of a race over words of Rust's own, each of which is named so.
fn over(identities: &[u64], name: fn(&Shared, usize, u64) -> u64) -> Vec<Seat> {
    let shared = Arc::new((Words::new(SEATS), Mutex::new(())));
    let seats = identities.iter().copied().enumerate();
    seats
        .map(|(seat, identity)| -> Seat {
            let shared = Arc::clone(&shared);
            Box::new(move || name(&shared, seat, identity))
        })
        .collect()
}

fn rename<A: Accesses>(words: &Words, by: A, seat: usize, identity: u64) -> u64 {
    Renaming { words, by, seat, identity }.name()
}

fn plain(identities: &[u64]) -> Vec<Seat> {
    over(identities, |(words, _), seat, identity| rename(words, Atomic, seat, identity))
}

fn held(identities: &[u64]) -> Vec<Seat> {
    over(identities, |(words, mutex), seat, identity| {
        let _held = mutex.lock().unwrap();
        rename(words, Held, seat, identity)
    })
}

fn locked(identities: &[u64]) -> Vec<Seat> {
    over(identities, |(words, mutex), seat, identity| rename(words, mutex, seat, identity))
}

/// Waits until all threads are here, and has them go on at once.
fn meet(here: &AtomicUsize, all: usize) {
    here.fetch_add(1, SeqCst);
    while here.load(SeqCst) < all {
        std::thread::yield_now();
    }
}

/// What a thread of a race does: its name, and nanoseconds until it had it.
fn run(seat: &mut Seat, here: &AtomicUsize, threads: usize) -> (u64, u64) {
    meet(here, threads);
    let from = Instant::now();
    let name = seat();
    (name, from.elapsed().as_nanos() as u64)
}

/// Identities of 64 bits, which differ from race to race.
fn identities(race: usize, threads: usize) -> Vec<u64> {
    let first = (race * threads) as u64;
    (first..).map(|number| (number + 1).wrapping_mul(0x9E37_79B9_7F4A_7C15)).take(threads).collect()
}

/// What each thread of some races took, in nanoseconds.
fn race(kind: &Kind, threads: usize) -> Vec<u64> {
    let seats: Vec<Mutex<Option<Seat>>> = (0..threads).map(|_| Mutex::new(None)).collect();
    let told: Vec<Mutex<(u64, u64)>> = (0..threads).map(|_| Mutex::new((0, 0))).collect();
    let (begin, end) = (Barrier::new(threads + 1), Barrier::new(threads + 1));
    let here = AtomicUsize::new(0);
    let mut times = Vec::new();
    std::thread::scope(|scope| {
        for (seat, told) in seats.iter().zip(&told) {
            let (begin, end, here) = (&begin, &end, &here);
            scope.spawn(move || {
                for race in 1..=RACES {
                    begin.wait();
                    let mut seat = seat.lock().unwrap().take().expect("it is dealt");
                    *told.lock().unwrap() = run(&mut seat, here, race * threads);
                    end.wait();
                }
            });
        }
        for number in 0..RACES {
            let dealt = (kind.1)(&identities(number, threads));
            for (seat, dealt) in seats.iter().zip(dealt) {
                *seat.lock().unwrap() = Some(dealt);
            }
            begin.wait();
            end.wait();
            let told: Vec<(u64, u64)> = told.iter().map(|told| *told.lock().unwrap()).collect();
            let mut names: Vec<u64> = told.iter().map(|told| told.0).collect();
            names.sort_unstable();
            names.dedup();
            assert!(names.len() == threads && names[0] > 0 && names[threads - 1] < 2 * threads as u64, "{names:?}");
            times.extend(told.iter().map(|told| told.1));
        }
    });
    times
}

fn median(mut times: Vec<u64>) -> u64 {
    times.sort_unstable();
    times[times.len() / 2]
}

/// How many threads race at once.
const THREADS: [usize; 4] = [1, 4, 16, 64];

/// What a thread takes for a name: the median of each turn, by kind and by how many threads race.
type Medians = [[[u64; TURNS]; THREADS.len()]; KINDS.len()];

/// Each kind races in turn.
fn medians() -> Medians {
    let mut medians = [[[0; TURNS]; THREADS.len()]; KINDS.len()];
    for turn in 0..TURNS {
        for (column, threads) in THREADS.iter().enumerate() {
            for (row, kind) in KINDS.iter().enumerate() {
                medians[row][column][turn] = median(race(kind, *threads));
            }
        }
    }
    medians
}

/// The median of one kind's times over another's of the same turns, so that both had the machine as it was then.
fn ratio(over: &[u64; TURNS], under: &[u64; TURNS]) -> f64 {
    let mut ratios: Vec<f64> = over.iter().zip(under).map(|(over, under)| *over as f64 / *under as f64).collect();
    ratios.sort_by(f64::total_cmp);
    ratios[TURNS / 2]
}

/// Prints a table: nanoseconds of wall time that a thread takes for a name, the least median of the turns, and the proved names' over
/// plain words'.
pub fn names() {
    let medians = medians();
    println!("{:<32}{}", "nanoseconds a name", THREADS.map(|threads| format!("{threads:>8}")).concat());
    for (kind, times) in KINDS.iter().zip(&medians) {
        println!("{:<32}{}", kind.0, times.map(|turns| format!("{:>8}", turns.iter().min().expect("there are turns"))).concat());
    }
    let over: [f64; THREADS.len()] = std::array::from_fn(|column| ratio(&medians[0][column], &medians[1][column]));
    println!("{:<32}{}", "proved over plain", over.map(|ratio| format!("{ratio:>8.2}")).concat());
}
