//! What `bench/scans/run` counts: scans and updates of sixteen participants in turn, and whole games of sixteen.

use crate::grid::Grid;
use crate::renaming::Renaming;
use crate::snapshot::{Reply, Snapshot};
use std::hint::black_box;

const MANY: u64 = 16;

/// Steps of a participant to the end of what it does: how many.
fn finish(snapshot: &mut Snapshot<Grid>, identity: u64) -> u64 {
    let mut steps = 0;
    loop {
        let at = snapshot.roster.find(identity).unwrap();
        steps += 1;
        if !snapshot.read_on(at) && !matches!(snapshot.step(at), Reply::Quiet) {
            return steps;
        }
    }
}

fn written() -> Snapshot<Grid> {
    let mut snapshot = Snapshot::new(MANY as usize);
    for identity in 1..=MANY {
        snapshot.begin(identity);
        finish(&mut snapshot, identity);
    }
    updates_of(&mut snapshot, MANY);
    snapshot
}

fn updates_of(snapshot: &mut Snapshot<Grid>, turns: u64) -> u64 {
    let mut steps = 0;
    for turn in 0..turns {
        let identity = 1 + turn % MANY;
        let at = snapshot.roster.find(identity).unwrap();
        snapshot.update(at, turn);
        steps += finish(snapshot, identity);
    }
    steps
}

/// The steps of so many scans.
pub fn scans(turns: u64) -> u64 {
    let mut snapshot = written();
    let mut steps = 0;
    for turn in 0..turns {
        let identity = 1 + turn % MANY;
        let at = snapshot.roster.find(identity).unwrap();
        snapshot.scan(at);
        steps += finish(&mut snapshot, identity);
    }
    steps
}

/// The steps of so many updates.
pub fn updates(turns: u64) -> u64 {
    updates_of(&mut written(), turns)
}

/// The steps of a game until all have names, one step each in turn.
pub fn names() -> u64 {
    let mut names = Renaming::<Grid>::begun(MANY as usize, MANY);
    let mut steps = 0;
    loop {
        let before = steps;
        for identity in 1..=MANY {
            let at = names.snapshot.roster.find(identity).unwrap();
            let told = names.step(at);
            steps += u64::from(told.is_ok());
            let _ = black_box(told);
        }
        if steps == before {
            return steps;
        }
    }
}
