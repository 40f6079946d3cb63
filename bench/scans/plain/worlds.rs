//! What answers commands: walks through a grid, or names and a pool.

use crate::commands::Command;
use crate::digits::put_number;
use crate::grid::{Door, Grid};
use crate::places::Places;
use crate::pool::Pool;
use crate::renaming::{Refusal, Renaming, Stage, Told};
use crate::replies::{put_done, put_line, put_refused, put_told, put_view};
use crate::roster::Roster;
use std::io::Write;

/// What answers commands, a line each. Where a run is recorded, the view by which a name is given is written behind it, as in a record.
pub trait World {
    const HAS_POOL: bool;

    fn answer<const RECORDED: bool>(&mut self, command: Command, out: &mut Vec<u8>);
}

/// Why so many at most, of whom these have begun, can't begin this one.
fn no_begin(roster: &Roster, most: usize, identity: u64) -> Result<(), u64> {
    if identity == 0 {
        return Err(1);
    }
    if roster.find(identity).is_some() {
        return Err(2);
    }
    if roster.len() == most {
        return Err(3);
    }
    Ok(())
}

/// A walk through a grid for each that has begun, and none at its end.
pub struct Doors {
    grid: Grid,
    roster: Roster,
    walks: Vec<Option<Door>>,
    most: usize,
}

impl Doors {
    pub fn new(most: usize) -> Self {
        Doors { grid: Grid::new(most), roster: Roster::new(most), walks: Vec::with_capacity(most), most }
    }
    fn begin(&mut self, identity: u64) -> Result<(), u64> {
        no_begin(&self.roster, self.most, identity)?;
        self.roster.push(identity);
        self.walks.push(Some(Grid::way()));
        Ok(())
    }
    #[inline(always)]
    fn step(&mut self, identity: u64) -> Result<Option<usize>, u64> {
        let walk = &mut self.walks[self.roster.find(identity).ok_or(4u64)?];
        let place = self.grid.place(walk.as_mut().ok_or(5u64)?, identity);
        if place.is_some() {
            *walk = None;
        }
        Ok(place)
    }
}

impl World for Doors {
    const HAS_POOL: bool = false;

    #[inline(always)]
    fn answer<const RECORDED: bool>(&mut self, command: Command, out: &mut Vec<u8>) {
        match command {
            Command::Begin(identity) => put_done(self.begin(identity), out),
            Command::Step(identity) => match self.step(identity) {
                Ok(None) => out.extend_from_slice(b"quiet\n"),
                Ok(Some(place)) => put_line(b"place ", place as u64, out),
                Err(number) => put_refused(number, out),
            },
            Command::Quit => out.extend_from_slice(b"ok\n"),
            _ => {}
        }
    }
}

/// Names over these places, and a pool.
pub struct Desk<P: Places> {
    pub pool: Pool,
    names: Renaming<P>,
    most: usize,
}

impl<P: Places> Desk<P> {
    pub fn new(most: usize, size: usize, limit: u64) -> Self {
        Desk { pool: Pool::new(size), names: Renaming::new(most, limit), most }
    }
    fn begin(&mut self, identity: u64) -> Result<(), u64> {
        no_begin(&self.names.snapshot.roster, self.most, identity)?;
        self.names.begin(identity);
        Ok(())
    }
    #[inline(always)]
    fn step<const RECORDED: bool>(&mut self, identity: u64, out: &mut Vec<u8>) {
        let Some(at) = self.names.snapshot.roster.find(identity) else {
            return put_refused(4, out);
        };
        match self.names.step(at) {
            Ok(Told::Quiet) => out.extend_from_slice(b"quiet\n"),
            Err(Refusal::Finished) => out.extend_from_slice(b"refused 5\n"),
            Err(Refusal::Spent) => out.extend_from_slice(b"refused 6\n"),
            Ok(told) => self.put_told::<RECORDED>(at, told, out),
        }
    }
    #[inline(never)]
    fn put_told<const RECORDED: bool>(&self, at: usize, told: Told, out: &mut Vec<u8>) {
        let snapshot = &self.names.snapshot;
        match told {
            Told::Quiet => {}
            Told::Spent => out.extend_from_slice(b"spent\n"),
            Told::Placed(place) => writeln!(out, "place {}", snapshot.places.number(place)).unwrap(),
            Told::Proposed(name) => put_line(b"proposed ", name, out),
            Told::Named(name) if RECORDED => {
                out.extend_from_slice(b"named ");
                put_number(name, out);
                out.extend_from_slice(b"\",\"view\":\"");
                put_view(snapshot.view(at), out);
            }
            Told::Named(name) => put_line(b"named ", name, out),
            Told::Saw => {
                out.extend_from_slice(b"saw ");
                put_view(snapshot.view(at), out);
            }
        }
    }
    fn owner(&self, name: u64, out: &mut Vec<u8>) {
        if name == 0 || 2 * self.most as u64 <= name {
            return put_refused(14, out);
        }
        let owns = |stage: Stage, proposal: u64| matches!(stage, Stage::Settled) && proposal == name;
        match self.names.rounds.iter().position(|round| owns(round.stage, round.proposal)) {
            Some(at) => put_line(b"owner ", self.names.snapshot.roster.identities[at], out),
            None => out.extend_from_slice(b"owner none\n"),
        }
    }
}

impl<P: Places> World for Desk<P> {
    const HAS_POOL: bool = true;

    #[inline(always)]
    fn answer<const RECORDED: bool>(&mut self, command: Command, out: &mut Vec<u8>) {
        match command {
            Command::Begin(identity) => put_done(self.begin(identity), out),
            Command::Step(identity) => self.step::<RECORDED>(identity, out),
            Command::Enter(identity) => put_done(self.pool.enter(identity), out),
            Command::Probe(identity) => match self.pool.probe(identity) {
                Ok(None) => out.extend_from_slice(b"missed\n"),
                Ok(Some(number)) => put_line(b"got ", number as u64, out),
                Err(number) => put_refused(number, out),
            },
            Command::Leave(identity) => put_told(b"left ", self.pool.leave(identity).map(|number| number as u64), out),
            Command::Put(identity, value) => put_done(self.pool.put(identity, value), out),
            Command::Get(identity) => put_told(b"value ", self.pool.held(identity).map(|number| self.pool.values[number]), out),
            Command::Widen(size) => put_done(self.pool.widen(size), out),
            Command::Owner(name) => self.owner(name, out),
            Command::Quit => out.extend_from_slice(b"ok\n"),
        }
    }
}
