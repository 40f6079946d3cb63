//! Renaming: a participant finds a place, and then proposes a name and looks at the proposals of all, until nobody else proposes its own.

use crate::places::Places;
use crate::snapshot::{Reply, Snapshot, View};

/// What a step tells. A view that was seen is that of the participant's last scan.
pub enum Told {
    Quiet,
    Placed(usize),
    Proposed(u64),
    Saw,
    Named(u64),
    Spent,
}

pub enum Refusal {
    Finished,
    Spent,
}

#[derive(Clone, Copy)]
pub enum Stage {
    Placing,
    Proposing,
    Looking,
    Settled,
    Over,
}

pub struct Round {
    pub proposal: u64,
    pub stage: Stage,
    count: u64,
}

pub struct Renaming<P: Places> {
    pub snapshot: Snapshot<P>,
    pub rounds: Vec<Round>,
    limit: u64,
}

impl<P: Places> Renaming<P> {
    pub fn new(m: usize, limit: u64) -> Self {
        Renaming { snapshot: Snapshot::new(m), rounds: Vec::with_capacity(m), limit }
    }
    /// So many of at most `m` that have begun, from identity 1 on.
    pub fn begun(m: usize, identities: u64) -> Self {
        let mut names = Renaming::new(m, 1000);
        for identity in 1..=identities {
            names.begin(identity);
        }
        names
    }
    pub fn begin(&mut self, identity: u64) {
        self.snapshot.begin(identity);
        self.rounds.push(Round { proposal: 0, stage: Stage::Placing, count: 0 });
    }
    /// Makes one access of a participant. `at` is where it stands.
    #[inline(always)]
    pub fn step(&mut self, at: usize) -> Result<Told, Refusal> {
        match self.snapshot.read_on(at) {
            true => Ok(Told::Quiet),
            false => self.step_slowly(at),
        }
    }
    #[inline(never)]
    fn step_slowly(&mut self, at: usize) -> Result<Told, Refusal> {
        let round = &mut self.rounds[at];
        Ok(match self.snapshot.step(at) {
            Reply::Quiet => Told::Quiet,
            Reply::Idle if matches!(round.stage, Stage::Over) => return Err(Refusal::Spent),
            Reply::Idle => return Err(Refusal::Finished),
            Reply::Placed(place) => {
                self.propose(at, 1);
                Told::Placed(place)
            }
            Reply::Written => {
                round.count += 1;
                round.stage = Stage::Looking;
                self.snapshot.scan(at);
                Told::Proposed(round.proposal)
            }
            Reply::Viewed => self.look(at),
        })
    }
    fn propose(&mut self, at: usize, name: u64) {
        self.rounds[at].proposal = name;
        self.rounds[at].stage = Stage::Proposing;
        self.snapshot.update(at, name);
    }
    /// Takes the name that it proposes, or proposes another, by the view that it has.
    fn look(&mut self, at: usize) -> Told {
        let identity = self.snapshot.roster.identities[at];
        let round = &mut self.rounds[at];
        let (rank, taken) = ranked(self.snapshot.view(at), identity);
        if taken >> round.proposal & 1 == 0 {
            round.stage = Stage::Settled;
            return Told::Named(round.proposal);
        }
        if self.limit <= round.count {
            round.stage = Stage::Over;
            return Told::Spent;
        }
        let mut free = !(taken | 1);
        for _ in 1..rank {
            free &= free - 1;
        }
        self.propose(at, u64::from(free.trailing_zeros()));
        Told::Saw
    }
}

/// The rank of an identity in a view, from 1 on, and the proposals of others as bits: none is above 127, since at most 64 propose.
fn ranked(view: &View, identity: u64) -> (usize, u128) {
    let rank = 1 + view.iter().take_while(|pair| pair.0 < identity).count();
    let others = view.iter().filter(|pair| pair.0 != identity);
    (rank, others.fold(0, |taken, pair| taken | 1 << pair.1))
}
