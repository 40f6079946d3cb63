//! Drawn runs, as `slotctl draw --runs` writes them.

use crate::places::Places;
use crate::renaming::{Renaming, Told};
use std::io::{self, Write};

/// The generator `Lcg64Xsh32`.
struct Words {
    state: u64,
    increment: u64,
}

impl Words {
    const FACTOR: u64 = 6364136223846793005;

    /// A permuted word of a state.
    fn output(state: u64) -> u32 {
        ((((state >> 18) ^ state) >> 27) as u32).rotate_right((state >> 59) as u32)
    }
    /// As `seed_from_u64`: another such generator draws the state and the increment.
    fn of_seed(seed: u64) -> Self {
        let mut state = seed;
        let mut drawn = || {
            state = state.wrapping_mul(Self::FACTOR).wrapping_add(11634580027462260723);
            u64::from(Self::output(state))
        };
        let first = drawn() | drawn() << 32;
        let increment = drawn() | drawn() << 32 | 1;
        let mut words = Words { state: first.wrapping_add(increment), increment };
        words.next();
        words
    }
    #[inline(always)]
    fn next(&mut self) -> u32 {
        let old = self.state;
        self.state = old.wrapping_mul(Self::FACTOR).wrapping_add(self.increment);
        Self::output(old)
    }
}

/// A run of so many drawn steps of the identities from 1 on: how many were named and were spent.
fn drawn<P: Places>(seed: u64, identities: u64, m: usize, steps: u64) -> (u64, u64) {
    let mut names = Renaming::<P>::begun(m, identities);
    let (mut named, mut spent) = (0, 0);
    let mut words = Words::of_seed(seed);
    for _ in 0..steps {
        // They stand in the order of their identities.
        let at = u64::from(words.next()) % identities;
        match names.step(at as usize) {
            Ok(Told::Named(_)) => named += 1,
            Ok(Told::Spent) => spent += 1,
            _ => {}
        }
    }
    (named, spent)
}

/// Writes the lines of drawn runs, where these words tell how many and of what.
pub fn draws<P: Places>(told: impl Fn(&str) -> u64) {
    let mut out = io::BufWriter::new(io::stdout().lock());
    let identities = told("--ids");
    for run in 0..told("--runs") {
        let (named, spent) = drawn::<P>(told("--seed") + run, identities, told("--m") as usize, told("--steps"));
        writeln!(out, "run {run} begun {identities} named {named} spent {spent}").unwrap();
    }
}
