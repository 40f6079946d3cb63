//! search all B              every order in which B participants can act, for B up to 5
//! search greedy B PLAYS     what a greedy adversary finds for B up to 16: each action is the one from which the best of so many
//!                           random ends makes the most proposals
//!
//! The rounds of renaming, one action a time. A participant that has a number to propose writes it; else it scans, and its view is
//! the memory. Where another proposes the same, its next number is the r-th that no other proposes, r its rank; else it is named.
//! An adversary picks who acts, to have as many proposals as it can.
//!
//! It prints how many states were met, the most proposals of one and of all together, and who acts in the run with the most:
//! participants count from 1, by rising identity.
use std::collections::HashMap;
use std::env::args;

const MOST: usize = 16;

#[derive(Clone, Copy, PartialEq, Eq, Hash)]
enum Next {
    Write(u8),
    Scan,
    Done,
}

/// What each participant proposes, 0 at first, and what it does next.
#[derive(Clone, Copy, PartialEq, Eq, Hash)]
struct State {
    proposals: [u8; MOST],
    next: [Next; MOST],
}

impl State {
    fn new(many: usize) -> State {
        let mut next = [Next::Done; MOST];
        next[..many].fill(Next::Write(1));
        State {
            proposals: [0; MOST],
            next,
        }
    }

    fn is_contested(&self, who: usize) -> bool {
        (0..MOST).any(|other| other != who && self.proposals[other] == self.proposals[who])
    }

    fn next_proposal(&self, who: usize) -> u8 {
        let mut left = self.proposals[..=who].iter().filter(|&&number| number != 0).count();
        let mut number = 0;
        while left > 0 {
            number += 1;
            if !(0..MOST).any(|other| other != who && self.proposals[other] == number) {
                left -= 1;
            }
        }
        number
    }

    /// One action of a participant that is not done; whether it was a proposal.
    fn act(&mut self, who: usize) -> bool {
        if let Next::Write(number) = self.next[who] {
            self.proposals[who] = number;
            self.next[who] = Next::Scan;
            return true;
        }
        self.next[who] = if self.is_contested(who) {
            Next::Write(self.next_proposal(who))
        } else {
            Next::Done
        };
        false
    }

    fn moves(&self) -> Vec<usize> {
        (0..MOST).filter(|&who| self.next[who] != Next::Done).collect()
    }

    /// Those moves by which nobody is named, where there are any.
    fn moves_of_an_adversary(&self) -> Vec<usize> {
        let all = self.moves();
        let on: Vec<usize> = all
            .iter()
            .copied()
            .filter(|&who| self.next[who] != Next::Scan || self.is_contested(who))
            .collect();
        if on.is_empty() {
            all
        } else {
            on
        }
    }
}

/// The most proposals from a state on, of each and of all; none while its own moves are tried.
struct Search {
    most: HashMap<State, Option<[u32; MOST + 1]>>,
}

impl Search {
    fn most_from(&mut self, state: State) -> [u32; MOST + 1] {
        if let Some(known) = self.most.get(&state) {
            return known.expect("no run comes back to a state");
        }
        self.most.insert(state, None);
        let mut best = [0; MOST + 1];
        for who in state.moves() {
            let mut after = state;
            let wrote = after.act(who) as u32;
            let more = self.most_from(after);
            for (place, most) in best.iter_mut().enumerate() {
                let own = if place == who || place == MOST { wrote } else { 0 };
                *most = (*most).max(more[place] + own);
            }
        }
        self.most.insert(state, Some(best));
        best
    }

    /// Who acts in a run with as many proposals of all as there can be.
    fn longest(&mut self, mut state: State) -> Vec<usize> {
        let mut run = Vec::new();
        let mut left = self.most_from(state)[MOST];
        while !state.moves().is_empty() {
            for who in state.moves() {
                let mut after = state;
                let wrote = after.act(who) as u32;
                if self.most_from(after)[MOST] + wrote == left {
                    run.push(who);
                    left -= wrote;
                    state = after;
                    break;
                }
            }
        }
        run
    }
}

/// Numbers that look random (xorshift).
struct Chance(u64);

impl Chance {
    fn below(&mut self, most: usize) -> usize {
        self.0 ^= self.0 << 13;
        self.0 ^= self.0 >> 7;
        self.0 ^= self.0 << 17;
        (self.0 >> 11) as usize % most
    }
}

/// A random end of a run: who acts.
fn random_end(mut state: State, chance: &mut Chance) -> (u32, Vec<usize>) {
    let (mut count, mut run) = (0, Vec::new());
    loop {
        let moves = state.moves_of_an_adversary();
        if moves.is_empty() {
            return (count, run);
        }
        let who = moves[chance.below(moves.len())];
        count += state.act(who) as u32;
        run.push(who);
    }
}

fn greedy(many: usize, plays: usize) -> Vec<usize> {
    let mut chance = Chance(0x9E37_79B9_7F4A_7C15 ^ many as u64);
    let (mut state, mut made, mut run) = (State::new(many), 0, Vec::new());
    let (mut best, mut best_run) = (0, Vec::new());
    loop {
        let moves = state.moves_of_an_adversary();
        if moves.is_empty() {
            return best_run;
        }
        for who in moves {
            let mut after = state;
            let wrote = after.act(who) as u32;
            for _ in 0..plays {
                let (count, end) = random_end(after, &mut chance);
                if made + wrote + count > best {
                    best = made + wrote + count;
                    best_run = [&run[..], &[who], &end].concat();
                }
            }
        }
        // On along the best run that was met.
        let who = best_run[run.len()];
        made += state.act(who) as u32;
        run.push(who);
    }
}

fn main() {
    let words: Vec<String> = args().skip(1).collect();
    let many: usize = words[1].parse().expect("how many participants");
    let (states, run) = match words[0].as_str() {
        "all" => {
            let mut search = Search { most: HashMap::new() };
            let most = search.most_from(State::new(many));
            println!("one {}", most[..MOST].iter().max().expect("there are participants"));
            (search.most.len(), search.longest(State::new(many)))
        }
        "greedy" => (0, greedy(many, words[2].parse().expect("how many random ends"))),
        other => panic!("{other} is neither all nor greedy"),
    };
    let (mut state, mut made) = (State::new(many), [0; MOST]);
    for &who in &run {
        made[who] += state.act(who) as u32;
    }
    if states > 0 {
        println!("states {states}");
    } else {
        println!("one {}", made.iter().max().expect("there are participants"));
    }
    println!("all {}", made.iter().sum::<u32>());
    println!(
        "run {}",
        run.iter().map(|who| (who + 1).to_string()).collect::<Vec<_>>().join(" ")
    );
}
