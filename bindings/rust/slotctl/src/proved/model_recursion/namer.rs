// Erased by bindings/rust/erase from crates/model_recursion/src/namer.rt, sha256 8f143801a0e43e39c056aeafa4459df08bc97539e210cf836b538a69fe7d6665.
//! A seat's program.

use crate::proved::model_steps::access::{Access, Answer};
use crate::proved::model_steps::note::Note;
use crate::proved::model_steps::program::StepProgram;

/// Which word: of a level, of the instance there that begins with a first name, of a seat.
#[derive(Clone, Copy, Debug, PartialEq, Eq)]
pub struct Cell {
    /// The level.
    pub level: u8,
    /// The first name of the instance.
    pub first: u16,
    /// The seat.
    pub seat: u8,
}

/// How far a seat has read the words of its instance.
#[derive(Clone, Copy, Debug, PartialEq, Eq)]
pub struct Survey {
    /// The seat whose word it reads next.
    pub at: u8,
    /// How many words were not 0.
    pub seen: u8,
    /// Whether one of these comes after its own.
    pub greater: bool,
}

impl Survey {
    /// Returns the survey that begins with the word of seat 1.
    #[inline(always)]
    pub fn first() -> Survey {
        Survey {
            at: 1,
            seen: 0,
            greater: false,
        }
    }
}

/// What a seat does next at its instance.
#[derive(Clone, Copy, Debug, PartialEq, Eq)]
pub enum Doing {
    /// It writes its identity into its word.
    Writes,
    /// It reads the words of the seats, one after another.
    Reads,
    /// It has its name.
    Rests,
}

/// Returns the last name of an instance.
#[inline(always)]
pub fn last_name(level: u8, first: u16) -> u16 {
    let steps = 2 * u16::from(level.saturating_sub(1));
    if first % 2 == 1 {
        first.saturating_add(steps)
    } else {
        first.saturating_sub(steps)
    }
}

/// Returns the first name of the instance to which those turn that are full at one.
#[inline(always)]
pub fn turned_first(level: u8, first: u16) -> u16 {
    let steps = (2 * u16::from(level.saturating_sub(1))).saturating_sub(1);
    if first % 2 == 1 {
        first.saturating_add(steps)
    } else {
        first.saturating_sub(steps)
    }
}

/// The program of one seat.
#[derive(Clone, Copy, Debug, PartialEq, Eq)]
pub struct Namer {
    /// How many seats there are: they have the numbers from 1 on.
    pub most: u8,
    /// The seat, which says which word of an instance is its own.
    pub seat: u8,
    /// The identity that it writes there.
    pub identity: u64,
    /// The level of its instance.
    pub level: u8,
    /// The first name of its instance.
    pub first: u16,
    /// What it does next there.
    pub doing: Doing,
    /// How far it has read there, while it reads.
    pub survey: Survey,
    /// Its name, once it has one.
    pub name: u16,
}

impl Namer {
    /// Makes the program of a seat that begins for an identity.
    pub fn new(most: u8, seat: u8, identity: u64) -> Namer {
        Namer {
            most,
            seat,
            identity,
            level: most,
            first: 1,
            doing: Doing::Writes,
            survey: Survey::first(),
            name: 0,
        }
    }

    /// Returns the word of a seat at its instance.
    #[inline(always)]
    pub fn cell(&self, seat: u8) -> Cell {
        Cell {
            level: self.level,
            first: self.first,
            seat,
        }
    }

    /// Returns whether a seat with this word comes after its own: by their identities, and by their numbers if the
    /// identities are equal.
    #[inline(always)]
    fn is_before(&self, seat: u8, word: u64) -> bool {
        self.identity < word || (self.identity == word && self.seat < seat)
    }

    /// Returns its survey with one word counted.
    #[inline(always)]
    fn surveying(&self, word: u64) -> Survey {
        let Survey { at, seen, greater } = self.survey;
        if word == 0 {
            return Survey { at, seen, greater };
        }
        Survey {
            at,
            seen: seen.saturating_add(1),
            greater: greater || self.is_before(at, word),
        }
    }

    /// Returns whether the words that it has not read decide whether it is full.
    #[inline(always)]
    fn is_open(&self, survey: Survey) -> bool {
        let rest = u16::from(self.most.saturating_sub(survey.at));
        survey.seen < self.level && u16::from(self.level) <= u16::from(survey.seen) + rest
    }

    /// Goes to the next level, to the instance with this first name.
    #[inline(always)]
    fn descend(&mut self, first: u16) {
        self.level = self.level.saturating_sub(1);
        self.first = first;
        self.doing = Doing::Writes;
    }

    /// Goes on after it has read as many words as decide.
    #[inline(always)]
    fn decide(&mut self, survey: Survey) {
        if survey.seen < self.level {
            self.descend(self.first);
        } else if survey.greater {
            self.descend(turned_first(self.level, self.first));
        } else {
            self.name = last_name(self.level, self.first);
            self.doing = Doing::Rests;
        }
    }

    /// Goes on after it has read one word more.
    #[inline(always)]
    fn read_on(&mut self, survey: Survey) {
        if self.is_open(survey) {
            self.doing = Doing::Reads;
            self.survey = Survey {
                at: survey.at.saturating_add(1),
                seen: survey.seen,
                greater: survey.greater,
            };
        } else {
            self.decide(survey);
        }
    }
}

impl StepProgram for Namer {
    type Reg = Cell;

    type Value = u64;

    type Output = u16;

    #[inline(always)]
    fn next(&self) -> Access<Cell, u64> {
        match self.doing {
            Doing::Writes => Access::Write(self.cell(self.seat), self.identity),
            Doing::Reads => Access::Read(self.cell(self.survey.at)),
            Doing::Rests => Access::Nothing,
        }
    }

    #[inline(always)]
    fn resume(&mut self, got: Answer<u64>) -> Note<u16> {
        let word = match got {
            Answer::Value(value) => value,
            _ => 0,
        };
        match self.doing {
            Doing::Writes => {
                self.survey = Survey::first();
                self.doing = Doing::Reads;
            }
            Doing::Reads => self.read_on(self.surveying(word)),
            Doing::Rests => {}
        }
        match self.doing {
            Doing::Rests => Note::Ended(self.name),
            _ => Note::Quiet,
        }
    }
}
