//! Recursive renaming over words of Rust's own: the accesses that the proved program makes, in its order.

use crate::accesses::Accesses;
use std::sync::atomic::AtomicU64;

/// The words that all seats share: by level from the highest down, by instance, and by seat.
pub struct Words {
    seats: usize,
    words: Box<[AtomicU64]>,
}

impl Words {
    pub fn new(seats: usize) -> Words {
        let words = (0..seats * seats * seats).map(|_| AtomicU64::new(0)).collect();
        Words { seats, words }
    }

    /// The words of an instance, one for each seat.
    fn of_instance(&self, level: usize, first: usize) -> &[AtomicU64] {
        let above = self.seats - level;
        let slot = if first % 2 == 1 { first - 1 } else { 2 * self.seats - 1 - first };
        let start = (above * above + slot) * self.seats;
        &self.words[start..start + self.seats]
    }
}

/// One seat's program.
pub struct Renaming<'a, A> {
    pub words: &'a Words,
    pub by: A,
    pub seat: usize,
    pub identity: u64,
}

/// What a seat has read of the words of an instance.
struct Survey {
    seen: usize,
    is_greatest: bool,
}

impl<A: Accesses> Renaming<'_, A> {
    /// The name.
    #[inline(never)]
    pub fn name(&self) -> u64 {
        let (mut level, mut first) = (self.words.seats, 1);
        loop {
            let words = self.words.of_instance(level, first);
            self.by.store(&words[self.seat], self.identity);
            let survey = self.collect(words, level);
            let steps = 2 * (level - 1);
            if survey.seen == level {
                let last = if first % 2 == 1 { first + steps } else { first - steps };
                if survey.is_greatest {
                    return last as u64;
                }
                first = if first % 2 == 1 { last - 1 } else { last + 1 };
            }
            level -= 1;
        }
    }

    /// Reads the words until those that are left do not matter.
    fn collect(&self, words: &[AtomicU64], level: usize) -> Survey {
        let mut survey = Survey { seen: 0, is_greatest: true };
        for (seat, word) in words.iter().enumerate() {
            let identity = self.by.load(word);
            survey.seen += usize::from(identity != 0);
            survey.is_greatest &= (identity, seat) <= (self.identity, self.seat);
            if survey.seen == level || survey.seen + (words.len() - 1 - seat) < level {
                break;
            }
        }
        survey
    }
}
