//! A line of numbers, whose tickets are handed out and come back.

use crate::error::Error;
use crate::kit::alloc::Global;
use crate::lock::Lock;
use crate::pool::MAX_NUMBERS;
use crate::proved::model_steps::refusal::Refusal;
use crate::proved::words_pool::held::Held;
use crate::proved::words_pool::line_pool::LinePool;
use crate::proved::words_pool::ticket::{Ticket, Tickets};
use std_alloc::vec::Vec;

/// Numbers from 1 on, and as many tickets. A ticket always gets a number.
pub(crate) struct Line {
    words: LinePool<Global>,
    desk: Lock<Desk>,
}

/// The tickets that nobody has.
struct Desk {
    fresh: Tickets,
    /// A ticket has no bytes, so giving one back allocates nothing.
    returned: Vec<Ticket>,
}

impl Line {
    pub(crate) fn new(capacity: usize) -> Result<Line, Error> {
        let (words, fresh) = match LinePool::new(Global, capacity as u64) {
            Ok(made) => made,
            Err(Refusal::OutOfRange) => {
                return Err(Error::Size {
                    asked: capacity,
                    most: MAX_NUMBERS,
                })
            }
            Err(_) => return Err(Error::NoMemory),
        };
        let returned = Vec::new();
        Ok(Line {
            words,
            desk: Lock::new(Desk { fresh, returned }),
        })
    }

    pub(crate) fn capacity(&self) -> usize {
        self.words.numbers() as usize
    }

    /// A ticket that nobody has.
    pub(crate) fn deal(&self) -> Result<Ticket, Error> {
        let dealt = self.desk.with(|desk| match desk.returned.pop() {
            Some(ticket) => Some(ticket),
            None => self.words.deal(&mut desk.fresh),
        });
        dealt.ok_or(Error::Forked)?.ok_or(Error::Full {
            most: self.capacity(),
        })
    }

    /// A number for a ticket of this line.
    pub(crate) fn acquire(&self, ticket: Ticket) -> Held {
        self.words.acquire(ticket)
    }

    /// The ticket, for a number of this line.
    pub(crate) fn release(&self, held: Held) -> Ticket {
        self.words.release(held)
    }

    /// Takes back a ticket of this line. In a forked child it may be lost, with its line.
    pub(crate) fn take_back(&self, ticket: Ticket) {
        self.desk.with(|desk| desk.returned.push(ticket));
    }
}
