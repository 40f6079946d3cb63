//! The erased code in the form of the C library: a handle for each thread, which holds one number at most.

use crate::kit::alloc::Global;
use crate::proved::words_machine::grid::seats::{FreshGridSeat, GridDealer};
use crate::proved::words_machine::grid::word_grid::WordGrid;
use crate::proved::words_names::names::Names;
use crate::proved::words_names::seats::{FreshNameSeat, NameDealer};
use crate::proved::words_pool::held::Held;
use crate::proved::words_pool::line_pool::LinePool;
use crate::proved::words_pool::ticket::{Ticket, Tickets};
use crate::proved::words_pool::word_pool::WordPool;
use std::num::NonZeroUsize;
use std::sync::Arc;

fn number(held: &Held) -> Option<NonZeroUsize> {
    NonZeroUsize::new(held.number() as usize)
}

/// A part in a pool.
pub(crate) struct Member {
    pool: Arc<WordPool<Global>>,
    held: Option<Held>,
}

impl Member {
    pub(crate) fn first(size: usize) -> Option<Member> {
        let pool = Arc::new(WordPool::new(Global, size as u64).ok()?);
        Some(Member { pool, held: None })
    }

    pub(crate) fn join(&mut self) -> Option<Member> {
        let pool = Arc::clone(&self.pool);
        Some(Member { pool, held: None })
    }

    pub(crate) fn acquire(&mut self) -> Option<NonZeroUsize> {
        self.acquire_near(1)
    }

    pub(crate) fn acquire_near(&mut self, hint: usize) -> Option<NonZeroUsize> {
        if self.held.is_some() {
            return None;
        }
        self.held = self.pool.acquire_near(hint as u64).ok();
        self.held.as_ref().and_then(number)
    }

    pub(crate) fn release(&mut self) -> Option<NonZeroUsize> {
        let held = self.held.take()?;
        let told = number(&held);
        self.pool.release(held);
        told
    }
}

impl Drop for Member {
    fn drop(&mut self) {
        self.release();
    }
}

/// A part in a line: a ticket, or the number that it took by it. The first deals the tickets.
pub(crate) struct LineMember {
    line: Arc<LinePool<Global>>,
    tickets: Option<Tickets>,
    ticket: Option<Ticket>,
    held: Option<Held>,
}

impl LineMember {
    pub(crate) fn first(numbers: usize) -> Option<LineMember> {
        let (line, mut tickets) = LinePool::new(Global, numbers as u64).ok()?;
        Some(LineMember {
            ticket: line.deal(&mut tickets),
            line: Arc::new(line),
            tickets: Some(tickets),
            held: None,
        })
    }

    pub(crate) fn join(&mut self) -> Option<LineMember> {
        let ticket = self.line.deal(self.tickets.as_mut()?)?;
        Some(LineMember {
            line: Arc::clone(&self.line),
            tickets: None,
            ticket: Some(ticket),
            held: None,
        })
    }

    pub(crate) fn acquire(&mut self) -> Option<NonZeroUsize> {
        let ticket = self.ticket.take()?;
        self.held = Some(self.line.acquire(ticket));
        self.held.as_ref().and_then(number)
    }

    pub(crate) fn release(&mut self) -> Option<NonZeroUsize> {
        let held = self.held.take()?;
        let told = number(&held);
        self.ticket = Some(self.line.release(held));
        told
    }
}

impl Drop for LineMember {
    fn drop(&mut self) {
        self.release();
    }
}

/// A part in a grid: a seat, until it enters. The first deals the seats.
pub(crate) struct GridMember {
    grid: Arc<WordGrid<Global>>,
    dealer: Option<GridDealer>,
    seat: Option<FreshGridSeat>,
}

impl GridMember {
    pub(crate) fn first(most: usize) -> Option<GridMember> {
        let (grid, mut dealer) = WordGrid::new(Global, most as u64).ok()?;
        Some(GridMember {
            seat: grid.deal(&mut dealer),
            grid: Arc::new(grid),
            dealer: Some(dealer),
        })
    }

    pub(crate) fn join(&mut self) -> Option<GridMember> {
        let seat = self.grid.deal(self.dealer.as_mut()?)?;
        Some(GridMember {
            grid: Arc::clone(&self.grid),
            dealer: None,
            seat: Some(seat),
        })
    }

    /// The place, from 1, or 0 if it has entered.
    pub(crate) fn enter(&mut self) -> usize {
        let seat = self.seat.take();
        seat.map_or(0, |seat| self.grid.enter(seat).place() as usize + 1)
    }
}

/// The dealer of the seats of names.
pub(crate) struct NamesDealer {
    names: Arc<Names<Global>>,
    dealer: NameDealer,
}

impl NamesDealer {
    pub(crate) fn new(most: usize) -> Option<NamesDealer> {
        let (names, dealer) = Names::new(Global, most as u64).ok()?;
        let names = Arc::new(names);
        Some(NamesDealer { names, dealer })
    }

    pub(crate) fn join(&mut self, identity: u64) -> Option<NamesMember> {
        let seat = self.names.deal(&mut self.dealer, identity).ok()?;
        Some(NamesMember {
            names: Arc::clone(&self.names),
            seat: Some(seat),
            name: 0,
        })
    }
}

/// A seat of names, and the name that it got.
pub(crate) struct NamesMember {
    names: Arc<Names<Global>>,
    seat: Option<FreshNameSeat>,
    name: usize,
}

impl NamesMember {
    pub(crate) fn name(&mut self) -> usize {
        if let Some(seat) = self.seat.take() {
            let renamed = self.names.rename(seat);
            self.name = self.names.name(&renamed) as usize;
        }
        self.name
    }
}
