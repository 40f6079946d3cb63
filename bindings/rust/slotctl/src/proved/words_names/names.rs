// Erased by bindings/rust/erase from crates/words_names/src/names.rt, sha256 fa54e6a637dad16d046ff9e502f78654c352c8a36ecaae372069ed531ba083b3.
//! The names.

use crate::kit::alloc::Allocator;
use crate::kit::Clone;
use crate::proved::model_recursion::namer::Namer;
use crate::proved::model_steps::refusal::Refusal;
use crate::proved::words_machine::word_machine::WordMachine;
use crate::proved::words_names::seats::{FreshNameSeat, NameDealer, Renamed, MOST_SEATS};

/// Names for as many seats as they are made for.
pub struct Names<A: Allocator> {
    machine: WordMachine<Namer, A>,
}

impl<A: Allocator + Clone> Names<A> {
    /// Makes names for at most `most` seats, from 1 to 64, and the dealer of the seats. They take `most^3` words of 64 bits.
    ///
    /// # Errors
    ///
    /// - `OutOfRange`: `most` is not from 1 to 64.
    /// - `NoMemory`: an allocation failed.
    pub fn new(alloc: A, most: u64) -> Result<(Names<A>, NameDealer), Refusal> {
        if most < 1 || (MOST_SEATS as u64) < most {
            return Err(Refusal::OutOfRange);
        }
        let (machine, dealer) = WordMachine::new(alloc, most)?;
        let identities = [0; MOST_SEATS];
        Ok((Names { machine }, NameDealer { dealer, identities }))
    }
}

impl<A: Allocator> Names<A> {
    /// Deals the seat of the least number that was not dealt to an identity of the caller's choice. The dealer is of these
    /// names.
    ///
    /// # Errors
    ///
    /// - `ZeroIdentity`: the identity is 0.
    /// - `AlreadyBegun`: a seat was dealt to this identity.
    /// - `Full`: all seats were dealt.
    pub fn deal(&self, dealer: &mut NameDealer, identity: u64) -> Result<FreshNameSeat, Refusal> {
        let dealt = dealer.dealer.dealt();
        if identity == 0 {
            return Err(Refusal::ZeroIdentity);
        }
        if dealer.identities[..dealt as usize].contains(&identity) {
            return Err(Refusal::AlreadyBegun);
        }
        // Opens the machine, so that the range of the most seats is known.
        let _most = self.machine.most();
        let Some(seat) = self.machine.deal(&mut dealer.dealer) else {
            return Err(Refusal::Full);
        };
        dealer.identities[dealt as usize] = identity;
        Ok(FreshNameSeat { identity, seat })
    }

    /// Makes the accesses of a seat of these names, one after another, until it has a name, by reads and writes (Gafni and
    /// Rajsbaum 2010).
    ///
    /// # Steps
    ///
    /// At most `m(m + 1)` accesses of `m` seats, whatever the other seats do.
    pub fn rename(&self, fresh: FreshNameSeat) -> Renamed {
        let FreshNameSeat { identity, seat } = fresh;
        let seat = self.machine.enter(seat, identity);
        Renamed { seat }
    }

    /// Returns the name of a renamed seat of these names.
    pub fn name(&self, renamed: &Renamed) -> u64 {
        renamed.name()
    }
}
