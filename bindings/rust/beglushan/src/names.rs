//! Names for good, by renaming.

use crate::error::Error;
use crate::kit::alloc::Global;
use crate::proved::model_steps::refusal::Refusal;
use crate::proved::words_names::names::Names as Machine;
use crate::proved::words_names::seats::{FreshNameSeat, NameDealer};
use core::fmt;
use std_alloc::sync::Arc;

/// The most seats of [`Names`].
pub const MAX_SEATS: usize = 64;

/// Names for good, by the recursion of Gafni and Rajsbaum (2010; the problem: Attiya and others 1990). Each of `capacity` threads has
/// a seat, for an identity of 64 bits, and takes a name by it once.
///
/// A seat's one call is wait-free, by reads and writes alone: a thread that stops for good holds up nobody. Its name is at most `2b - 1`
/// if `b` seats have begun, its own among them, whatever the capacity and the identities are. The call makes at most
/// `capacity(capacity + 1)` accesses to words. The names of all seats take `capacity^3` words of 8 bytes. [`Places`](crate::Places) are
/// taken sooner and are larger. A pool has smaller numbers, which come back.
///
/// Seats may be dealt while others are named. Nobody waits for that.
///
/// ```
/// use beglushan::Names;
///
/// let mut names = Names::new(8)?;
/// let (one, other) = (names.deal(0x9e37_79b9)?, names.deal(71)?);
/// assert_eq!(one.name(), 1); // alone so far
/// let second = std::thread::spawn(|| other.name()).join().expect("nothing panics");
/// assert!((2..=3).contains(&second)); // two have begun
/// # Ok::<(), beglushan::Error>(())
/// ```
pub struct Names {
    names: Arc<Machine<Global>>,
    dealer: NameDealer,
}

impl Names {
    /// Seats for so many threads, from 1 to [`MAX_SEATS`].
    ///
    /// # Errors
    ///
    /// - [`Error::Size`]: the capacity is out of range.
    /// - [`Error::NoMemory`]: an allocation failed.
    pub fn new(capacity: usize) -> Result<Names, Error> {
        match Machine::new(Global, capacity as u64) {
            Ok((names, dealer)) => Ok(Names {
                names: Arc::new(names),
                dealer,
            }),
            Err(Refusal::OutOfRange) => Err(Error::Size {
                asked: capacity,
                most: MAX_SEATS,
            }),
            Err(_) => Err(Error::NoMemory),
        }
    }

    /// How many seats there are, dealt or not.
    #[must_use]
    pub fn capacity(&self) -> usize {
        self.names.most() as usize
    }

    /// One seat more, for the thread of this identity.
    ///
    /// # Errors
    ///
    /// The first that applies:
    ///
    /// - [`Error::Identity`]: the identity is 0, or has a seat.
    /// - [`Error::Full`]: all seats are dealt.
    pub fn deal(&mut self, identity: u64) -> Result<Seat, Error> {
        match self.names.deal(&mut self.dealer, identity) {
            Ok(fresh) => {
                let names = Arc::clone(&self.names);
                Ok(Seat { names, fresh })
            }
            Err(Refusal::Full) => Err(Error::Full {
                most: self.capacity(),
            }),
            Err(_) => Err(Error::Identity { identity }),
        }
    }

    /// How many seats are left.
    #[must_use]
    pub fn left(&self) -> usize {
        self.capacity() - self.dealer.dealt() as usize
    }
}

impl fmt::Debug for Names {
    fn fmt(&self, f: &mut fmt::Formatter<'_>) -> fmt::Result {
        f.debug_struct("Names").field("left", &self.left()).finish()
    }
}

/// What lets one thread take a name, once:
///
/// ```compile_fail,E0382
/// let seat = beglushan::Names::new(1).unwrap().deal(7).unwrap();
/// let name = seat.name();
/// let another = seat.name();
/// ```
#[must_use = "a seat that is dropped is lost"]
pub struct Seat {
    names: Arc<Machine<Global>>,
    fresh: FreshNameSeat,
}

impl fmt::Debug for Seat {
    fn fmt(&self, f: &mut fmt::Formatter<'_>) -> fmt::Result {
        let mut seat = f.debug_struct("Seat");
        seat.field("identity", &self.identity())
            .finish_non_exhaustive()
    }
}

impl Seat {
    /// The identity to which the seat was dealt.
    #[must_use]
    pub fn identity(&self) -> u64 {
        self.fresh.identity()
    }

    /// Takes a name, from 1, that no other seat of these names has or will have.
    #[must_use]
    pub fn name(self) -> usize {
        let renamed = self.names.rename(self.fresh);
        self.names.name(&renamed) as usize
    }
}
