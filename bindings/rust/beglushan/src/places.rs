//! Places for good, by splitters.

use crate::error::Error;
use crate::kit::alloc::Global;
use crate::proved::model_steps::refusal::Refusal;
use crate::proved::words_machine::grid::seats::{FreshGridSeat, GridDealer};
use crate::proved::words_machine::grid::word_grid::WordGrid;
use core::fmt;
use std_alloc::sync::Arc;

/// The most seats of [`Places`].
pub const MAX_PLACE_SEATS: usize = 64;

/// Places for good, by the grid of splitters of Moir and Anderson (1995). Each of `capacity` threads has a seat, and takes a place
/// by it once.
///
/// A seat's one call is wait-free, by reads and writes alone. If `b` seats have entered, its own among them, the place is at most
/// `b(b + 1)/2`, whatever the capacity is. The call makes at most `4b` accesses. [`Names`](crate::Names) are smaller and take longer.
/// A pool has smaller numbers, which come back.
///
/// ```
/// use beglushan::Places;
///
/// let mut places = Places::new(8)?;
/// let (one, other) = (places.deal().expect("eight seats"), places.deal().expect("eight seats"));
/// assert_eq!(one.enter(), 1); // alone so far
/// let second = std::thread::spawn(|| other.enter()).join().expect("nothing panics");
/// assert!((2..=3).contains(&second)); // two have entered
/// # Ok::<(), beglushan::Error>(())
/// ```
pub struct Places {
    grid: Arc<WordGrid<Global>>,
    dealer: GridDealer,
}

impl Places {
    /// Seats for so many threads, from 1 to [`MAX_PLACE_SEATS`].
    ///
    /// # Errors
    ///
    /// - [`Error::Size`]: the capacity is out of range.
    /// - [`Error::NoMemory`]: an allocation failed.
    pub fn new(capacity: usize) -> Result<Places, Error> {
        match WordGrid::new(Global, capacity as u64) {
            Ok((grid, dealer)) => Ok(Places {
                grid: Arc::new(grid),
                dealer,
            }),
            Err(Refusal::OutOfRange) => Err(Error::Size {
                asked: capacity,
                most: MAX_PLACE_SEATS,
            }),
            Err(_) => Err(Error::NoMemory),
        }
    }

    /// How many seats there are, dealt or not.
    #[must_use]
    pub fn capacity(&self) -> usize {
        self.grid.most() as usize
    }

    /// One seat more, if there is one left.
    pub fn deal(&mut self) -> Option<PlaceSeat> {
        let fresh = self.grid.deal(&mut self.dealer)?;
        let grid = Arc::clone(&self.grid);
        Some(PlaceSeat { grid, fresh })
    }

    /// How many seats are left.
    #[must_use]
    pub fn left(&self) -> usize {
        self.capacity() - self.dealer.dealt() as usize
    }
}

impl fmt::Debug for Places {
    fn fmt(&self, f: &mut fmt::Formatter<'_>) -> fmt::Result {
        f.debug_struct("Places")
            .field("left", &self.left())
            .finish()
    }
}

/// What lets one thread take a place, once:
///
/// ```compile_fail,E0382
/// let seat = beglushan::Places::new(1).unwrap().deal().unwrap();
/// let place = seat.enter();
/// let another = seat.enter();
/// ```
#[must_use = "a seat that is dropped is lost"]
pub struct PlaceSeat {
    grid: Arc<WordGrid<Global>>,
    fresh: FreshGridSeat,
}

impl fmt::Debug for PlaceSeat {
    fn fmt(&self, f: &mut fmt::Formatter<'_>) -> fmt::Result {
        f.debug_struct("PlaceSeat").finish_non_exhaustive()
    }
}

impl PlaceSeat {
    /// Takes a place, from 1, that no other seat of the grid has or will have.
    #[must_use]
    pub fn enter(self) -> usize {
        self.grid.enter(self.fresh).place() as usize + 1
    }
}
