// Erased by bindings/rust/erase from crates/words_machine/src/parts.rt, sha256 fdf7deda7f34881ffed7d65711470d8ee9e5fded9cefc3990e5f05ba4696aeb7.
//! Parts over shared atomic words, in which no call waits: a splitter that threads visit, and a name board on which
//! threads post their names and confirm others'.
//!
//! # The splitter
//!
//! A splitter has two words of one table, X and Y. Each of its seats makes one visit, of at most four atomic accesses,
//! and then stops, goes right or goes down (Moir and Anderson 1995). The holder of a seat makes the accesses: no call
//! takes a lock, waits for another or starts a thread.
//!
//! Of the seats that have entered, at most one stops, not all go right, and not all go down. The table keeps an
//! invariant of its words and of the ghost state of its seats. So each entered seat keeps this law with all others. Two
//! seats that are compared show it (`meet`). A seat that went right or down names a seat that it met: one that had set
//! Y, or one that wrote X after it. Not proved: anything else of seats that are never compared, and that a thread makes
//! its next access.
//!
//! From `tests_model/src/raw_splitter_tests.rt`:
//!
//! ```text
//! let (mut one, first_way) = splitter.enter(first);
//! let (mut other, second_way) = splitter.enter(second);
//! splitter.meet(&mut one, &mut other);
//! (first_way, second_way) == (Way::Stop, Way::Right)
//!     && (one.way(), other.way()) == (Way::Stop, Way::Right)
//! ..
//! let (splitter, first, second) = RawSplitter::pair(rt.alloc())?;
//! ```
//!
//! # The board
//!
//! A board has a word for each name: 0, or the identity that was first posted there, which never changes. A thread
//! posts its name by one compare-exchange. A thread that has to check a name confirms it by one load. Either gets a
//! grant: the word holds this identity, and always will. A post returns its grant if and only if its access found 0 or
//! the identity. A confirm does if and only if it found the identity.
//!
//! Each grant finds its word equal to its identity, which is not 0. So two grants of two identities are of two names.
//! The words at the end are what a last seat read, and each grant that is given to `close_all` is among them. Not
//! proved: anything of `owner`.
//!
//! From `tests_model/src/board_tests.rt`:
//!
//! ```text
//! let mut second = board.reader(seat);
//! let one = board.post(seat, 1, 10)?;
//! let two = board.post(&mut second, 3, 20)?;
//! ..
//! board.meet(&mut one, &mut two);
//! match board.close(two) {
//!     Ok(words) => words.as_slice() == [10, 0, 20].as_slice(),
//! ..
//! let (board, mut seat) = Board::new(rt.alloc(), 3)?;
//! ```
