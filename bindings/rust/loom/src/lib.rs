//! The erased code of the crate under loom, which tries each order of its accesses. Under `--cfg loom` the words are loom's.

extern crate alloc as std_alloc;

#[allow(dead_code)] // the crate uses more of both
#[path = "../../beglushan/src/kit.rs"]
mod kit;
#[allow(dead_code)]
#[path = "../../beglushan/src/proved/mod.rs"]
mod proved;

#[cfg(all(test, loom))]
mod tests {
    use crate::kit::alloc::Global;
    use crate::proved::words_machine::grid::word_grid::WordGrid;
    use crate::proved::words_names::names::Names;
    use crate::proved::words_pool::line_pool::LinePool;
    use crate::proved::words_pool::word_pool::WordPool;
    use loom::cell::UnsafeCell;
    use loom::sync::Arc;
    use loom::thread;

    /// Two calls of a pool of two have different numbers, by a walk from 1 and near a hint.
    #[test]
    fn two_in_a_pool() {
        for hint in 1..=2 {
            loom::model(move || {
                let pool = Arc::new(WordPool::new(Global, 2).ok().expect("a size"));
                let theirs = Arc::clone(&pool);
                let other = thread::spawn(move || theirs.acquire_near(hint).ok());
                let mine = pool.acquire_near(2).ok().expect("two for two");
                let other = other.join().expect("nothing panics");
                let other = other.expect("two for two");
                assert_ne!(mine.number(), other.number());
                pool.release(mine);
                pool.release(other);
            });
        }
    }

    /// Two threads use one element by turns. Loom sees that the accesses to the words put them in order.
    #[test]
    fn one_element_by_turns() {
        loom::model(|| {
            let pool = Arc::new(WordPool::new(Global, 1).ok().expect("a size"));
            let element = Arc::new(UnsafeCell::new(0));
            let (theirs, shared) = (Arc::clone(&pool), Arc::clone(&element));
            let stay = |pool: &WordPool<Global>, element: &UnsafeCell<u32>| {
                if let Ok(held) = pool.acquire() {
                    // SAFETY: nobody else has the number.
                    element.with_mut(|at| unsafe { *at += 1 });
                    pool.release(held);
                }
            };
            let other = thread::spawn(move || {
                stay(&theirs, &shared);
                stay(&theirs, &shared);
            });
            stay(&pool, &element);
            other.join().expect("nothing panics");
            // SAFETY: the other thread has ended.
            element.with(|at| assert!((1..=3).contains(unsafe { &*at })));
        });
    }

    /// Two tickets of a line of two both get a number, and not the same, while one gives its own back and comes again.
    #[test]
    fn two_in_a_line() {
        loom::model(|| {
            let (line, mut tickets) = LinePool::new(Global, 2).ok().expect("a size");
            let mine = line.deal(&mut tickets).expect("a ticket is left");
            let theirs = line.deal(&mut tickets).expect("a ticket is left");
            let line = Arc::new(line);
            let shared = Arc::clone(&line);
            let other = thread::spawn(move || {
                let held = shared.acquire(theirs);
                shared.acquire(shared.release(held))
            });
            let mine = line.acquire(mine);
            let theirs = other.join().expect("nothing panics");
            assert_ne!(mine.number(), theirs.number());
        });
    }

    /// Two seats of a grid have two places, of at most 3.
    #[test]
    fn two_in_a_grid() {
        loom::model(|| {
            let (grid, mut dealer) = WordGrid::new(Global, 2).ok().expect("a size");
            let mine = grid.deal(&mut dealer).expect("a seat is left");
            let theirs = grid.deal(&mut dealer).expect("a seat is left");
            let grid = Arc::new(grid);
            let shared = Arc::clone(&grid);
            let other = thread::spawn(move || shared.enter(theirs).place());
            let mine = grid.enter(mine).place();
            let theirs = other.join().expect("nothing panics");
            assert!(mine != theirs && mine < 3 && theirs < 3);
        });
    }

    /// Two seats have two names, of at most 3. Loom tries orders with at most two switches that a thread did not ask for.
    #[test]
    fn two_named() {
        let mut model = loom::model::Builder::new();
        model.preemption_bound = Some(2);
        model.check(|| {
            let (names, mut dealer) = Names::new(Global, 2).ok().expect("a size");
            let mine = names.deal(&mut dealer, 7).ok().expect("a seat is left");
            let theirs = names.deal(&mut dealer, 9).ok().expect("a seat is left");
            let names = Arc::new(names);
            let shared = Arc::clone(&names);
            let other = thread::spawn(move || shared.name(&shared.rename(theirs)));
            let mine = names.name(&names.rename(mine));
            let theirs = other.join().expect("nothing panics");
            assert!(mine != theirs && mine <= 3 && theirs <= 3);
        });
    }
}
