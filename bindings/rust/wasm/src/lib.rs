//! Pools, workers, values and names on wasm32, in one thread.

use beglushan::{Names, PerThread, Places, Pool, Slots, Workers};
use std::cell::Cell;
use std::time::Duration;

static HITS: PerThread<Cell<u32>> = PerThread::new();

/// How many of these hold. All of eight do.
#[no_mangle]
pub extern "C" fn held() -> u32 {
    let pool = Pool::new(4).expect("memory");
    let (one, other) = (
        pool.acquire().expect("four"),
        pool.acquire().expect("three"),
    );
    let numbers = (one.number(), other.number());
    drop((one, other));
    let waited = pool
        .acquire_timeout(Duration::ZERO)
        .map(|slot| slot.number());
    let workers: &'static Workers = Box::leak(Box::new(Workers::new(2).expect("memory")));
    let elements = Slots::new(workers, |index| index);
    let stays = (
        workers.with(|stay| *elements.get(stay)),
        workers.with(|stay| stay.number()),
    );
    HITS.with(|hits| hits.set(hits.get() + 1));
    let (mut names, mut places) = (
        Names::new(16).expect("memory"),
        Places::new(64).expect("memory"),
    );
    let holds = [
        numbers == (1, 2),
        pool.is_empty(),
        waited == Ok(2) || waited == Ok(1),
        stays == (0, 1),
        HITS.index() == 0,
        HITS.with(Cell::get) == 1,
        names.deal(7).map(|seat| seat.name()) == Ok(1),
        places.deal().map(|seat| seat.enter()) == Some(1),
    ];
    holds.into_iter().map(u32::from).sum()
}
