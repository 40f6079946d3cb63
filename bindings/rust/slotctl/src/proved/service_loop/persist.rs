// Erased by bindings/rust/erase from crates/service_loop/src/persist.rt, sha256 16e2684505e0cbf61ac6d3f586efd4b77907f3358d2e7ba53d2956ca5470279a.
//! What is kept of a turn before its replies go out.

use crate::kit::alloc::Allocator;
use crate::proved::service_loop::feed::Feed;
use crate::proved::service_watch::numbers::Tally;
use crate::proved::text_lines::held::query::HeldQuery;
use crate::proved::text_lines::replies::Replies;

/// Whether a persister has prefetched the answers to the lines that it got.
#[derive(Clone, Copy, Debug, PartialEq, Eq)]
pub enum Prefetch {
    /// The service answers them now.
    Known,
    /// They were not prefetched in time, and nothing is known of them.
    Lost,
}

/// Keeps what a service tells of the events that it accepted, before any reply of that turn is sent.
pub trait Persist<D>: Sized {
    /// Why it could not be kept.
    type Fault;

    /// Appends who holds numbers, as it is asked.
    fn put_held<B: Allocator>(&self, service: &D, query: HeldQuery, out: &mut Replies<B>);

    /// How many more may hold a number: those that nobody holds, but one for each who competes and holds none yet.
    fn room(&self, service: &D) -> u64;

    /// Whether so much is to be kept before any other connection has its turn. It is not asked where `most_prefetched` is some:
    /// then each connection has its turn whose lines are in the batch.
    fn is_full(&self, service: &D) -> bool;

    /// Keeps what the service tells.
    fn persist(&mut self, service: &mut D) -> Result<(), Self::Fault>;

    /// How many bytes of lines of requests it gets, at most, before a turn takes them; `None` where the service answers each as it comes.
    fn most_prefetched(&self) -> Option<usize>;

    /// Has the service prefetch the answers to these lines of requests, in their order; each ends in LF. `Lost` where they were not prefetched in
    /// time: nothing is known of them then.
    fn prefetch(&mut self, service: &mut D, lines: &[u8]) -> Result<Prefetch, Self::Fault>;

    /// Is called about once a second while clients are there or watchers may be, and three times a minute else.
    fn tick(&mut self, service: &mut D) -> Result<(), Self::Fault>;

    /// Whether other servers share the service's stays, so that this persister ends them itself (`end_stays`).
    fn shares_stays(&self) -> bool;

    /// Ends stays that are shared: those of these identities, which nobody keeps here any more, and those of servers that are gone. Is called
    /// about once a second where the server ends stays, and only where `shares_stays` says so.
    fn end_stays(&mut self, service: &mut D, due: &[u64]) -> Result<(), Self::Fault>;

    /// The identities whose stays the last `end_stays` ended since their servers are gone, for people.
    fn ended_of_gone(&self) -> &[u64] {
        &[]
    }

    /// Returns true if and only if an identity competes, where all is kept that the service told.
    fn has_stay(&self, service: &D, identity: u64) -> bool;

    /// The lease in which a stay is kept that begins now. Another begins where others may have ended the stays that were kept before.
    fn lease(&self) -> u64;

    /// Whether this server may still answer those who keep stays since this lease. Where it may not they are closed, and nothing is sent to them.
    fn may_answer_stays(&self, lease: u64) -> bool;

    /// What changes of who holds numbers, where other servers share the service; `None` where none does: then the loop notes it.
    fn changes(&self) -> Option<&Feed> {
        None
    }

    /// What is amiss and does not end the server, for people; `None` where nothing is.
    fn trouble(&self) -> Option<&'static str>;

    /// How many tenths of the history's room are used up by what no compaction makes fewer, for people; 0 where that is not known.
    fn lasting_tenths(&self) -> u8;

    /// How much there is, for people. It takes time as there are numbers and names, which are few.
    fn tally(&self, service: &D) -> Tally;
}
