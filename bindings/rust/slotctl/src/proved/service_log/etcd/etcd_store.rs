// Erased by bindings/rust/erase from crates/service_log/src/etcd/etcd_store.rt, sha256 15fcce0a5e97dff5a95a344b15d0549f1e984f67cf99c7cb72d3226c4bf2cfbe.
//! A store over etcd.

use crate::kit::alloc::Global;
use crate::kit::http1::{Client, Limits};
use crate::kit::String;
use crate::kit::Vec;
use crate::proved::service_log::etcd::answer::{
    forget_text_of, read_append, read_get, read_gone, read_hint, read_put, Appended, Gone,
};
use crate::proved::service_log::etcd::dial::Dial;
use crate::proved::service_log::etcd::exchange::exchange;
use crate::proved::service_log::etcd::request::{
    append_text, fence_text, get_text, gone_text, hint_text, one_text, put_behind_text,
    put_hint_text, put_text, trim_text,
};
use crate::proved::service_log::store::{Append, Put, Store, MOST_PLACES};
use crate::proved::service_log::store_fault::StoreFault;

/// The status of a response that answers.
const ANSWERED: u16 = 200;

/// The message of a member whose quota is used up.
const NO_SPACE: &[u8] = b"etcdserver: mvcc: database space exceeded";

/// The most places that one request gets.
const MOST_FOUND: usize = 256;

/// The most entries that one request deletes. etcd takes 128 operations in a transaction.
const MOST_DELETED: u64 = 100;

/// The most places at which an entry is offered at once.
const MOST_OFFERED: u64 = 4;

/// The most bytes of an entry that is offered at several places at once, since the request has it for each place.
const MOST_SHORT: usize = 2_048;

/// For how many appends a store offers at several places, after others came first.
const CONTESTED: u32 = 32;

// A connection that is kept open.
struct Kept<S> {
    stream: S,
    client: Client,
}

// What was written or read at a place.
struct Last {
    place: u64,
    entry: Vec<u8>,
}

// Returns the entry at the place before this one, if it is this one.
fn stood_at(last: &Option<Last>, place: u64) -> Option<&[u8]> {
    let last = last.as_ref()?;
    if last.place.checked_add(1) != Some(place) {
        return None;
    }
    Some(&last.entry)
}

// Returns the revision at which the fence was changed last, so far as it is known. Never is 0.
fn fence_known(fence: &Option<String>) -> &str {
    match fence {
        Some(revision) => revision.as_str(),
        None => "0",
    }
}

// Returns why a member answered with another status.
fn refusal(body: &[u8]) -> StoreFault {
    if body.windows(NO_SPACE.len()).any(|part| part == NO_SPACE) {
        return StoreFault::NoSpace;
    }
    StoreFault::Lost
}

// Takes the first place out of what was found, which has the last place first. It must hold this entry.
fn take_first(found: &mut Vec<Vec<u8>>, stood: &[u8]) -> Result<(), StoreFault> {
    let Some(first) = found.pop() else {
        return Err(StoreFault::WentBack);
    };
    if first.as_slice() == stood {
        return Ok(());
    }
    Err(StoreFault::WentBack)
}

/// The places under a prefix in etcd. It asks the members in turn, and after a fault the next one.
///
/// Nothing but `trim` may delete a key under the prefix: it notes the place below which entries are given up in the
/// transaction that deletes the first of them, and each put asks that no such note is of its place or a later one. Each log
/// needs its own prefix. The first entry stays, so that each start finds it.
///
/// Each put checks that the place before it still holds what this store wrote or read there last. So does each get that
/// asks a member. If it does not, etcd was put back to an older state. A put then writes nothing and returns `Taken`,
/// and a get returns the fault `WentBack`, or `Trimmed` where that entry was given up.
///
/// An append offers its entry at four places at once, if others came first of late. Its request goes to one member, once.
/// After a fault the store changes the fence, which each append compares, and then puts at one place.
pub struct EtcdStore<D: Dial> {
    alloc: Global,
    dial: D,
    member: usize,
    kept: Option<Kept<D::Stream>>,
    prefix: String,
    /// The entries at the places from `place` on, the last of them first. etcd never changes them.
    ahead: Vec<Vec<u8>>,
    place: u64,
    /// What this store wrote or read last, and at which place.
    last: Option<Last>,
    /// What it appended last.
    own: Option<Last>,
    /// The revision at which the fence was changed last, in digits, so far as it knows. Never is 0.
    fence: Option<String>,
    /// Whether what was offered last may get there later, since the answer was lost. Until a put at one place is answered behind
    /// a change of the fence, nothing is offered at several places.
    unsettled: bool,
    /// For how many appends it offers at several places.
    contested: u32,
    /// Whether keys of another log are between those of this one, so that each entry is offered at one place.
    single: bool,
}

impl<D: Dial> EtcdStore<D> {
    /// Makes a store of the places under a prefix. Not proved: it has no clause, since contracts see nothing of such a
    /// store.
    pub fn new(alloc: Global, dial: D, prefix: String) -> EtcdStore<D> {
        EtcdStore {
            alloc,
            dial,
            member: 0,
            kept: None,
            prefix,
            ahead: Vec::new(alloc),
            place: 0,
            last: None,
            own: None,
            fence: None,
            unsettled: false,
            contested: 0,
            single: false,
        }
    }

    // Returns the open connection, or a new one to the member whose turn it is. Not proved: it has no clause.
    fn connection(&mut self) -> Option<Kept<D::Stream>> {
        if let Some(kept) = self.kept.take() {
            return Some(kept);
        }
        let members = self.dial.members();
        if members == 0 {
            return None;
        }
        let stream = self.dial.dial(self.member % members)?;
        Some(Kept {
            stream,
            client: Client::new(Limits::default()),
        })
    }

    // Asks one member once, and returns the body of its answer.
    fn ask_once(&mut self, target: &[u8], text: &[u8]) -> Result<Vec<u8>, StoreFault> {
        let Some(mut kept) = self.connection() else {
            return Err(StoreFault::Lost);
        };
        let Kept { stream, client } = &mut kept;
        let response = exchange(self.alloc, client, stream, target, text)?;
        if response.status != ANSWERED {
            return Err(refusal(&response.body));
        }
        if kept.client.is_idle() {
            self.kept = Some(kept);
        }
        Ok(response.body)
    }

    // Asks the members in turn, each at most twice, and returns the body of the first answer.
    fn ask(&mut self, target: &[u8], text: &[u8]) -> Result<Vec<u8>, StoreFault> {
        let tries = self.dial.members().saturating_mul(2);
        for _ in 0..tries {
            match self.ask_once(target, text) {
                Ok(body) => return Ok(body),
                Err(StoreFault::Memory) => return Err(StoreFault::Memory),
                Err(StoreFault::NoSpace) => return Err(StoreFault::NoSpace),
                Err(_) => self.member = self.member.wrapping_add(1),
            }
        }
        Err(StoreFault::Lost)
    }

    // Returns the entries at the places from `place` on. An answer with a key of another length among them is wrong.
    fn ask_range(&mut self, place: u64) -> Result<Vec<Vec<u8>>, StoreFault> {
        let last = place + MOST_FOUND as u64;
        let Ok(text) = get_text(self.alloc, self.prefix.as_str(), place, last) else {
            return Err(StoreFault::Memory);
        };
        let body = self.ask(b"/v3/kv/range", &text)?;
        read_get(self.alloc, &body, MOST_FOUND, self.prefix.as_str(), place)
    }

    // Returns the entry at one place.
    fn ask_one(&mut self, place: u64) -> Result<Vec<Vec<u8>>, StoreFault> {
        let Ok(text) = one_text(self.alloc, self.prefix.as_str(), place) else {
            return Err(StoreFault::Memory);
        };
        let body = self.ask(b"/v3/kv/range", &text)?;
        read_get(self.alloc, &body, 1, self.prefix.as_str(), place)
    }

    // Returns what was written or read at the place before, if that was the last one.
    fn stood_before(&self, place: u64) -> Option<&[u8]> {
        match stood_at(&self.own, place) {
            Some(entry) => Some(entry),
            None => stood_at(&self.last, place),
        }
    }

    // Returns the first place to ask for: the place before this one if it is known what that held, and otherwise this
    // one.
    fn first_asked(&self, place: u64) -> u64 {
        match self.stood_before(place) {
            Some(_) => place.saturating_sub(1),
            None => place,
        }
    }

    // Takes the place before out of what was found, which has the last place first, if it is known what it held.
    fn take_before(&self, place: u64, found: &mut Vec<Vec<u8>>) -> Result<(), StoreFault> {
        match self.stood_before(place) {
            Some(stood) => take_first(found, stood),
            None => Ok(()),
        }
    }

    // Returns the entries at the places from `place` on, the last of them first.
    fn ask_behind(&mut self, place: u64) -> Result<Vec<Vec<u8>>, StoreFault> {
        let mut found = self.ask_range(self.first_asked(place))?;
        found.reverse();
        self.take_before(place, &mut found)?;
        Ok(found)
    }

    // Returns the entry at one place, and asks for the place before by itself.
    fn ask_singly(&mut self, place: u64) -> Result<Vec<Vec<u8>>, StoreFault> {
        let first = self.first_asked(place);
        if first < place {
            let mut found = self.ask_one(first)?;
            self.take_before(place, &mut found)?;
        }
        self.ask_one(place)
    }

    // Asks for the entries at the places from `place` on. It asks for this place alone if keys of another log are
    // between them. The prefix of such a log begins with this one and goes on with digits.
    fn ask_from(&mut self, place: u64) -> Result<(), StoreFault> {
        self.ahead = match self.ask_behind(place) {
            Err(StoreFault::Wrong) => self.ask_singly(place)?,
            answered => answered?,
        };
        self.place = place;
        Ok(())
    }

    // Returns what is noted of entries that were given up, or `None` if nothing is.
    fn ask_gone(&mut self) -> Result<Option<Gone>, StoreFault> {
        let Ok(text) = gone_text(self.alloc, self.prefix.as_str()) else {
            return Err(StoreFault::Memory);
        };
        let body = self.ask(b"/v3/kv/range", &text)?;
        read_gone(self.alloc, &body)
    }

    // Whether what was asked from a place on leaves it open that the entry there, or the one before, was given up. The first
    // entry is never deleted. Behind another one that stands, a place that is empty was never written.
    fn may_be_gone(&self, place: u64, asked: Result<(), StoreFault>) -> bool {
        match asked {
            Ok(()) if place == 1 || self.stood_before(place).is_none() => {
                0 < place && self.ahead.is_empty()
            }
            Ok(()) => false,
            Err(fault) => matches!(fault, StoreFault::WentBack | StoreFault::Wrong),
        }
    }

    // Asks for the entries at the places from `place` on. The fault is `Trimmed` where the one there, or the one before, was
    // given up.
    fn ask_kept(&mut self, place: u64) -> Result<(), StoreFault> {
        let asked = self.ask_from(place);
        if !self.may_be_gone(place, asked) {
            return asked;
        }
        match self.ask_gone()? {
            Some(gone) if place <= gone.below => Err(StoreFault::Trimmed),
            _ => asked,
        }
    }

    // Notes that entries below a place are given up, and deletes the next of them, from `deleted` on. Returns the place
    // before which they are deleted then, and the answer.
    fn delete_some(&mut self, place: u64, deleted: u64) -> Result<(u64, Vec<u8>), StoreFault> {
        let to = place.min(deleted.saturating_add(MOST_DELETED));
        let Ok(text) = trim_text(self.alloc, self.prefix.as_str(), place, deleted, to) else {
            return Err(StoreFault::Memory);
        };
        let body = self.ask(b"/v3/kv/txn", &text)?;
        match read_put(self.alloc, &body)? {
            Put::Written => Ok((to, body)),
            // No entry is at the place, or a later one was noted: nothing is left to be done.
            Put::Taken => Ok((place, body)),
        }
    }

    // Has etcd forget what its keys held before an answer. Not proved: nothing hangs on it, and a fault changes nothing.
    fn forget(&mut self, answer: &[u8]) {
        if let Ok(text) = forget_text_of(self.alloc, answer) {
            let _ = self.ask_once(b"/v3/kv/compaction", &text);
        }
    }

    // Returns the text of the request that puts an entry at a place, after what was written or read there last.
    fn text_of_put(&self, place: u64, entry: &[u8]) -> Result<Vec<u8>, StoreFault> {
        let prefix = self.prefix.as_str();
        let text = match self.stood_before(place) {
            Some(stood) => put_behind_text(self.alloc, prefix, place, stood, entry),
            None => put_text(self.alloc, prefix, place, entry),
        };
        match text {
            Ok(text) => Ok(text),
            Err(_) => Err(StoreFault::Memory),
        }
    }

    // Changes the fence, if an append may get there later. No such append is written then, since it compares the fence.
    fn part(&mut self) -> Result<(), StoreFault> {
        if !self.unsettled {
            return Ok(());
        }
        let Ok(text) = fence_text(self.alloc, self.prefix.as_str()) else {
            return Err(StoreFault::Memory);
        };
        self.ask(b"/v3/kv/put", &text)?;
        Ok(())
    }

    // Whether an entry is offered at several places: others came first of late, it is short, and it is known what the place
    // before holds. After a fault it is offered at one place, which was read.
    fn offers_several(&self, place: u64, entry: &[u8]) -> bool {
        self.contested > 0
            && !self.unsettled
            && !self.single
            && entry.len() <= MOST_SHORT
            && self.stood_before(place).is_some()
    }

    // Writes an entry at a place, if the place was never written.
    fn put_one(&mut self, place: u64, entry: &[u8]) -> Result<Put, StoreFault> {
        let Ok(copy) = Vec::from_slice(self.alloc, entry) else {
            return Err(StoreFault::Memory);
        };
        self.part()?;
        let text = self.text_of_put(place, entry)?;
        self.unsettled = true;
        let body = self.ask(b"/v3/kv/txn", &text)?;
        let put = read_put(self.alloc, &body)?;
        self.unsettled = false;
        if put == Put::Written {
            self.last = Some(Last { place, entry: copy });
        }
        Ok(put)
    }

    // Returns the text of the request that offers an entry at several places, after what was written or read before them.
    fn text_of_offer(&self, place: u64, entry: &[u8]) -> Result<Vec<u8>, StoreFault> {
        let prefix = self.prefix.as_str();
        let last = place + MOST_OFFERED;
        let Some(stood) = self.stood_before(place) else {
            return Err(StoreFault::Wrong);
        };
        let fence = fence_known(&self.fence);
        let text = append_text(self.alloc, prefix, place, last, stood, entry, fence);
        match text {
            Ok(text) => Ok(text),
            Err(_) => Err(StoreFault::Memory),
        }
    }

    // Asks one member once to offer an entry at several places. The store is unsettled unless an answer came.
    fn offer(&mut self, place: u64, entry: &[u8]) -> Result<Appended, StoreFault> {
        let text = self.text_of_offer(place, entry)?;
        self.unsettled = true;
        let answer = self.ask_once(b"/v3/kv/txn", &text);
        if answer.is_err() {
            self.member = self.member.wrapping_add(1);
        }
        let body = answer?;
        let told = read_append(
            self.alloc,
            &body,
            MOST_OFFERED as usize,
            self.prefix.as_str(),
            place,
        )?;
        self.unsettled = false;
        Ok(told)
    }

    // Keeps what was found from a place on, for the next calls. Returns where this entry came to stand, if it is the last one.
    fn take_found(
        &mut self,
        place: u64,
        entry: Vec<u8>,
        mut found: Vec<Vec<u8>>,
    ) -> Result<Append, StoreFault> {
        let at = place.saturating_add((found.len() as u64).saturating_sub(1));
        let is_own = match found.last() {
            Some(last) => *last == entry,
            None => false,
        };
        if is_own {
            found.pop();
        }
        found.reverse();
        self.ahead = found;
        self.place = place;
        self.contested = if is_own && at == place {
            self.contested.saturating_sub(1)
        } else {
            CONTESTED
        };
        if !is_own {
            return Ok(Append::Nowhere);
        }
        if at >= MOST_PLACES {
            return Err(StoreFault::Wrong);
        }
        self.own = Some(Last { place: at, entry });
        Ok(Append::At(at))
    }

    // Offers an entry at several places, where that serves. Returns `None` if it offered it at none, or the fence was changed,
    // or the place before does not hold what it held.
    fn append_behind(&mut self, place: u64, entry: &[u8]) -> Result<Option<Append>, StoreFault> {
        if !self.offers_several(place, entry) {
            return Ok(None);
        }
        let Ok(copy) = Vec::from_slice(self.alloc, entry) else {
            return Err(StoreFault::Memory);
        };
        match self.offer(place, entry) {
            Ok(Appended::Found(found)) => Ok(Some(self.take_found(place, copy, found)?)),
            Ok(Appended::Refused(revision)) => {
                self.fence = Some(revision);
                Ok(None)
            }
            Err(fault) => {
                self.single = self.single || fault == StoreFault::Wrong;
                Err(fault)
            }
        }
    }
}

impl<D: Dial> Store for EtcdStore<D> {
    fn put(&mut self, place: u64, entry: &[u8]) -> Result<Put, StoreFault> {
        self.put_one(place, entry)
    }

    fn append(&mut self, place: u64, entry: &[u8]) -> Result<Append, StoreFault> {
        if place >= MOST_PLACES {
            return Ok(Append::Nowhere);
        }
        if let Some(append) = self.append_behind(place, entry)? {
            return Ok(append);
        }
        match self.put_one(place, entry)? {
            Put::Written => Ok(Append::At(place)),
            Put::Taken => {
                self.contested = CONTESTED;
                Ok(Append::Nowhere)
            }
        }
    }

    fn get(&mut self, place: u64, entry: &mut Vec<u8>) -> Result<bool, StoreFault> {
        if place >= MOST_PLACES {
            return Ok(false);
        }
        if self.place != place || self.ahead.is_empty() {
            self.ask_kept(place)?;
        }
        let Some(found) = self.ahead.pop() else {
            return Ok(false);
        };
        let Ok(copy) = Vec::from_slice(self.alloc, &found) else {
            self.ahead.clear();
            return Err(StoreFault::Memory);
        };
        self.last = Some(Last { place, entry: copy });
        self.place = place + 1;
        *entry = found;
        Ok(true)
    }

    fn hint(&mut self) -> Result<Option<u64>, StoreFault> {
        let Ok(text) = hint_text(self.alloc, self.prefix.as_str()) else {
            return Err(StoreFault::Memory);
        };
        let body = self.ask(b"/v3/kv/range", &text)?;
        read_hint(self.alloc, &body, self.prefix.as_str())
    }

    fn put_hint(&mut self, place: u64) -> Result<(), StoreFault> {
        let Ok(text) = put_hint_text(self.alloc, self.prefix.as_str(), place) else {
            return Err(StoreFault::Memory);
        };
        self.ask(b"/v3/kv/put", &text)?;
        Ok(())
    }

    fn trim(&mut self, place: u64) -> Result<bool, StoreFault> {
        if place < 2 {
            return Ok(true);
        }
        let deleted = match self.ask_gone()? {
            Some(gone) => gone.deleted.max(1),
            None => 1,
        };
        if place <= deleted {
            return Ok(true);
        }
        let (to, answer) = self.delete_some(place, deleted)?;
        if to < place {
            return Ok(false);
        }
        self.forget(&answer);
        Ok(true)
    }

    fn trimmed(&mut self) -> Result<u64, StoreFault> {
        match self.ask_gone()? {
            Some(gone) => Ok(gone.below),
            None => Ok(0),
        }
    }
}
