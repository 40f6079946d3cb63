// Erased by bindings/rust/erase from crates/service_hall/src/rules.rt, sha256 d47808aa42ae0d621b07818305addd60bfccc0cfdd67fcb19867c0b84896e16c.
//! What clients of a hall may ask for.

use crate::proved::model_asked::event::Event;
use crate::proved::service_hall::reads::Reads;

/// The rules by which a hall serves its clients.
#[derive(Clone, Copy, Debug, PartialEq, Eq)]
pub struct Rules {
    /// Whether the history stores reads.
    pub reads: Reads,
    /// Whether clients may widen the pool.
    pub widening: bool,
    /// Whether clients may begin and step, which uses up names.
    pub naming: bool,
    /// Whether a `put` gives the next token in place of its own value.
    pub tokens: bool,
}

/// How a hall takes an event of a client.
#[derive(Clone, Copy, Debug, PartialEq, Eq)]
pub enum Way {
    /// As an event of the history.
    Applied,
    /// As a read of this identity, which is stored nowhere.
    Read(u64),
    /// As a `put` of the next token by this identity.
    Raised(u64),
    /// Not at all: it is not admitted.
    Barred,
}

// The way of an event that is admitted, or not.
fn applied_if(admitted: bool) -> Way {
    if admitted {
        Way::Applied
    } else {
        Way::Barred
    }
}

// The way of a read of an identity.
fn way_of_read(reads: Reads, id: u64) -> Way {
    match reads {
        Reads::Logged => Way::Applied,
        Reads::Plain => Way::Read(id),
    }
}

// The way of a `put` by an identity.
fn way_of_put(tokens: bool, id: u64) -> Way {
    if tokens {
        Way::Raised(id)
    } else {
        Way::Applied
    }
}

impl Rules {
    /// Returns rules by which all is admitted.
    pub fn all(reads: Reads) -> Rules {
        Rules {
            reads,
            widening: true,
            naming: true,
            tokens: false,
        }
    }

    /// Returns how a hall takes an event by these rules.
    pub fn way_of(self, event: Event) -> Way {
        match event {
            Event::Begin(_) | Event::Step(_) => applied_if(self.naming),
            Event::Widen(_) => applied_if(self.widening),
            Event::Get(id) => way_of_read(self.reads, id),
            Event::Put(id, _) => way_of_put(self.tokens, id),
            Event::Enter(_) | Event::Probe(_) | Event::Seek(_) | Event::Leave(_) => Way::Applied,
        }
    }
}
