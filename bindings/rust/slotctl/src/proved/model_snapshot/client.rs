// Erased by bindings/rust/erase from crates/model_snapshot/src/client.rt, sha256 6a29126fab14039fe50ac7138536806c4e91b0c2b108c99ca1c780939c2d67a3.
//! A participant of a snapshot object.

use crate::proved::model_snapshot::places::{PlaceWalker, Places};
use crate::proved::model_snapshot::scan::Scan;
use crate::proved::model_snapshot::walk::SegmentWalk;
use crate::proved::model_steps::access::{Access, Answer};
use crate::proved::model_steps::note::Note;
use crate::proved::model_steps::place::Place;
use crate::proved::model_steps::program::{Request, StepProgram};
use crate::proved::model_steps::record::Record;
use crate::proved::model_steps::refusal::NoMemory;
use crate::proved::model_steps::shortcut::Shortcut;
use crate::proved::model_steps::view::View;

/// The most updates for which one participant may be asked.
pub const MOST_UPDATES: u32 = 1_000_000;

/// What one step of a snapshot object returns.
#[derive(Clone, Copy, Debug)]
pub enum SnapReply {
    /// The operation goes on.
    Quiet,
    /// The participant has reached its place, which is this one.
    Placed(Place),
    /// The update has ended: its value is written.
    Written,
    /// The scan has ended, with this view.
    View(View),
}

impl SnapReply {
    /// Returns the reply of a step on the way to a place, from the note of the way.
    pub fn of_way(note: Note<Place>) -> Self {
        match note {
            Note::Quiet => SnapReply::Quiet,
            Note::Said(_) => SnapReply::Quiet,
            Note::Ended(place) => SnapReply::Placed(place),
        }
    }

    /// Returns the reply of a step, from the note of the participant's program.
    #[inline(always)]
    pub fn of_step(note: Note<SnapReply>) -> Self {
        match note {
            Note::Quiet => SnapReply::Quiet,
            Note::Said(reply) => reply,
            Note::Ended(reply) => reply,
        }
    }
}

/// What a participant has still to do.
#[derive(Clone, Copy, Debug)]
pub enum Pending {
    /// Nothing is pending.
    Nothing,
    /// The participant has to reach its place.
    Placing,
    /// It has to scan.
    Scan,
    /// It has to scan, and then to write this value.
    Update(u64),
    /// It has scanned this view, and has to write this value with it.
    Write(u64, View),
}

/// A participant of a snapshot object, as a program that makes one access a step.
///
/// It has a way to its place, one operation that is pending, and a count of its updates.
#[derive(Debug)]
pub struct Client<U, K> {
    /// The identity.
    pub identity: u64,
    /// The way to its place.
    pub walker: U,
    /// A walk that has read nothing. Each collect takes a copy of it.
    pub walk: K,
    /// How many updates it was asked for: from 0 to 1,000,000.
    pub updates: u32,
    /// What it has still to do.
    pub pending: Pending,
    /// The scan of the operation that is pending. It means nothing in a participant that neither scans nor updates.
    pub scan: Scan<K>,
}

impl<U: PlaceWalker + Copy, K: SegmentWalk<Reg = U::Reg, Value = U::Value> + Copy> Client<U, K> {
    /// Makes a participant that begins, on this way to its place. Nothing is pending if the way has a place already.
    pub fn new(identity: u64, walker: U, walk: K) -> Self {
        Client {
            identity,
            walker,
            walk,
            updates: 0,
            pending: if walker.place().is_some() {
                Pending::Nothing
            } else {
                Pending::Placing
            },
            scan: Scan::new(walk),
        }
    }

    /// Returns true if and only if nothing is pending.
    pub fn is_idle(&self) -> bool {
        matches!(self.pending, Pending::Nothing)
    }

    /// Takes the answer to an access on the way to the place, and returns the note of the step.
    fn resume_placing(&mut self, got: Answer<U::Value>) -> Note<SnapReply> {
        match self.walker.resume(got) {
            Note::Ended(place) => {
                self.pending = Pending::Nothing;
                Note::Said(SnapReply::Placed(place))
            }
            Note::Said(_) => Note::Quiet,
            Note::Quiet => Note::Quiet,
        }
    }

    /// Takes the answer to a read of a scan, and returns the note of the step. An update goes on to its write.
    fn resume_scan(&mut self, got: &U::Value, updates_with: Option<u64>) -> Note<SnapReply> {
        let Some(view) = self.scan.resume(got, self.walk) else {
            return Note::Quiet;
        };
        match updates_with {
            Some(value) => {
                self.pending = Pending::Write(value, view);
                Note::Quiet
            }
            None => {
                self.pending = Pending::Nothing;
                Note::Said(SnapReply::View(view))
            }
        }
    }
}

impl<U: PlaceWalker + Copy, K: SegmentWalk<Reg = U::Reg, Value = U::Value> + Copy> StepProgram
    for Client<U, K>
{
    type Reg = U::Reg;

    type Value = U::Value;

    type Output = SnapReply;

    fn next(&self) -> Access<U::Reg, U::Value> {
        match self.pending {
            Pending::Nothing => Access::Nothing,
            Pending::Placing => self.walker.next(),
            Pending::Scan => Access::Read(self.scan.walk.next()),
            Pending::Update(_) => Access::Read(self.scan.walk.next()),
            Pending::Write(value, view) => match self.walker.place() {
                Some(place) => Access::Write(
                    K::segment(place),
                    K::stored(Some(Record {
                        identity: self.identity,
                        value,
                        number: self.updates,
                        view,
                    })),
                ),
                None => Access::Nothing,
            },
        }
    }

    fn resume(&mut self, got: Answer<U::Value>) -> Note<SnapReply> {
        match self.pending {
            Pending::Nothing => Note::Quiet,
            Pending::Placing => self.resume_placing(got),
            Pending::Scan => match got {
                Answer::Value(value) => self.resume_scan(&value, None),
                Answer::WasSet(_) => Note::Quiet,
                Answer::Done => Note::Quiet,
            },
            Pending::Update(new_value) => match got {
                Answer::Value(value) => self.resume_scan(&value, Some(new_value)),
                Answer::WasSet(_) => Note::Quiet,
                Answer::Done => Note::Quiet,
            },
            Pending::Write(_, _) => {
                self.pending = Pending::Nothing;
                Note::Said(SnapReply::Written)
            }
        }
    }

    fn reads(&self) -> Option<U::Reg> {
        match self.pending {
            Pending::Nothing => None,
            Pending::Placing => None,
            Pending::Scan | Pending::Update(_) => Some(self.scan.walk.next()),
            Pending::Write(_, _) => None,
        }
    }

    fn read_on(&mut self, got: &U::Value) -> bool {
        match self.pending {
            Pending::Nothing => false,
            Pending::Placing => false,
            Pending::Scan | Pending::Update(_) => self.scan.read_on(got, self.walk),
            Pending::Write(_, _) => false,
        }
    }
}

/// The request of a scan. It replaces what was pending.
#[derive(Clone, Copy, Debug, PartialEq, Eq)]
pub struct ToScan;

impl<U, K: SegmentWalk + Copy> Request<Client<U, K>> for ToScan {
    fn ask(self, program: &mut Client<U, K>) {
        program.pending = Pending::Scan;
        program.scan.restart(program.walk);
    }
}

/// The request of an update: a scan, and then a write of the value.
///
/// A participant may be asked for at most 1,000,000 updates.
#[derive(Clone, Copy, Debug, PartialEq, Eq)]
pub struct ToUpdate {
    /// The value to write.
    pub value: u64,
}

impl<U, K: SegmentWalk + Copy> Request<Client<U, K>> for ToUpdate {
    fn ask(self, program: &mut Client<U, K>) {
        program.updates += 1;
        program.pending = Pending::Update(self.value);
        program.scan.restart(program.walk);
    }
}

/// A step of a participant on the way to its place, which the places make without a copy of a value.
#[derive(Clone, Copy, Debug, PartialEq, Eq)]
pub struct OnWay;

impl<W: Places> Shortcut<Client<W::Walker, W::Walk>, W> for OnWay
where
    W::Walker: Copy,
    W::Walk: Copy,
{
    type Reported = Note<Place>;

    fn take(
        program: &mut Client<W::Walker, W::Walk>,
        memory: &mut W,
    ) -> Result<Option<Note<Place>>, NoMemory> {
        let Pending::Placing = program.pending else {
            return Ok(None);
        };
        match memory.walk_on(&mut program.walker) {
            Ok(Some(note)) => {
                if note.ends() {
                    program.pending = Pending::Nothing;
                }
                Ok(Some(note))
            }
            not_taken => not_taken,
        }
    }
}
