//! A snapshot object: each participant scans the segments of all, or updates its own, one access a step.

use crate::places::Places;
use crate::roster::Roster;

/// Identities and their values, by identity.
pub type View = Vec<(u64, u64)>;

/// What a participant wrote last, and what it had seen before.
struct Segment {
    identity: u64,
    value: u64,
    view: View,
}

enum Pending<W> {
    Nothing,
    Placing(W),
    Scan,
    Update(u64),
    Write(u64),
}

struct Client<P: Places> {
    /// Where its collect stands, in a scan or an update.
    walk: Option<P::Walk>,
    /// Which write of each place it read last.
    seen: Vec<u32>,
    /// The values of those writes.
    latest: View,
    pending: Pending<P::Way>,
    /// Whether this scan has collected once, and whether its collect differs from the one before.
    again: bool,
    differs: bool,
    /// The places that were seen to change during this scan.
    moved: Vec<usize>,
    /// What its last scan saw.
    view: View,
    place: usize,
}

/// How a step ends.
pub enum Reply {
    Idle,
    Quiet,
    Placed(usize),
    Written,
    Viewed,
}

pub struct Snapshot<P: Places> {
    pub roster: Roster,
    pub places: P,
    /// How often each place was written. A scan compares these alone, so they lie together, apart from what was written.
    writes: Vec<u32>,
    /// Whose place each is, and what each participant wrote.
    owners: Vec<usize>,
    segments: Vec<Segment>,
    clients: Vec<Client<P>>,
}

impl<P: Places> Snapshot<P> {
    pub fn new(m: usize) -> Self {
        Snapshot {
            roster: Roster::new(m),
            places: P::new(m),
            writes: vec![0; P::most(m)],
            owners: vec![0; P::most(m)],
            segments: Vec::with_capacity(m),
            clients: Vec::with_capacity(m),
        }
    }
    pub fn begin(&mut self, identity: u64) {
        self.roster.push(identity);
        self.segments.push(Segment { identity, value: 0, view: Vec::new() });
        self.clients.push(Client {
            walk: None,
            seen: Vec::new(),
            latest: Vec::new(),
            pending: Pending::Placing(P::way()),
            again: false,
            differs: false,
            moved: Vec::new(),
            view: Vec::new(),
            place: 0,
        });
    }
    pub fn scan(&mut self, client: usize) {
        self.clients[client].start(Pending::Scan);
    }
    pub fn update(&mut self, client: usize, value: u64) {
        self.clients[client].start(Pending::Update(value));
    }
    /// What the last scan of a client saw.
    pub fn view(&self, client: usize) -> &View {
        &self.clients[client].view
    }
    /// Makes the client's access if it is a read that finds nothing new, and not the last of a collect. This is most steps.
    #[inline(always)]
    pub fn read_on(&mut self, client: usize) -> bool {
        let Client { walk: Some(walk), seen, .. } = &mut self.clients[client] else {
            return false;
        };
        if P::reads(*walk).is_some_and(|place| seen[place] != self.writes[place]) {
            return false;
        }
        let Some(next) = self.places.next(*walk) else {
            return false;
        };
        *walk = next;
        true
    }
    /// Makes the client's access, whatever it is.
    #[inline(always)]
    pub fn step(&mut self, at: usize) -> Reply {
        let client = &mut self.clients[at];
        match &mut client.pending {
            Pending::Nothing => Reply::Idle,
            Pending::Placing(way) => {
                let Some(place) = self.places.place(way, self.roster.identities[at]) else {
                    return Reply::Quiet;
                };
                client.place = place;
                client.seen = vec![0; self.writes.len()];
                client.pending = Pending::Nothing;
                self.owners[place] = at;
                Reply::Placed(place)
            }
            Pending::Write(value) => {
                let segment = &mut self.segments[at];
                segment.value = *value;
                segment.view.clone_from(&client.view);
                self.writes[client.place] += 1;
                client.pending = Pending::Nothing;
                Reply::Written
            }
            Pending::Scan | Pending::Update(_) => {
                let of = |place: usize| &self.segments[self.owners[place]];
                match client.read(&self.places, &self.writes, of) {
                    true => client.end(),
                    false => Reply::Quiet,
                }
            }
        }
    }
}

impl<P: Places> Client<P> {
    fn start(&mut self, pending: Pending<P::Way>) {
        self.pending = pending;
        self.walk = Some(P::walk());
        self.again = false;
        self.differs = false;
        self.moved.clear();
    }
    /// Ends a scan with a view: of an update, its write is left.
    fn end(&mut self) -> Reply {
        self.walk = None;
        if let Pending::Update(value) = self.pending {
            self.pending = Pending::Write(value);
            return Reply::Quiet;
        }
        self.pending = Pending::Nothing;
        Reply::Viewed
    }
    /// Makes one access of a scan: whether the view is there.
    fn read<'a>(&mut self, places: &P, writes: &[u32], of: impl Fn(usize) -> &'a Segment) -> bool {
        let Some(walk) = self.walk else {
            return false;
        };
        if let Some(place) = P::reads(walk).filter(|place| self.seen[*place] != writes[*place]) {
            if self.moves_twice(place) {
                self.view.clone_from(&of(place).view);
                return true;
            }
            self.seen[place] = writes[place];
            self.keep(of(place));
        }
        self.walk = places.next(walk);
        if self.walk.is_some() {
            return false;
        }
        if self.again && !self.differs {
            self.view.clone_from(&self.latest);
            return true;
        }
        self.walk = Some(P::walk());
        self.again = true;
        self.differs = false;
        false
    }
    /// Whether it was seen to change before, where it is seen to change.
    fn moves_twice(&mut self, place: usize) -> bool {
        if self.again {
            if self.moved.contains(&place) {
                return true;
            }
            self.moved.push(place);
            self.differs = true;
        }
        false
    }
    fn keep(&mut self, segment: &Segment) {
        match self.latest.binary_search_by_key(&segment.identity, |pair| pair.0) {
            Ok(at) => self.latest[at].1 = segment.value,
            Err(at) => self.latest.insert(at, (segment.identity, segment.value)),
        }
    }
}
