// Erased by bindings/rust/erase from crates/service_loop/src/pools.rt, sha256 e37bfc801eb28b274c6124afccf67fb2a57b93c4c182f3471fc2684ed8c37f63.
//! A server of several pools, in one thread.

use crate::kit::alloc::{AllocError, Global};
use crate::kit::format;
use crate::kit::io::Write;
use crate::kit::net::{Net, SocketAddr};
use crate::kit::rt::Clock;
use crate::kit::sync::Wait;
use crate::kit::time::{Duration, Instant};
use crate::kit::String;
use crate::kit::Vec;
use crate::proved::service_loop::attended::Attended;
use crate::proved::service_loop::audit_log::AuditLog;
use crate::proved::service_loop::host_fault::HostFault;
use crate::proved::service_loop::hosting::{put_line, HostOptions, Hosted, Hosting, FULL};
use crate::proved::service_loop::manner::Manner;
use crate::proved::service_loop::persist::Persist;
use crate::proved::service_loop::porch::{Arrival, Porch};
use crate::proved::service_loop::shared::SharedBuffers;
use crate::proved::service_loop::socket::Socket;
use crate::proved::service_loop::teller::Teller;
use crate::proved::service_loop::watching::numbers_of;
use crate::proved::service_watch::listeners::listening::Listeners;
use crate::proved::service_watch::numbers::Numbers;
use crate::proved::service_watch::page::put_page;
use crate::proved::service_watch::pool_pages::{put_pages, PoolPage};
use crate::proved::text_player::service::Service;

/// For how many seconds nothing need be done at most.
const MOST_WAIT: u64 = 20;

/// One of the pools of a server: a service, what keeps it, and its connections.
pub struct HostedPool<D, K, L> {
    /// The name by which clients choose it.
    pub name: String,
    /// The service, and who keeps the stays in it.
    pub service: Attended<D>,
    /// What keeps what the service tells.
    pub persister: K,
    /// How many seconds after its connection has ended a stay ends; never, where it is not given.
    pub grace: Option<u64>,
    manner: Manner,
    log: L,
    hosting: Hosting,
    /// Whether something is to be done for it.
    due: bool,
}

impl<D, K: Persist<D>, L: AuditLog> HostedPool<D, K, L> {
    /// A pool that has no connections yet. What its audit tells is appended to the log.
    ///
    /// # Errors
    ///
    /// - `Memory`: an allocation failed.
    /// - `Network`: what the system says.
    pub fn new<R: Net + Clock>(
        rt: &R,
        alloc: Global,
        name: String,
        options: HostOptions,
        service: Attended<D>,
        persister: K,
        log: L,
    ) -> Result<HostedPool<D, K, L>, HostFault<K::Fault>> {
        let told = String::from_str(alloc, &name)?;
        let hosting = Hosting::within(rt, alloc, options, told, persister.most_prefetched())?;
        Ok(HostedPool {
            name,
            service,
            persister,
            manner: options.manner(),
            grace: options.grace,
            log,
            hosting,
            due: true,
        })
    }
}

impl<D, K: Persist<D>, L> HostedPool<D, K, L> {
    // What those who watch are told of it. It has no log.
    fn numbers(&self) -> Numbers {
        let loops = self.hosting.numbers(&self.service.audit);
        numbers_of(&loops, &self.persister.tally(&self.service.service), 0)
    }

    // Its page of these numbers.
    fn page(&self, alloc: Global, numbers: &Numbers) -> Result<PoolPage, AllocError> {
        let mut page = Vec::new(alloc);
        put_page(numbers, &mut page)?;
        Ok(PoolPage::new(String::from_str(alloc, &self.name)?, page))
    }
}

impl<D, K: Persist<D>, L: AuditLog> HostedPool<D, K, L> {
    // Once round, where something is to be done for it.
    fn go_round<R: Clock, E: Write>(
        &mut self,
        rt: &R,
        shared: &mut SharedBuffers<Global>,
        errors: &mut E,
    ) -> Result<(), HostFault<K::Fault>>
    where
        D: Service<R>,
    {
        if !self.due {
            return Ok(());
        }
        self.hosting.go_round(
            rt,
            self.manner,
            self.grace,
            &mut self.service,
            &mut self.persister,
            shared,
            &mut self.log,
            errors,
        )?;
        self.due = self.hosting.is_due();
        Ok(())
    }
}

impl<D, K, L> HostedPool<D, K, L> {
    // Something is to be done for it; and it is to end, where that is told.
    fn wake(&mut self, stops: bool) {
        self.due = true;
        if stops {
            self.hosting.stop();
        }
    }

    // Lets in one connection.
    fn welcome(&mut self, stream: Socket, peer: Option<SocketAddr>) -> Result<(), AllocError> {
        self.due = true;
        self.hosting.welcome(stream, peer, &mut self.service.audit)
    }

    // Whether it is at its end. Is asked once a round.
    fn is_over(&mut self) -> bool {
        self.hosting.is_over()
    }
}

// The system told of the pool at this place, or all pools are to end.
fn wake_at<D, K, L>(pools: &mut [HostedPool<D, K, L>], at: usize, stops: bool) {
    if at < pools.len() {
        pools[at].wake(stops);
    }
}

// The first so many pools are woken, or are to end.
fn wake_first<D, K, L>(pools: &mut [HostedPool<D, K, L>], count: usize, stops: bool) {
    for at in 0..count {
        wake_at(pools, at, stops);
    }
}

// The pools are woken of which the system told.
fn wake_told<D, K, L>(pools: &mut [HostedPool<D, K, L>], porch: &mut Porch) {
    for _ in 0..u64::MAX {
        let Some(at) = porch.next_woken() else {
            break;
        };
        wake_at(pools, at, false);
    }
}

// Lets in one who has chosen the pool at this place.
fn welcome_at<D, K, L>(
    pools: &mut [HostedPool<D, K, L>],
    arrival: Arrival,
) -> Result<(), AllocError> {
    let Arrival { pool, stream, peer } = arrival;
    if pool < pools.len() {
        pools[pool].welcome(stream, peer)?;
    }
    Ok(())
}

// Lets in those who have chosen pools.
fn welcome_all<D, K, L>(
    pools: &mut [HostedPool<D, K, L>],
    porch: &mut Porch,
) -> Result<(), AllocError> {
    for _ in 0..u64::MAX {
        let Some(arrival) = porch.next_arrival() else {
            break;
        };
        welcome_at(pools, arrival)?;
    }
    Ok(())
}

// The pool at this place goes once round.
fn serve_at<R: Clock, D: Service<R>, K: Persist<D>, L: AuditLog, E: Write>(
    rt: &R,
    pools: &mut [HostedPool<D, K, L>],
    at: usize,
    shared: &mut SharedBuffers<Global>,
    errors: &mut E,
) -> Result<(), HostFault<K::Fault>> {
    if at < pools.len() {
        pools[at].go_round(rt, shared, errors)?;
    }
    Ok(())
}

// Each pool goes once round.
fn serve_all<R: Clock, D: Service<R>, K: Persist<D>, L: AuditLog, E: Write>(
    rt: &R,
    pools: &mut [HostedPool<D, K, L>],
    shared: &mut SharedBuffers<Global>,
    errors: &mut E,
) -> Result<(), HostFault<K::Fault>> {
    for at in 0..pools.len() {
        serve_at(rt, pools, at, shared, errors)?;
    }
    Ok(())
}

// Each pool is asked whether it is at its end. Says whether all are.
fn are_over<D, K, L>(pools: &mut [HostedPool<D, K, L>]) -> bool {
    let mut standing = 0u64;
    for at in 0..pools.len() {
        standing = standing.saturating_add(u64::from(!is_over_at(pools, at)));
    }
    standing == 0
}

// The pool at this place is asked whether it is at its end.
fn is_over_at<D, K, L>(pools: &mut [HostedPool<D, K, L>], at: usize) -> bool {
    if at < pools.len() {
        pools[at].is_over()
    } else {
        true
    }
}

// How many connections the pools have.
fn clients_of<D, K, L>(pools: &[HostedPool<D, K, L>]) -> usize {
    let mut clients = 0usize;
    for pool in pools {
        clients = clients.saturating_add(pool.hosting.clients());
    }
    clients
}

// How many connections the pools have had.
fn accepted_of<D, K, L>(pools: &[HostedPool<D, K, L>]) -> u64 {
    let mut accepted = 0u64;
    for pool in pools {
        accepted = accepted.saturating_add(pool.hosting.accepted());
    }
    accepted
}

// For how long nothing need be done for any pool.
fn wait_of<D, K, L>(pools: &[HostedPool<D, K, L>]) -> Duration {
    let mut most = Duration::from_secs(MOST_WAIT);
    for pool in pools {
        most = if pool.due {
            Duration::from_millis(0)
        } else {
            most.min(pool.hosting.next_wait())
        };
    }
    most
}

// The names of pools.
fn names_of<D, K, L>(
    alloc: Global,
    pools: &[HostedPool<D, K, L>],
) -> Result<Vec<String>, AllocError> {
    let mut names = Vec::new(alloc);
    for pool in pools {
        names
            .push(String::from_str(alloc, &pool.name)?)
            .map_err(|_| AllocError)?;
    }
    Ok(names)
}

// Appends the page of these pools. Says whether the clients of each are answered.
fn put_pools<D, K: Persist<D>, L>(
    alloc: Global,
    pools: &[HostedPool<D, K, L>],
    page: &mut Vec<u8>,
) -> Result<bool, AllocError> {
    let mut ready = true;
    let mut pages = Vec::new(alloc);
    for pool in pools {
        let numbers = pool.numbers();
        ready = ready && numbers.ready;
        if pages.push(pool.page(alloc, &numbers)?).is_err() {
            return Err(AllocError);
        }
    }
    put_pages(alloc, &mut pages, page)?;
    Ok(ready)
}

/// A server of several pools under way.
struct PoolServer {
    alloc: Global,
    /// How many clients are served at once.
    clients: usize,
    porch: Porch,
    start: Instant,
    /// The second since the start that is under way.
    second: u64,
    /// How many seconds were counted.
    tick: u64,
    /// Whether a second has passed since the last round.
    ticked: bool,
    /// Whether it was said that one could not be accepted.
    said: bool,
    teller: Teller,
}

impl PoolServer {
    // Listens, and waits for each pool.
    fn new<R: Net + Clock, D, K, L, F>(
        rt: &R,
        alloc: Global,
        clients: usize,
        listeners: Listeners,
        pools: &[HostedPool<D, K, L>],
    ) -> Result<PoolServer, HostFault<F>> {
        let names = names_of(alloc, pools)?;
        let porch = Porch::new(rt, alloc, listeners, names)?;
        for at in 0..pools.len() {
            porch.watch(at, pools[at].hosting.descriptor())?;
        }
        Ok(PoolServer {
            alloc,
            clients,
            porch,
            start: Instant::now(rt)?,
            second: 0,
            tick: 0,
            ticked: false,
            said: false,
            teller: Teller::new(rt, alloc)?,
        })
    }

    // How many more may be there who have not chosen a pool, beside the connections of these pools.
    fn room<D, K, L>(&self, pools: &[HostedPool<D, K, L>]) -> usize {
        self.clients.saturating_sub(clients_of(pools))
    }

    // For how long nothing need be done.
    fn next_wait<D, K, L>(&self, pools: &[HostedPool<D, K, L>]) -> Duration {
        if self.porch.can_accept(self.room(pools)) || self.porch.is_watched() {
            return Duration::from_millis(0);
        }
        wait_of(pools).min(Duration::from_millis(1000))
    }

    // Waits, lets in who waits, and notes who has chosen a pool.
    fn wait<R: Clock, F>(
        &mut self,
        rt: &R,
        most: Duration,
        room: usize,
    ) -> Result<(), HostFault<F>> {
        self.porch.wait(most)?;
        let second = self.start.elapsed(rt)?.as_secs();
        self.ticked = self.second < second;
        if self.ticked {
            self.second = second;
            self.tick = self.tick.saturating_add(1);
            self.porch.sweep(self.tick)?;
        }
        self.porch.receive(room, self.tick)?;
        Ok(())
    }

    // Waits until there is something to do for a pool, lets in who has chosen one, and serves those who watch.
    fn go_on<R: Clock, D, K: Persist<D>, L, E: Write>(
        &mut self,
        rt: &R,
        pools: &mut [HostedPool<D, K, L>],
        errors: &mut E,
    ) -> Result<(), HostFault<K::Fault>> {
        let most = self.next_wait(pools);
        let room = self.room(pools);
        self.wait(rt, most, room)?;
        self.tell_full(errors);
        self.let_in(pools)?;
        self.serve_watchers(pools)?;
        Ok(())
    }

    // Says once that no more are accepted for now.
    fn tell_full<E: Write>(&mut self, errors: &mut E) {
        if self.porch.is_full() && !self.said {
            self.said = true;
            self.teller.tell(FULL, errors);
        }
    }

    // Serves those who watch, as far as they may go on now.
    fn serve_watchers<D, K: Persist<D>, L>(
        &mut self,
        pools: &[HostedPool<D, K, L>],
    ) -> Result<(), AllocError> {
        if !self.ticked && !self.porch.is_watched() {
            return Ok(());
        }
        if self.porch.want_answers(self.tick) {
            let mut page = Vec::new(self.alloc);
            let ready = put_pools(self.alloc, pools, &mut page)?;
            self.porch.answer(ready, &page);
        }
        self.porch.send(self.tick);
        Ok(())
    }

    // Wakes the pools of which the system told, or all where a second has passed or they are to end, and lets in those who have chosen one.
    fn let_in<D, K, L>(&mut self, pools: &mut [HostedPool<D, K, L>]) -> Result<(), AllocError> {
        wake_told(pools, &mut self.porch);
        let stops = self.porch.is_stopped();
        let count = if self.ticked || stops { pools.len() } else { 0 };
        wake_first(pools, count, stops);
        welcome_all(pools, &mut self.porch)
    }

    // Says where clients are listened for, and which pools there are.
    fn tell_listening<D, K, L, W: Write, F>(
        &self,
        pools: &[HostedPool<D, K, L>],
        output: &mut W,
    ) -> Result<(), HostFault<F>> {
        if let Some(address) = self.porch.doors().address()? {
            put_line(format!(in self.alloc; "listening {address}\n"), output)?;
        }
        if let Some(path) = self.porch.doors().path() {
            put_line(format!(in self.alloc; "listening {path}\n"), output)?;
        }
        if let Some(path) = self.porch.doors().admin_path() {
            put_line(format!(in self.alloc; "admin {path}\n"), output)?;
        }
        if let Some(address) = self.porch.metrics_address()? {
            put_line(format!(in self.alloc; "metrics {address}\n"), output)?;
        }
        for pool in pools {
            let name = &pool.name;
            put_line(format!(in self.alloc; "pool {name}\n"), output)?;
        }
        Ok(())
    }

    // Says how many were served: by pools, and those that chose none.
    fn tell_end<D, K, L, W: Write, F>(
        &self,
        pools: &[HostedPool<D, K, L>],
        output: &mut W,
    ) -> Result<Hosted, HostFault<F>> {
        let served = self.porch.accepted().saturating_add(accepted_of(pools));
        put_line(format!(in self.alloc; "served {served}\n"), output)?;
        Ok(Hosted { served })
    }
}

/// Serves clients of several pools, in one thread: each client chooses one by its first line, `pool NAME`, which is answered `ok`, and from then on
/// its lines are those to a server of that pool alone (`host`). A first line that chooses none of them is answered `bad 1`, and who says none within ten
/// seconds is closed.
///
/// Lines `listening ADDRESS:PORT` and `listening PATH` are written first, and a line `pool NAME` for each pool. It ends as `host` does, and so does each
/// pool then.
///
/// # Errors
///
/// Those of `host`, of any pool: the others end with it. Nothing is sent of the turn of that pool.
pub fn host_pools<R, D: Service<R>, K: Persist<D>, L: AuditLog, W: Write, E: Write>(
    rt: &R,
    alloc: Global,
    clients: usize,
    listeners: Listeners,
    pools: &mut [HostedPool<D, K, L>],
    output: &mut W,
    errors: &mut E,
) -> Result<Hosted, HostFault<K::Fault>>
where
    R: Net + Wait + Clock,
{
    let mut shared = SharedBuffers::new(alloc)?;
    let mut server = PoolServer::new(rt, alloc, clients, listeners, pools)?;
    server.tell_listening(pools, output)?;
    for _ in rt.forever() {
        server.go_on(rt, pools, errors)?;
        serve_all(rt, pools, &mut shared, errors)?;
        if are_over(pools) {
            break;
        }
    }
    server.tell_end(pools, output)
}
