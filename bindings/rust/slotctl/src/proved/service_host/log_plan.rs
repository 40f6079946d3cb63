// Erased by bindings/rust/erase from crates/service_host/src/log_plan.rt, sha256 243a98220c543312c8088cc1be3853fa1aa725f971262039cd7d7b7ed8d9728a.
//! A log in etcd that keeps the history of a hall.

use crate::kit::alloc::Global;
use crate::kit::fs::File;
use crate::kit::io::Read;
use crate::kit::net::SocketAddr;
use crate::kit::rt::{Clock, Files};
use crate::kit::thread;
use crate::kit::time::{Duration, Instant};
use crate::kit::Vec;
use crate::proved::service_follow::pause::Pause;
use crate::proved::service_host::failure::HostFailure;

/// For how many seconds at most one read or write of a member of etcd may take.
pub(crate) const MEMBER_SECONDS: u64 = 2;

/// For how many milliseconds nothing is asked where no member answered.
const REST: u64 = 50;

/// A log in etcd that keeps the history of a hall, and that other servers of it share.
#[derive(Clone, Copy, Debug)]
pub struct LogPlan<'a> {
    /// The addresses of the members of etcd, with a comma between them, as `10.0.0.1:2379,10.0.0.2:2379`. No names are looked up.
    pub members: &'a str,
    /// What each key begins with. It is this hall's alone, and nobody else deletes anything under it.
    pub prefix: &'a str,
    /// For how many seconds clients wait while no member answers.
    pub patience: u64,
}

/// Waits for the members by the clock.
pub struct Patience<'r, R: Clock> {
    rt: &'r R,
    most: Duration,
    begun: Option<Instant>,
    made: Option<Instant>,
}

impl<'r, R: Clock> Patience<'r, R> {
    /// It waits for so many seconds.
    pub fn new(rt: &'r R, seconds: u64) -> Patience<'r, R> {
        Patience {
            rt,
            most: Duration::from_secs(seconds),
            begun: None,
            made: Instant::now(rt).ok(),
        }
    }
}

impl<'r, R: Clock> Pause for Patience<'r, R> {
    fn begin(&mut self) {
        self.begun = Instant::now(self.rt).ok();
    }

    fn again(&mut self) -> bool {
        let Some(begun) = self.begun else {
            return false;
        };
        let Ok(passed) = begun.elapsed(self.rt) else {
            return false;
        };
        if self.most <= passed {
            return false;
        }
        thread::sleep(self.rt, Duration::from_millis(REST));
        true
    }

    // Trusted, since no contract speaks of time: that the clock goes on, and that what it counts is a second.
    fn seconds(&self) -> u64 {
        let Some(made) = self.made else {
            return u64::MAX;
        };
        match made.elapsed(self.rt) {
            Ok(passed) => passed.as_secs(),
            Err(_) => u64::MAX,
        }
    }
}

/// The addresses that a text names, with a comma between them.
///
/// # Errors
///
/// - `NoMembers`: a word between commas is no address with a port.
/// - `Memory`: an allocation failed.
pub fn members_of(alloc: Global, text: &str) -> Result<Vec<SocketAddr>, HostFailure> {
    let mut members = Vec::new(alloc);
    for word in text.split(',') {
        let Ok(address) = word.parse::<SocketAddr>() else {
            return Err(HostFailure::NoMembers);
        };
        if members.push(address).is_err() {
            return Err(HostFailure::Memory);
        }
    }
    Ok(members)
}

/// The digits of a number below 16, and of those above it in a byte.
const DIGITS: &[u8; 16] = b"0123456789abcdef";

/// 32 hex digits that nobody else has, of the system's random bytes.
///
/// # Errors
///
/// `NoToken`: `/dev/urandom` could not be opened or read.
pub fn fresh_token<R: Files<File = File>>(rt: &R) -> Result<[u8; 32], HostFailure> {
    let mut bytes = [0u8; 16];
    let Ok(mut source) = File::open(rt, "/dev/urandom") else {
        return Err(HostFailure::NoToken);
    };
    if source.read_exact(&mut bytes).is_err() {
        return Err(HostFailure::NoToken);
    }
    let mut token = [0u8; 32];
    for at in 0..16 {
        token[2 * at] = DIGITS[(bytes[at] >> 4) as usize];
        token[2 * at + 1] = DIGITS[(bytes[at] & 15) as usize];
    }
    Ok(token)
}
