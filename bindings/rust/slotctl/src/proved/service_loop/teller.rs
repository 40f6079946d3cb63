// Erased by bindings/rust/erase from crates/service_loop/src/teller.rt, sha256 a0c866518fea34c77cd371988621490489f138e608c5bb64c9108601212b621f.
//! A standard error that holds up nobody.

use crate::kit::alloc::Global;
use crate::kit::io;
use crate::kit::io::Write;
use crate::kit::mio::unix::SourceFd;
use crate::kit::mio::{Events, Interest, Poll, Token};
use crate::kit::net::Net;
use crate::kit::time::Duration;
use crate::kit::String;

/// The file descriptor of standard error.
const STANDARD_ERROR: i32 = 2;

/// Writes lines on standard error where they are taken at once, and drops them where not: a pipe that nobody reads takes none once it is
/// full.
pub struct Teller {
    poll: Poll,
    events: Events<Global>,
    /// Of which pool it tells, where there are several.
    name: Option<String>,
}

impl Teller {
    /// A teller.
    ///
    /// # Errors
    ///
    /// What the system says where it has no room to wait for a file descriptor, or where an allocation failed.
    pub fn new<R: Net>(rt: &R, alloc: Global) -> io::Result<Teller> {
        Ok(Teller {
            poll: Poll::new(rt)?,
            events: Events::with_capacity(alloc, 1)?,
            name: None,
        })
    }

    /// A teller of the pool of this name: `pool NAME: ` stands before each line.
    ///
    /// # Errors
    ///
    /// Those of `new`.
    pub fn named<R: Net>(rt: &R, alloc: Global, name: String) -> io::Result<Teller> {
        let mut teller = Teller::new(rt, alloc)?;
        teller.name = Some(name);
        Ok(teller)
    }

    // Whether standard error takes a line at once. What cannot be waited for, as a file, takes all at once.
    fn takes_line(&mut self) -> bool {
        let mut source = SourceFd(&STANDARD_ERROR);
        let asked = self
            .poll
            .registry()
            .register(&mut source, Token(0), Interest::WRITABLE);
        if asked.is_err() {
            return true;
        }
        let polled = self
            .poll
            .poll(&mut self.events, Some(Duration::from_millis(0)));
        let _ = self.poll.registry().deregister(&mut source);
        polled.is_ok() && self.events.iter().any(|event| event.is_writable())
    }

    /// Writes a line, of 4,096 bytes at most, into what stands for standard error.
    pub fn tell<E: Write>(&mut self, line: &[u8], errors: &mut E) {
        if !self.takes_line() {
            return;
        }
        if let Some(name) = &self.name {
            let _ = write!(errors, "pool {name}: ");
        }
        let _ = errors.write_all(line);
    }
}
