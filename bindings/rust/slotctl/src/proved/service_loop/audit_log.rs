// Erased by bindings/rust/erase from crates/service_loop/src/audit_log.rt, sha256 50c01f555848db269b67f36242dcc2276f74137d59e6430c525724a4ff53a52b.
//! Where the lines of an audit go.

use crate::kit::io::ErrorKind;

/// A log that lines are appended to. Nothing of a service depends on it.
pub trait AuditLog: Sized {
    /// Appends lines. Says whether all of them were written; where not, none was.
    fn write(&mut self, lines: &[u8]) -> bool;

    /// Is called about once a second.
    fn tick(&mut self);

    /// Why it could not be written or made anew when that was last tried.
    fn trouble(&self) -> Option<ErrorKind>;
}

// Where there is no log, none is wanted.
impl<L: AuditLog> AuditLog for Option<L> {
    fn write(&mut self, lines: &[u8]) -> bool {
        match self {
            Some(log) => log.write(lines),
            None => true,
        }
    }

    fn tick(&mut self) {
        if let Some(log) = self {
            log.tick();
        }
    }

    fn trouble(&self) -> Option<ErrorKind> {
        match self {
            Some(log) => log.trouble(),
            None => None,
        }
    }
}
