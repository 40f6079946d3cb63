// Erased by bindings/rust/erase from crates/service_loop/src/host_fault.rt, sha256 1184ee54593cf58e2175a50dfbed6a81ef40a50b95f8d1993c7a5e4d8e9de2c6.
//! Why a server did not come to its end.

use crate::kit::alloc::AllocError;
use crate::kit::io;
use crate::kit::io::ErrorKind;
use crate::proved::model_steps::refusal::NoMemory;

/// Why a host did not come to its end. A fault of one connection is none of these.
#[derive(Debug)]
pub enum HostFault<F> {
    /// A growth was refused.
    Memory,
    /// To listen or to wait failed, so the system told.
    Network(ErrorKind),
    /// What it tells was not taken.
    Output,
    /// What the service told could not be kept; no reply of that turn was sent.
    Persist(F),
}

impl<F> From<AllocError> for HostFault<F> {
    fn from(_refused: AllocError) -> HostFault<F> {
        HostFault::Memory
    }
}

impl<F> From<NoMemory> for HostFault<F> {
    fn from(_refused: NoMemory) -> HostFault<F> {
        HostFault::Memory
    }
}

impl<F> From<io::Error> for HostFault<F> {
    fn from(error: io::Error) -> HostFault<F> {
        HostFault::Network(error.kind())
    }
}
