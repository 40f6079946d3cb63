// Erased by bindings/rust/erase from crates/text_worlds/src/world.rt, sha256 70ee9d7b0a38e1e94a79f06a96d532a0014ed1e5b9e73ffd900818938ed47362.
//! Worlds: services that a configuration opens, whose runs satisfy a trace specification.

use crate::proved::model_asked::config::Config;
use crate::proved::model_steps::refusal::Refusal;
use crate::proved::text_player::service::Service;

/// What a splitter, a grid or a desk waits for: nothing, since one caller owns it.
///
/// This crate implements a trait of `text_player` for types of other crates, and so has to name a type of its own: this one.
#[derive(Clone, Copy)]
pub struct Unshared;

/// A world that a configuration opens, whose runs satisfy a trace specification.
pub trait World<A, R>: Sized + Service<R> {
    /// Makes a fresh world, and allocates all that it needs before its first event.
    ///
    /// # Errors
    ///
    /// `NoMemory`: an allocation failed.
    fn open(alloc: A, config: Config) -> Result<Self, Refusal>;
}
