//! What stands for the kit: Rattle's standard library and ported crates, in safe Rust over `std` and over the originals.
//!
//! A file has what one part of the kit has, and a function says by its name, or by the name in its first words, which
//! function of the kit it stands for. None of this is proved. What the source requires of the kit holds of it by reading,
//! and by the tests that run both builds.

pub mod alloc;
pub mod atomic_table;
pub mod base64;
pub mod boxed;
pub mod bumpalo;
pub mod clap;
pub mod collections;
pub mod convert;
pub mod env;
pub mod fs;
pub mod hash;
pub mod http1;
pub mod httparse;
pub mod io;
pub mod json;
pub mod logbook;
pub mod marker;
pub mod mio;
pub mod net;
pub mod os;
pub mod rand_core;
pub mod rt;
pub mod serde_json;
pub mod sha2;
mod string;
pub mod sync;
pub mod thread;
pub mod time;
#[cfg(test)]
mod trials;
pub mod vec;

pub use ::hex;
pub use ::itoa;
pub use ::memchr;
pub use ::rand_pcg;
pub use ::thiserror;

pub use alloc::Clone;
pub use boxed::Box;
pub use rt::HostRuntime;
pub use string::String;
pub(crate) use string::{format, vec};
pub use vec::Vec;
