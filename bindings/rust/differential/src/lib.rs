//! Two compilers of one source, held against each other: the erased code as rustc compiles it, beside the C library as the kit does.
//!
//! The tests want `libbeglushan.a` of `bindings/c/build` on the search path for native libraries.
#![cfg(test)]

extern crate alloc as std_alloc;

mod c;
mod erased;
#[allow(dead_code)] // the crate uses more of both
#[path = "../../beglushan/src/kit.rs"]
mod kit;
#[allow(dead_code)]
#[path = "../../beglushan/src/proved/mod.rs"]
mod proved;
mod tests;
