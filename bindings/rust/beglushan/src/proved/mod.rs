// Erased by bindings/rust/erase.
//! The proved code, its contracts taken out: a module for each crate.
#![forbid(unsafe_code)]
// The source is laid out and linted by its own tools.
#![allow(clippy::all)]

pub mod model_recursion;
pub mod model_splitter;
pub mod model_steps;
pub mod words_machine;
pub mod words_names;
pub mod words_pool;
