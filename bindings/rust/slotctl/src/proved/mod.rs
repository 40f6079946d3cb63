// Erased by bindings/rust/erase.
//! The proved code, its contracts taken out: a module for each crate.
#![forbid(unsafe_code)]
// The source is laid out and linted by its own tools.
#![allow(clippy::all)]

pub mod model_asked;
pub mod model_pool;
pub mod model_recursion;
pub mod model_renaming;
pub mod model_snapshot;
pub mod model_splitter;
pub mod model_steps;
pub mod service_follow;
pub mod service_hall;
pub mod service_host;
pub mod service_journal;
pub mod service_lock;
pub mod service_log;
pub mod service_loop;
pub mod service_watch;
pub mod slotctl;
pub mod text_checker;
pub mod text_lines;
pub mod text_player;
pub mod text_records;
pub mod text_worlds;
pub mod tool_work;
pub mod words_machine;
pub mod words_names;
