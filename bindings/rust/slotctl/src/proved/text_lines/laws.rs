// Erased by bindings/rust/erase from crates/text_lines/src/laws.rt, sha256 47d1a8513d1e4b7de147c42fef04c335aae0a7cb4869ff643179b383bed69517.
//! A law of lines, which runs nothing.

/// A law: bytes are cut in exactly one way into whole lines and a rest. Each line has its LF, and no other LF is in it.
pub fn law_of_lines() {}
