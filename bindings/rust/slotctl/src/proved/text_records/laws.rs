// Erased by bindings/rust/erase from crates/text_records/src/laws.rt, sha256 6b7779eee5855480a12f648d5c9d9138ff4edd11bb600e94da9a1220af270892.
//! Laws of the lines of records, which run nothing. A checker of records uses them.

/// A law of sealed lines. A line that was sealed is opened as it was. The lines of a text, sealed and opened, are the text, if nothing follows
/// its last LF. What is opened of the beginning of a text is a beginning of what is opened of all of it.
pub fn law_of_seals() {
    crate::proved::text_lines::laws::law_of_lines();
}
