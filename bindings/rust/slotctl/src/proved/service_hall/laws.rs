// Erased by bindings/rust/erase from crates/service_hall/src/laws.rt, sha256 a8b0c9d42f9000a2960c6e232795a16ed8025cad0448377bc271cc89cffe2871.
//! Laws of a hall, which run nothing.

/// A law of a hall as a service.
///
/// - `transcript`: the turns from a hall with no event are a transcript of its config. Turns whose reply is `NoMemory`
///   or `HistoryFull` are left out.
/// - `history`: the history gains the accepted events with their replies.
pub fn law_of_serving() {}
