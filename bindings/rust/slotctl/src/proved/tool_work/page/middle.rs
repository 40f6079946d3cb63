// Erased by bindings/rust/erase from crates/tool_work/src/page/middle.rt, sha256 89307a225e37afa6f0a676efb7ea4ee4b377cdc11bec6538498119f9ccf13421.
//! What stands between the parts of a page.

/// What stands between the data and the last state.
pub const MIDDLE: &str = r#"</pre>
</details>
<section class="card still" id="still">
<h2>After the last event</h2>
<p>Each participant with the access that it makes next, its place, its name and its number of the pool, which it probes or holds with
what is in its slot; what stands in the registers and segments that were reached, names, slots, and the size of the pool.</p>
<ul>
"#;

/// What stands between the last state and the events.
pub const BETWEEN: &str = r#"</ul>
<h2>Space and time</h2>
<p>One lane a participant, and time goes down: the event, the access that it made, and its reply.</p>
<ol>
"#;

/// The bytes between the data and the last state.
pub(crate) fn middle() -> &'static [u8] {
    MIDDLE.as_bytes()
}

/// The bytes between the last state and the events.
pub(crate) fn between() -> &'static [u8] {
    BETWEEN.as_bytes()
}
