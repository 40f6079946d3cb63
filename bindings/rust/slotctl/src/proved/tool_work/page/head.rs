// Erased by bindings/rust/erase from crates/tool_work/src/page/head.rt, sha256 8f88326baad7fbf576c32bd62839292020f0655f28c4369144be7b9241684ba8.
//! What a page begins with.

/// What a page begins with: its styles and its places, up to the data.
pub const HEAD: &str = r#"<!doctype html>
<html lang="en">
<head>
<meta charset="utf-8">
<meta name="viewport" content="width=device-width, initial-scale=1">
<meta name="color-scheme" content="light dark">
<title>A run of renaming</title>
<style>
:root {
  --paper: #fcfcf9; --card: #fff; --ink: #1d2329; --soft: #5b6570; --line: #d5d9dc;
  --now: #c2410c; --box: #f3f4f1; --far: #9aa3ab; --scan: #dbe7f3; --warn: #8a3d00;
  --c0: #0072b2; --c1: #d55e00; --c2: #007a5a; --c3: #a3507f; --c4: #8a6d00; --c5: #2f6f9f;
  --c6: #4d4d4d; --c7: #7a3db8;
}
@media (prefers-color-scheme: dark) {
  :root {
    --paper: #14181c; --card: #1b2026; --ink: #e6e9ec; --soft: #9da8b3; --line: #39424b;
    --now: #ffa264; --box: #242b32; --far: #65707b; --scan: #23384d; --warn: #ffb37a;
    --c0: #56b4e9; --c1: #ff9248; --c2: #35c99c; --c3: #e39cc5; --c4: #f0e442; --c5: #93c6ee;
    --c6: #c3c8cd; --c7: #c39bf0;
  }
}
* { box-sizing: border-box; }
body {
  margin: 0 auto; max-width: 78rem; padding: 1.2rem; background: var(--paper); color: var(--ink);
  font: 15px/1.5 system-ui, "Segoe UI", "Helvetica Neue", sans-serif;
}
h1 { font-size: 1.5rem; font-weight: 600; letter-spacing: -.01em; margin: 0; }
h2 {
  font-size: .75rem; font-weight: 600; letter-spacing: .08em; text-transform: uppercase;
  color: var(--soft); margin: 0 0 .5rem;
}
p { margin: .2rem 0; }
#about, .note { color: var(--soft); }
.card {
  background: var(--card); border: 1px solid var(--line); border-radius: 10px; padding: 1rem;
  margin-top: 1rem; min-width: 0;
}
.controls { display: flex; flex-wrap: wrap; gap: .5rem .8rem; align-items: center; }
.controls button {
  font: inherit; color: inherit; background: var(--box); border: 1px solid var(--line);
  border-radius: 7px; padding: .3rem .7rem; min-width: 2.6rem; cursor: pointer;
}
.controls button:hover { border-color: var(--far); }
.controls input { flex: 1 1 14rem; accent-color: var(--now); min-width: 8rem; }
:focus-visible { outline: 2px solid var(--now); outline-offset: 2px; }
#words { font-size: 1.12rem; min-height: 1.6em; margin-top: .7rem; }
#words b { font-weight: 600; }
#differs { color: var(--warn); }
.stage { display: grid; grid-template-columns: minmax(0, 3fr) minmax(17rem, 2fr); gap: 1rem; }
.wide { overflow: auto; min-width: 0; }
.lanes { display: flex; }
.lanes > svg { flex: none; }
svg { display: block; }
svg text { font: 12px system-ui, "Segoe UI", "Helvetica Neue", sans-serif; fill: var(--ink); }
.room { fill: var(--box); stroke: var(--line); }
.room.now { stroke: var(--now); stroke-width: 2.5; }
.way { stroke: var(--far); fill: none; }
.tip { fill: var(--far); }
svg .label { fill: var(--soft); }
svg .fresh { fill: var(--now); font-weight: 700; }
svg .disc { fill: #fff; font-weight: 700; font-size: 11px; }
@media (prefers-color-scheme: dark) { svg .disc { fill: #14181c; } }
svg .strong { font-weight: 600; }
.lane { stroke: var(--line); }
.scan { fill: var(--scan); }
.moment { stroke: var(--ink); stroke-width: 1.5; stroke-dasharray: 2 2; }
.clash { stroke: var(--now); stroke-width: 1.5; fill: none; }
.unentered { opacity: .5; }
.cursor { stroke: var(--now); stroke-width: 2; }
table { border-collapse: collapse; width: 100%; font-variant-numeric: tabular-nums; }
th, td { text-align: left; padding: .18rem .6rem .18rem 0; border-bottom: 1px solid var(--line); }
#people { white-space: nowrap; }
th { font-weight: 500; color: var(--soft); font-size: .85rem; }
#people th[scope=col] { position: sticky; top: 0; background: var(--card); }
.cells { display: flex; flex-wrap: wrap; gap: .3rem; margin-bottom: 1rem; }
.cell {
  border: 1px solid var(--line); border-radius: 6px; padding: .1rem .45rem; min-width: 3.2rem;
  background: var(--box); font-variant-numeric: tabular-nums;
}
.cell small { display: block; color: var(--soft); }
.cell.has { border-color: var(--ink); font-weight: 600; }
.cell.far { border-style: dashed; opacity: .6; }
.key { display: flex; flex-wrap: wrap; gap: .2rem 1.1rem; margin-top: .6rem; color: var(--soft); }
.key span { display: inline-flex; align-items: center; gap: .3rem; }
pre { overflow: auto; max-height: 24rem; font: 12px/1.45 ui-monospace, monospace; }
.still ol { padding: 0; overflow-x: auto; list-style-position: inside; font-variant-numeric: tabular-nums; }
.still ol li {
  --hue: calc((var(--lane, -1) + 1) * 67); width: max-content; padding: 0 .5rem;
  margin-left: calc((var(--lane, -1) + 1) * 3.5rem); border-left: 3px solid hsl(var(--hue) 55% 50%);
}
.still b:empty { display: none; }
.still ul { columns: 18rem; padding-left: 1.2rem; }
@media (max-width: 52rem) { .stage { grid-template-columns: minmax(0, 1fr); } }
@media (max-width: 30rem) {
  #people { font-size: .82rem; }
  #people th, #people td { font-size: inherit; padding-right: .3rem; }
  #keys { display: none; }
}
@media screen {
  .stage .wide { max-height: max(22rem, 100vh - 14rem); }
  #state .wide { max-height: max(16rem, 100vh - 36rem); }
  .cells { max-height: 13rem; overflow-y: auto; }
}
@media screen and (min-width: 52rem) and (min-height: 40rem) {
  #player { position: sticky; top: 0; z-index: 1; }
}
@media print {
  .controls button, .controls input, #keys, details { display: none; }
  body { max-width: none; }
  .card { break-inside: avoid; }
  .stage { display: block; }
  #space { min-width: 0 !important; max-height: 50vh; }
  .whole #time, .whole #lanes { width: 100%; height: auto; }
  .whole .lanes > * { flex: var(--part, 72) 1 0; min-width: 0; }
}
</style>
<noscript><style>.stage, #timecard { display: none; }</style></noscript>
</head>
<body>
<header>
  <h1>A run of renaming</h1>
  <p id="about">The events of a run, one access each. With a script this page draws them.</p>
</header>
<main>
<section class="card" id="player" hidden aria-label="The present event">
  <div class="controls">
    <button id="first" aria-label="before the first event" title="Home">|◀</button>
    <button id="back" aria-label="one event back" title="Left arrow">◀</button>
    <button id="play" aria-label="play" title="Space">▶ play</button>
    <button id="forth" aria-label="one event forth" title="Right arrow">▶</button>
    <button id="last" aria-label="to the last event" title="End">▶|</button>
    <input id="slider" type="range" min="0" value="0" aria-label="the event that is shown">
    <output id="place"></output>
  </div>
  <p id="words" aria-live="polite"></p>
  <p id="differs" hidden></p>
</section>
<div class="stage">
  <section class="card">
    <h2 id="where">Splitters</h2>
    <div class="wide"><svg id="space" role="img" aria-labelledby="where"></svg></div>
  </section>
  <section class="card" id="state">
    <h2>Participants</h2>
    <div class="wide"><table id="people" aria-label="Participants"><tbody></tbody></table></div>
    <h2 style="margin-top:1rem">Names</h2>
    <p class="note" id="law"></p>
    <div class="cells" id="names"></div>
    <h2>Pool and slots</h2>
    <p class="note" id="crowd"></p>
    <div class="cells" id="pool"></div>
  </section>
</div>
<section class="card" id="timecard">
  <h2 id="when">Space and time</h2>
  <div class="lanes">
    <svg id="lanes" aria-hidden="true"></svg>
    <div class="wide" id="scroll"><svg id="time" role="img" aria-labelledby="when"></svg></div>
  </div>
  <div class="key" id="key" aria-label="what the marks mean"></div>
  <p class="note" id="keys">A click on a mark shows its event. The keys ← and → go one event back and forth, Home and End to the ends, Space plays.</p>
</section>
<details class="card" id="source">
<summary>The events as data: event, reply, reply of a desk, access, and then what stands in its register, the next access, place, name,
number and slot of the participant, and the size of the pool; after them all that stood before the first</summary>
<pre id="run">{"record":"#;

/// Its bytes.
pub(crate) fn head() -> &'static [u8] {
    HEAD.as_bytes()
}
