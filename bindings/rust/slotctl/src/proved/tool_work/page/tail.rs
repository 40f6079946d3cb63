// Erased by bindings/rust/erase from crates/tool_work/src/page/tail.rt, sha256 32a93dd37ac190d5b9d618a0d5c62fca1c7ec42a5ec47a23d5fb93bef25f71e5.
//! What a page ends with.

/// What a page ends with: the script that draws the data.
pub const TAIL: &str = r#"</ol>
</section>
</main>
<script>
'use strict';
// The state that is drawn is what the data say: all that a desk held before the first row, and what each row tells after its event.
const $ = (id) => document.getElementById(id);
const run = JSON.parse($('run').textContent);
const config = run.record;
const tree = config.world === 'tree';
const offset = run.from < 1 ? 0 : run.from - 1;
const rows = run.rows.slice(0, -1).map(readRow);
const REFUSALS = ['', 'the identity is 0', 'it has begun already', 'no more may take part',
  'it has not begun', 'it has ended', 'it has used up its rounds', 'the pool is crowded',
  'it does not compete', 'it competes already', 'it holds a number already',
  'it holds no number', 'no memory', 'the history is full', 'out of range'];

function readAccess(text) {
  if (text === '') return null;
  const words = text.split(' ');
  return { kind: words[0], reg: words[1], place: words[2], word: words[3] };
}

// where somebody stands: the next access, the place, the name, and how it competes for the pool
function readStanding([next, place, name, pool]) {
  const [how, number, slot] = pool.split(' ');
  return {
    next: readAccess(next), place: place === '' ? null : place.split(' ')[1],
    name: name.startsWith('name') ? name.split(' ')[1] : name, pool: how,
    number: how === 'holds' ? number : '', slot,
  };
}

function readRow(row) {
  const [verb, id, value] = row[0].split(' ');
  const told = row[1].split(' ');
  return {
    verb, id: verb === 'widen' ? '' : id, value: verb === 'widen' ? id : value,
    text: row[0], told: row[1], reply: told[0], number: told[1], desk: row[2],
    access: readAccess(row[3]), held: row[4], stands: readStanding(row.slice(5, 9)), size: row[9],
    refused: told[0] === 'refused',
  };
}

// ---- the state after so many rows
// what the data tell of the state before the first: of people, and of registers, names, slots and the size by their words
const before = { people: new Map(), facts: new Map() };
for (const [of, ...is] of run.before.slice(0, -1)) {
  if (is.length > 1) before.people.set(of, readStanding(is));
  else before.facts.set(of, is[0]);
}

function fresh() {
  const s = { people: new Map(), facts: new Map(before.facts), differ: 0, refused: 0, row: null };
  for (const [id, stands] of before.people) stand(s, id, stands);
  return s;
}

function stand(s, id, stands) {
  s.people.set(id, stands);
  if (stands.name !== '' && stands.name !== 'spent') s.facts.set('name ' + stands.name, id);
  if (stands.number !== '') s.facts.set('slot ' + stands.number, stands.slot);
}

function follow(s, r) {
  s.row = r;
  if (r.refused) { s.refused += 1; return; }
  if (r.desk !== r.told) s.differ += 1;
  if (r.access && r.held !== '') s.facts.set(r.access.reg + ' ' + r.access.place, r.held);
  s.facts.set('size', r.size);
  if (r.id) stand(s, r.id, r.stands);
}

function stateAt(count) {
  const s = fresh();
  for (let i = 0; i < count; i += 1) follow(s, rows[i]);
  return s;
}

// the door or node at which one stands: its place, or that of the access that it makes next
function spotOf(stands) {
  if (stands.place !== null) return stands.place;
  return stands.next && stands.next.reg !== 'segment' ? stands.next.place : null;
}

// ---- words
const spot = (place) => (tree ? 'node ' : 'splitter ') + place;

function register(a) {
  if (a.reg === 'segment') return 'the segment at ' + spot(a.place);
  if (a.reg === 'mark') return 'the mark of ' + spot(a.place);
  return a.reg + ' of ' + spot(a.place);
}

function accessWords(a) {
  if (!a) return 'makes no access';
  if (a.kind === 'read') return 'reads ' + register(a);
  return 'writes ' + a.word + ' into ' + register(a);
}

function replyWords(r) {
  switch (r.reply) {
    case 'place': return 'it stopped: place ' + r.number + ' is its own';
    case 'proposed': return 'it proposes ' + r.number;
    case 'saw': return 'its view is ' + r.told.slice(4) + ', so another proposes the same';
    case 'named': return 'nobody else proposes it: its name is ' + r.number;
    case 'spent': return 'it has used up its rounds';
    case 'missed': return 'that number is taken';
    case 'got': return 'it holds number ' + r.number;
    case 'left': return 'it held number ' + r.number;
    case 'value': return 'its slot holds ' + r.number;
    case 'refused': return 'refused ' + r.number + ': ' + (REFUSALS[r.number] || '');
    default: return '';
  }
}

function deedWords(r) {
  if (r.refused) return '';
  switch (r.verb) {
    case 'begin': return r.id + ' begins';
    case 'step': return r.id + ' ' + accessWords(r.access);
    case 'enter': return r.id + ' begins to compete for the pool';
    case 'probe': return r.id + ' probes the next number';
    case 'seek': return r.id + ' probes until it has a number';
    case 'leave': return r.id + ' gives its number back';
    case 'put': return r.id + ' puts ' + r.value + ' into its slot';
    case 'get': return r.id + ' gets what is in its slot';
    default: return 'the pool gets numbers up to ' + r.value;
  }
}

function sentence(r) {
  if (!r && rows.length === 0) return 'No event is shown: all that was done is drawn.';
  if (!r && offset > 0) return 'What stood before event ' + (offset + 1) + ' is drawn.';
  if (!r) return 'Nothing was done yet.';
  return [deedWords(r), replyWords(r)].filter((part) => part !== '').join('; ');
}

// ---- drawing
const SVG = 'http://www.w3.org/2000/svg';

function put(parent, name, attributes, text) {
  const node = document.createElementNS(SVG, name);
  for (const key in attributes) node.setAttribute(key, attributes[key]);
  if (text !== undefined) node.textContent = text;
  parent.appendChild(node);
  return node;
}

function say(parent, name, text, css) {
  const node = document.createElement(name);
  node.textContent = text;
  if (css) node.className = css;
  parent.appendChild(node);
  return node;
}

const ids = [...before.people.keys()];
for (const r of rows) if (r.id && !r.refused && !ids.includes(r.id)) ids.push(r.id);
const color = (id) => 'var(--c' + ids.indexOf(id) % 8 + ')';
const short = (id) => (id.length < 5 ? id : '…' + id.slice(-3));

function disc(parent, id, x, y) {
  const g = put(parent, 'g', { class: 'who', 'data-id': id });
  const wide = Math.max(22, short(id).length * 7 + 10);
  put(g, 'rect', { x: x - wide / 2, y: y - 10, width: wide, height: 20, rx: 10,
    fill: color(id) });
  put(g, 'text', { x, y: y + 4, 'text-anchor': 'middle', class: 'disc' }, short(id));
  put(g, 'title', {}, id);
}

// where each splitter stands: by diagonals in a grid, by levels in a tree
function seen() {
  const all = new Set();
  for (const of of before.facts.keys()) {
    const [reg, place] = of.split(' ');
    if (reg === 'X' || reg === 'segment') all.add(place);
  }
  for (const stands of before.people.values()) {
    if (spotOf(stands) !== null) all.add(spotOf(stands));
  }
  for (const r of rows) {
    for (const a of [r.access, r.stands.next]) if (a) all.add(a.place);
    if (r.stands.place !== null) all.add(r.stands.place);
  }
  return all;
}

function gridRooms() {
  let depth = 0;
  const at = (p) => Math.floor((Math.sqrt(8 * p + 1) - 1) / 2);
  for (const p of seen()) depth = Math.max(depth, at(Number(p)));
  depth = Math.min(Math.max(depth, 1), Number(config.m) - 1);
  const rooms = new Map();
  for (let d = 0; d <= depth; d += 1) {
    for (let c = 0; c <= d; c += 1) {
      const p = d * (d + 1) / 2 + c;
      const right = d < depth ? String(p + d + 1) : null;
      const down = d < depth ? String(p + d + 2) : null;
      rooms.set(String(p), { x: (d - c) * 158 + 20, y: c * 128 + 40, right, down });
    }
  }
  return rooms;
}

function treeRooms() {
  const all = new Set(['1']);
  for (const p of seen()) for (let n = BigInt(p); n > 0n; n >>= 1n) all.add(String(n));
  const rooms = new Map();
  let column = 0;
  function lay(p, level) {
    const [down, right] = [String(2n * BigInt(p)), String(2n * BigInt(p) + 1n)];
    if (all.has(down)) lay(down, level + 1);
    rooms.set(p, { x: column * 100 + 20, y: level * 128 + 40, right, down });
    column += 1;
    if (all.has(right)) lay(right, level + 1);
  }
  lay('1', 0);
  return rooms;
}

// the splitters that somebody has entered
const entered = new Set();
for (const [of, is] of before.facts) {
  const [reg, place] = of.split(' ');
  if ((reg === 'X' || reg === 'mark') && is !== '0') entered.add(place);
}
for (const { access: a } of rows) {
  if (a && a.kind === 'write' && a.reg !== 'segment') entered.add(a.place);
}

const WIDE = 112;
const HIGH = 72;
const rooms = tree ? treeRooms() : gridRooms();
const parts = new Map();

function way(svg, from, to, name) {
  const line = { class: 'way', 'marker-end': 'url(' + '#tip)' };
  if (tree) {
    const x = from.x + WIDE / 2 + (name === 'right' ? 18 : -18);
    const end = to.x + WIDE / 2;
    const d = 'M' + x + ' ' + (from.y + HIGH) + 'L' + end + ' ' + (to.y - 5);
    put(svg, 'path', { ...line, d });
    put(svg, 'text', { x: (x + end) / 2 + (name === 'right' ? 8 : -8), y: from.y + HIGH + 22,
      'text-anchor': name === 'right' ? 'start' : 'end', class: 'label' }, name);
  } else if (name === 'right') {
    const y = from.y + 26;
    put(svg, 'path', { ...line, d: 'M' + (from.x + WIDE) + ' ' + y + 'H' + (to.x - 5) });
    put(svg, 'text', { x: from.x + WIDE + 6, y: y - 6, class: 'label' }, 'right');
  } else {
    const x = from.x + 24;
    put(svg, 'path', { ...line, d: 'M' + x + ' ' + (from.y + HIGH) + 'V' + (to.y - 5) });
    put(svg, 'text', { x: x + 6, y: from.y + HIGH + 20, class: 'label' }, 'down');
  }
}

function buildSpace() {
  const svg = $('space');
  $('where').textContent = tree ? 'The tree of splitters' : 'The grid of splitters';
  const defs = put(svg, 'defs', {});
  const tip = put(defs, 'marker', { id: 'tip', viewBox: '0 0 8 8', refX: 7, refY: 4,
    markerWidth: 7, markerHeight: 7, orient: 'auto' });
  put(tip, 'path', { d: 'M0 0L8 4L0 8z', class: 'tip' });
  let wide = 0;
  let high = 0;
  for (const room of rooms.values()) {
    wide = Math.max(wide, room.x + WIDE + 20);
    high = Math.max(high, room.y + HIGH + 26);
    if (room.right && rooms.has(room.right)) way(svg, room, rooms.get(room.right), 'right');
    if (room.down && rooms.has(room.down)) way(svg, room, rooms.get(room.down), 'down');
  }
  for (const [p, room] of rooms) {
    const g = put(svg, 'g', { 'data-splitter': p, class: entered.has(p) ? '' : 'unentered',
      transform: 'translate(' + room.x + ' ' + room.y + ')' });
    const title = put(g, 'title', {});
    const box = put(g, 'rect', { class: 'room', width: WIDE, height: HIGH, rx: 8 });
    put(g, 'text', { x: 8, y: 16, class: 'label' }, short(p));
    put(g, 'text', { x: 8, y: 38, class: 'label' }, 'X');
    put(g, 'text', { x: 68, y: 38, class: 'label' }, 'Y');
    const x = put(g, 'text', { x: 22, y: 38, class: 'strong' });
    const y = put(g, 'text', { x: 82, y: 38, class: 'strong' });
    const mark = put(g, 'text', { x: 26, y: 16, class: 'label' });
    const segment = put(g, 'text', { x: 8, y: 60 });
    const people = put(g, 'g', {});
    parts.set(p, { g, title, box, x, y, mark, segment, people });
  }
  svg.setAttribute('viewBox', '0 0 ' + wide + ' ' + high);
  svg.style.minWidth = Math.min(wide, Math.max(320, wide * 0.6)) + 'px';
  svg.style.maxWidth = wide * 1.4 + 'px';
  svg.style.width = '100%';
}

// what was not told of has held nothing but 0 so far
function value(s, reg, place) {
  const found = s.facts.get(reg + ' ' + place);
  return found === undefined ? '0' : found;
}

function drawRoom(s, p, part, here) {
  const r = s.row;
  const a = r && !r.refused ? r.access : null;
  const near = a && a.place === p ? a.reg : '';
  const x = value(s, 'X', p);
  const y = value(s, 'Y', p);
  const written = s.facts.get('segment ' + p);
  const home = here.find((one) => one.place === p);
  const marked = value(s, 'mark', p) !== '0';
  const all = [x, y, written, near, marked, here.map((one) => one.id), home && home.id].join();
  if (part.drawn === all) return;
  part.drawn = all;
  part.x.textContent = short(x);
  part.y.textContent = y;
  part.x.setAttribute('class', near === 'X' ? 'fresh' : 'strong');
  part.y.setAttribute('class', near === 'Y' ? 'fresh' : 'strong');
  part.mark.textContent = tree && marked ? '✓' : '';
  part.mark.setAttribute('class', near === 'mark' ? 'fresh' : 'label');
  part.segment.textContent = written !== undefined ? 'proposes ' + written
    : (home ? 'proposes –' : '');
  part.segment.setAttribute('class', near === 'segment' ? 'fresh' : 'strong');
  part.box.setAttribute('class', near ? 'room now' : 'room');
  part.g.setAttribute('class', near || entered.has(p) ? '' : 'unentered');
  part.g.setAttribute('data-x', x);
  part.g.setAttribute('data-y', y);
  part.g.setAttribute('data-segment', written === undefined ? '' : written);
  part.g.setAttribute('data-people', here.map((one) => one.id).join(' '));
  part.title.textContent = spot(p) + ': X ' + x + ', Y ' + y
    + here.map((one) => ', ' + one.id + (one.place === p ? ' stopped' : ' is here')).join('')
    + (written !== undefined ? ', proposes ' + written : '');
  part.people.replaceChildren();
  const walk = here.filter((one) => one.place !== p);
  walk.slice(0, 3).forEach((one, i) => disc(part.people, one.id, 12 + i * 36, -6));
  if (walk.length > 3) put(part.people, 'text', { x: 104, y: -2 }, '+' + (walk.length - 3));
  if (home) disc(part.people, home.id, WIDE - 18, 12);
}

function drawSpace(s) {
  const at = new Map();
  for (const [id, stands] of s.people) {
    const spot = spotOf(stands);
    if (spot === null) continue;
    if (!at.has(spot)) at.set(spot, []);
    at.get(spot).push({ id, place: stands.place });
  }
  for (const [p, part] of parts) drawRoom(s, p, part, at.get(p) || []);
}

function nextWords({ next }) {
  return next ? next.kind + ' ' + (next.reg === 'segment' ? 'seg.' : next.reg) + ' '
    + short(next.place) : '';
}

const poolWords = (stands) => stands.number || stands.pool;

// what the segment at one's place says that one proposes
function proposal(s, stands) {
  return stands.place === null ? '' : s.facts.get('segment ' + stands.place) || '';
}

function drawPeople(s) {
  const body = $('people').tBodies[0];
  const all = JSON.stringify([...s.people].map(([id, one]) => [id, one, proposal(s, one)]));
  if (body.drawn === all) return;
  body.drawn = all;
  body.replaceChildren();
  const head = document.createElement('tr');
  for (const text of ['who', 'place', 'proposes', 'name', 'number', 'next']) {
    say(head, 'th', text).scope = 'col';
  }
  body.appendChild(head);
  for (const [id, one] of s.people) {
    const line = document.createElement('tr');
    line.dataset.id = id;
    line.dataset.at = spotOf(one) || '';
    const who = say(line, 'th', short(id));
    who.title = id;
    who.scope = 'row';
    who.style.color = color(id);
    who.style.fontWeight = 700;
    const place = one.place === null ? '' : short(one.place);
    for (const text of [place, proposal(s, one), one.name, poolWords(one), nextWords(one)]) {
      say(line, 'td', text);
    }
    body.appendChild(line);
  }
}

function cell(parent, number, text, small) {
  const node = say(parent, 'div', '', text === '' ? 'cell' : 'cell has');
  say(node, 'small', small);
  node.appendChild(document.createTextNode(text === '' ? '–' : short(text)));
  node.title = text;
  if (text !== '') node.style.color = color(text);
  node.dataset.number = number;
  node.dataset.owner = text;
}

// how many have begun: each makes an access next, or has its name, or is spent
function begunBy(s) {
  return [...s.people.values()].filter((one) => one.next !== null || one.name !== '').length;
}

// what is proved of the names of every run, with the numbers of this moment
function lawWords(begun) {
  if (begun === 0) return 'Nobody has begun.';
  return begun + (begun === 1 ? ' has' : ' have') + ' begun: distinct names up to 2 · ' + begun + ' − 1 = '
    + (2 * begun - 1) + '.';
}

// the same of the numbers of the pool
function crowdWords(s, size) {
  const many = [...s.people.values()].filter((one) => one.pool !== '').length;
  return many + ' of at most ' + size + (many === 1 ? ' competes' : ' compete') + ': no number has two holders.';
}

function drawCells(s) {
  const names = $('names');
  const pool = $('pool');
  const holders = new Map();
  for (const [id, one] of s.people) if (one.number !== '') holders.set(one.number, id);
  const size = Number(s.facts.get('size'));
  const begun = begunBy(s);
  const crowd = crowdWords(s, size);
  const all = JSON.stringify([...s.facts, '', ...holders, begun, crowd]);
  if (pool.drawn === all) return;
  pool.drawn = all;
  $('law').textContent = lawWords(begun);
  $('crowd').textContent = crowd;
  names.replaceChildren();
  pool.replaceChildren();
  for (let n = 1; n < 2 * Number(config.m); n += 1) {
    cell(names, n, s.facts.get('name ' + n) || '', String(n));
    if (n >= 2 * begun) names.lastChild.classList.add('far');
  }
  for (let n = 1; n <= size; n += 1) {
    const slot = value(s, 'slot', n);
    cell(pool, n, holders.get(String(n)) || '', n + (slot === '0' ? '' : ': ' + slot));
  }
}

// ---- space and time
const STEP = rows.length > 120 ? 13 : 17;
const LANE = 34;
const LEFT = 12;
const KINDS = {
  begin: ['begins', 'M0 -5a5 5 0 1 0 .01 0z', false],
  read: ['reads', 'M0 -2.6a2.6 2.6 0 1 0 .01 0z', true],
  write: ['writes', 'M-4 -4h8v8h-8z', true],
  place: ['stops at its place', 'M0 -6L6 5h-12z', true],
  proposed: ['proposes', 'M0 -7L7 0L0 7L-7 0z', true],
  saw: ['sees that another proposes the same', 'M0 6L6 -5h-12z', false],
  named: ['has its name', 'M0 -8L2 -2.6H8L3.2 1L5 7L0 3.6L-5 7L-3.2 1L-8 -2.6H-2z', true],
  spent: ['has used up its rounds', 'M-5 -5L5 5M5 -5L-5 5', false],
  pool: ['competes, probes, puts or gets', 'M-4.5 -3h9v6h-9z', false],
  got: ['holds a number', 'M-6 0L-3 -5H3L6 0L3 5H-3z', true],
  left: ['gives it back', 'M-6 0L-3 -5H3L6 0L3 5H-3z', false],
  widen: ['the pool grows', 'M-5 0H5M0 -5V5', false],
  refused: ['is refused', 'M-4 -4L4 4M4 -4L-4 4', false],
};

function kindOf(r) {
  if (r.refused) return 'refused';
  if (KINDS[r.reply] && r.reply !== 'pool') return r.reply;
  if (r.verb === 'begin' || r.verb === 'widen') return r.verb;
  if (r.verb !== 'step') return 'pool';
  return r.access ? r.access.kind : 'read';
}

const laneOf = (id) => (ids.includes(id) ? ids.indexOf(id) : ids.length);
const across = (i) => LEFT + i * STEP + STEP / 2;
const below = (id) => 24 + laneOf(id) * LANE + LANE / 2;

function mark(parent, kind, x, y, tint) {
  const full = KINDS[kind][2];
  return put(parent, 'path', { d: KINDS[kind][1], transform: 'translate(' + x + ' ' + y + ')',
    fill: full ? tint : 'var(--card)', stroke: tint, 'stroke-width': 1.6 });
}

// what each proposes before the first row
function firstProposals() {
  const all = new Map();
  for (const [id, stands] of before.people) {
    if (proposal(before, stands) !== '') all.set(id, proposal(before, stands));
  }
  return all;
}

// the first moment from a proposal on, up to a reply, at which what is proposed is so; -1 is before the first row
function momentFrom(start, end, fits) {
  const proposals = firstProposals();
  for (let i = -1; i <= end; i += 1) {
    if (i >= 0 && rows[i].reply === 'proposed') proposals.set(rows[i].id, rows[i].number);
    if (i >= start && fits(proposals)) return i;
  }
  return null;
}

function momentOf(r, start, end) {
  if (r.reply === 'saw') {
    const view = r.told.slice(4).split(' ').sort().join(' ');
    return momentFrom(start, end, (all) =>
      [...all].map(([id, n]) => id + ':' + n).sort().join(' ') === view);
  }
  return momentFrom(start, end, (all) =>
    [...all].every(([id, n]) => id === r.id || n !== r.number));
}

function drawScan(behind, r, start, end) {
  const y = below(r.id);
  put(behind, 'rect', { class: 'scan', x: across(start), y: y - 11, rx: 6,
    width: across(end) - across(start), height: 22 });
  const moment = momentOf(r, start, end);
  if (moment === null) return;
  const x = Math.min(across(moment) + STEP / 2, across(end));
  put(behind, 'line', { class: 'moment', x1: x, x2: x, y1: y - 13, y2: y + 13 });
}

// where a proposal is that of another too, its lane is joined with theirs
function joinClash(parent, proposals, id, number, i) {
  for (const [other, found] of proposals) {
    if (other === id || found.number !== number) continue;
    const x = across(i);
    put(parent, 'path', { class: 'clash', d: 'M' + x + ' ' + below(id) + 'V' + below(other) });
    put(parent, 'circle', { class: 'clash', cx: x, cy: below(other), r: 4 });
  }
}

function buildTime() {
  const svg = $('time');
  const nobody = rows.some((r) => !ids.includes(r.id));
  const count = ids.length + (nobody ? 1 : 0);
  const wide = LEFT + Math.max(rows.length, 12) * STEP + 150;
  const high = 24 + count * LANE + 8;
  svg.setAttribute('viewBox', '0 0 ' + wide + ' ' + high);
  svg.setAttribute('width', wide);
  svg.setAttribute('height', high);
  const lanes = $('lanes');
  lanes.setAttribute('width', 72);
  lanes.setAttribute('height', high);
  lanes.setAttribute('viewBox', '0 0 72 ' + high);
  // a short diagram is printed whole, and both its parts in one scale
  $('scroll').style.setProperty('--part', wide);
  $('timecard').classList.toggle('whole', rows.length <= 120);
  put(svg, 'title', {}, 'One lane a participant, one mark an event'
    + (offset > 0 ? ', from event ' + (offset + 1) + ' on' : ''));
  const behind = put(svg, 'g', {});
  const marks = put(svg, 'g', {});
  for (const id of ids) {
    put(behind, 'line', { class: 'lane', x1: 0, x2: across(rows.length), y1: below(id),
      y2: below(id) });
    disc(lanes, id, 36, below(id));
  }
  if (nobody) put(lanes, 'text', { x: 10, y: below('') + 4, class: 'label' }, 'others');
  for (let i = 0; i <= rows.length; i += 10) {
    if (i > 0) put(behind, 'text', { x: across(i - 1), y: 14, 'text-anchor': 'middle',
      class: 'label' }, String(offset + i));
  }
  const proposals = new Map();
  for (const [id, number] of firstProposals()) proposals.set(id, { number, i: -1 });
  const used = new Set();
  rows.forEach((r, i) => {
    const kind = kindOf(r);
    const found = proposals.get(r.id);
    used.add(kind);
    if (kind === 'proposed') {
      joinClash(marks, proposals, r.id, r.number, i);
      proposals.set(r.id, { number: r.number, i });
    } else if (found && (kind === 'saw' || kind === 'named')) {
      drawScan(behind, r, found.i, i);
    }
    const one = mark(marks, kind, across(i), below(r.id),
      ids.includes(r.id) ? color(r.id) : 'var(--soft)');
    put(one, 'title', {}, offset + i + 1 + '. ' + sentence(r));
    one.addEventListener('click', () => show(i + 1));
  });
  drawEnds(marks);
  put(svg, 'line', { id: 'cursor', class: 'cursor', y1: 18, y2: high, x1: -9, x2: -9 });
  buildKey(used);
}

function drawEnds(marks) {
  const end = stateAt(rows.length);
  for (const [id, one] of end.people) {
    const proposed = proposal(end, one);
    const text = one.name === '' ? (proposed && 'proposes ' + proposed)
      : (one.name === 'spent' ? 'spent' : 'name ' + one.name);
    put(marks, 'text', { x: across(rows.length) + 8, y: below(id) + 4, class: 'strong' }, text);
  }
}

function buildKey(used) {
  const key = $('key');
  for (const kind in KINDS) {
    if (!used.has(kind)) continue;
    const item = say(key, 'span', '');
    const svg = put(item, 'svg', { width: 18, height: 18, viewBox: '-9 -9 18 18' });
    mark(svg, kind, 0, 0, 'var(--ink)');
    item.appendChild(document.createTextNode(KINDS[kind][0]));
  }
  if (used.has('saw') || used.has('named')) {
    say(key, 'span', '▭ a scan, and dashed in it a moment that its view shows');
  }
  if ($('time').querySelector('path.clash')) {
    say(key, 'span', '│ from here on two propose the same, ring and diamond');
  }
}

// ---- moving
let shown = -1;
let timer = null;
let slowest = 0;

function show(count) {
  const began = performance.now();
  shown = Math.max(0, Math.min(rows.length, count));
  const s = stateAt(shown);
  drawSpace(s);
  drawPeople(s);
  drawCells(s);
  const r = s.row;
  $('words').replaceChildren();
  if (r) say($('words'), 'b', r.text + ': ');
  $('words').appendChild(document.createTextNode(sentence(r)));
  const differs = r && !r.refused && r.desk !== r.told;
  $('differs').hidden = !differs;
  $('differs').textContent = differs ? 'A desk would have answered: ' + r.desk : '';
  $('place').textContent = placeWords();
  $('slider').value = shown;
  $('slider').setAttribute('aria-valuetext', $('place').textContent + ': ' + sentence(r));
  const x = shown ? across(shown - 1) : LEFT / 2;
  $('cursor').setAttribute('x1', x);
  $('cursor').setAttribute('x2', x);
  requestAnimationFrame(() => { keepInSight(x); keepRoomInSight(r); });
  slowest = Math.max(slowest, performance.now() - began);
  document.documentElement.dataset.shown = shown;
  document.documentElement.dataset.slowest = slowest.toFixed(1);
}

function placeWords() {
  if (shown > 0) return 'event ' + (offset + shown) + ' of ' + run.events;
  if (rows.length > 0) return 'before event ' + (offset + 1) + ' of ' + run.events;
  return 'after event ' + run.events + ' of ' + run.events;
}

function keepInSight(x) {
  const box = $('scroll');
  if (x < box.scrollLeft + 30 || x > box.scrollLeft + box.clientWidth - 60) {
    box.scrollLeft = x - box.clientWidth / 2;
  }
}

// scrolls the splitters, and nothing around them, so far that the one of this event is in sight
function keepRoomInSight(r) {
  const part = r && r.access && parts.get(r.access.place);
  if (!part) return;
  const box = $('space').parentNode;
  const [all, one] = [box.getBoundingClientRect(), part.box.getBoundingClientRect()];
  if (one.left < all.left || one.right > all.right) {
    box.scrollLeft += (one.left + one.right - all.left - all.right) / 2;
  }
  if (one.top < all.top || one.bottom > all.bottom) {
    box.scrollTop += (one.top + one.bottom - all.top - all.bottom) / 2;
  }
}

// how many milliseconds an event is shown while the run is played
const PACE = rows.length > 120 ? 100 : 500;

function stop() {
  if (timer !== null) clearInterval(timer);
  timer = null;
  $('play').textContent = '▶ play';
  $('play').setAttribute('aria-label', 'play');
}

function toggle() {
  if (timer !== null) { stop(); return; }
  if (shown === rows.length) show(0);
  $('play').textContent = '❚❚ pause';
  $('play').setAttribute('aria-label', 'pause');
  timer = setInterval(() => {
    show(shown + 1);
    if (shown === rows.length) stop();
  }, PACE);
}

function move(count) { stop(); show(count); }

function pressed(event) {
  if (event.altKey || event.ctrlKey || event.metaKey) return;
  const keys = {
    ArrowLeft: () => move(shown - 1), ArrowRight: () => move(shown + 1),
    Home: () => move(0), End: () => move(rows.length), ' ': toggle,
  };
  const takesSpace = ['BUTTON', 'SUMMARY'].includes(event.target.tagName);
  if (!keys[event.key] || (event.key === ' ' && takesSpace)) return;
  event.preventDefault();
  keys[event.key]();
}

function about() {
  const last = offset + rows.length;
  const world = tree ? 'a tree' : 'a grid';
  let text = 'At most ' + config.m + ' participants over ' + world + ' of splitters, a pool of '
    + config.k + ', ' + run.events + ' events, one access each.';
  if (rows.length === 0) text += ' None of them is shown: they end before event ' + (offset + 1) + '.';
  else if (rows.length < run.events) {
    text += ' Shown are events ' + (offset + 1) + ' to ' + last
      + (offset > 0 ? ', after what stood before them.' : '.');
    if (last < run.events) text += ' More: slotctl show --from ' + (last + 1) + '.';
  }
  const end = stateAt(rows.length);
  if (end.differ > 0) {
    text += ' At ' + end.differ + ' of them a desk would have answered otherwise; the record is'
      + ' right too, and the accesses that are shown are those of the desk.';
  }
  $('about').textContent = text;
}

about();
buildSpace();
buildTime();
$('slider').max = rows.length;
$('slider').addEventListener('input', () => move(Number($('slider').value)));
$('first').addEventListener('click', () => move(0));
$('back').addEventListener('click', () => move(shown - 1));
$('forth').addEventListener('click', () => move(shown + 1));
$('last').addEventListener('click', () => move(rows.length));
$('play').addEventListener('click', toggle);
document.addEventListener('keydown', pressed);
$('player').hidden = false;
$('still').hidden = true;
const asked = Number(location.hash.slice(1));
show(location.hash.length > 1 && asked >= 0 ? asked - offset : rows.length);
</script>
</body>
</html>
"#;

/// Its bytes.
pub(crate) fn tail() -> &'static [u8] {
    TAIL.as_bytes()
}
