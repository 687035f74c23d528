// What is still taken, by the line that took it, and when an area ceased to be.
import { count, grouped, make, panel } from './elements.js';
import { countOf } from './storage.js';

const MOST_LISTED = 100; // lines of the list
const MANY_STEPS = 2000; // in a longer run the list is made once it's opened

/** The taken areas of a state, ascending, without cell pools' extents; and these, by pool. */
function takenAreas({ subpools, pools }) {
  const held = subpools.flatMap(({ extents, free }) => {
    const found = [], gaps = free.toSorted((a, b) => a[0] - b[0]);
    let k = 0;
    for (const [first, length] of extents.toSorted((a, b) => a[0] - b[0])) {
      let at = first;
      for (; k < gaps.length && gaps[k][0] < first + length; k++) {
        if (gaps[k][0] > at) found.push([at, gaps[k][0]]);
        at = gaps[k][0] + gaps[k][1];
      }
      if (at < first + length) found.push([at, first + length]);
    }
    return found;
  }).sort((a, b) => a[0] - b[0]);
  const ofPools = pools.flatMap(it => it.extents.map(([first, length]) => [first, first + length, it.name]));
  return { held, ofPools };
}

/** Of areas [from, to, rank], which may overlap, the pieces of each place's greatest rank. */
function topmost(areas) {
  const begins = areas.toSorted((a, b) => a[0] - b[0]), pieces = [], open = []; // the open ones by rank
  const places = [...new Set(areas.flatMap(it => [it[0], it[1]]))].sort((a, b) => a - b);
  let next = 0;
  places.forEach((at, k) => {
    for (; next < begins.length && begins[next][0] === at; next++)
      open.splice(countOf(open, it => it[2] < begins[next][2]), 0, begins[next]);
    while (open.length && open.at(-1)[1] <= at) open.pop();
    if (open.length) pieces.push([at, places[k + 1], open.at(-1)[2]]);
  });
  return pieces;
}

/** Bytes and areas that are taken in a state, by statement or cell pool, most bytes first. `areas` has what each
    statement was granted, and `stand` which are in effect. */
export function takenBy(state, stand, areas) {
  const { held, ofPools } = takenAreas(state), found = new Map(), ranks = [];
  const ranked = stand.flatMap(k => areas[k]?.length ? [[areas[k].from, areas[k].from + areas[k].length, k]] : []);
  for (const [from, to, name] of ofPools) ranked.push([from, to, areas.length + ranks.push(name) - 1]);
  let last = null, k = 0;
  for (const [from, to, rank] of topmost(ranked)) {
    const who = rank < areas.length ? rank : ranks[rank - areas.length];
    while (k < held.length && held[k][1] <= from) k++;
    for (let at = k; at < held.length && held[at][0] < to; at++) {
      const begin = Math.max(from, held[at][0]), end = Math.min(to, held[at][1]);
      const it = found.get(who) ?? found.set(who, { who, bytes: 0, areas: 0 }).get(who);
      it.bytes += end - begin;
      if (last?.who !== who || last.end !== begin) it.areas++;
      last = { who, end };
    }
  }
  return [...found.values()].sort((a, b) => b.bytes - a.bytes || (a.who > b.who ? 1 : -1));
}

export function takenPart(view) {
  const { run } = view, element = make('div', {});
  let isOpen = run.steps <= MANY_STEPS;
  function lineRow({ who, bytes, areas }) {
    const isLine = typeof who === 'number', step = isLine ? who - run.skipped + 1 : 0;
    const text = isLine ? `line ${run.statements[who].line}` : `cell pool ${who}`;
    const name = step > 0
      ? make('button', { type: 'button', class: 'by', onclick: () => view.go(step) }, text) : make('span', {}, text);
    const cells = [make('td', { class: 'text' }, name), ...[bytes, areas].map(it => make('td', {}, grouped(it)))];
    return make('tr', {}, ...cells);
  }
  function list() {
    const { state, stand } = view.moment, all = takenBy(state, stand, view.moment.areas);
    const more = all.length - MOST_LISTED, heads = ['by', 'bytes', 'areas'];
    const head = make('tr', {}, ...heads.map((it, k) => make('th', { scope: 'col', class: k ? null : 'text' }, it)));
    const rest = more > 0 ? make('p', { class: 'muted' }, `and ${count(more, 'line')} more, of fewer bytes`) : null;
    return [make('table', {}, head, ...all.slice(0, MOST_LISTED).map(lineRow)), rest].filter(Boolean);
  }
  function draw() {
    if (!view.moment.state.taken) return element.replaceChildren();
    const inner = make('div', { class: 'by-line' }, ...isOpen ? list() : []);
    const ontoggle = event => {
      if (event.target.open === isOpen) return;
      isOpen = event.target.open;
      draw();
    };
    element.replaceChildren(panel('Still taken, by line',
      make('details', { open: isOpen, ontoggle }, make('summary', { class: 'muted' }, 'the most bytes first'), inner)));
  }
  return { element, draw };
}

/** How many bytes of an area are taken in a state. */
function takenIn({ subpools }, { from, to }) {
  const within = areas => areas.reduce((sum, [first, length]) =>
    sum + Math.max(0, Math.min(to, first + length) - Math.max(from, first)), 0);
  return subpools.reduce((sum, { extents, free }) => sum + within(extents) - within(free), 0);
}

/** Looks for the first step after one at which its area isn't wholly taken any longer, a state at a time; returns that
    step and whether nothing of it is left, or null if there's none. */
export function* endOfArea(run, step, area) {
  for (let at = step + 1; at <= run.steps; at++) {
    const left = takenIn(run.stateAt(at), area);
    if (left < area.to - area.from) return { step: at, isWhole: left === 0 };
    yield;
  }
  return null;
}
