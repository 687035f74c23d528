// The chosen page, enlarged: 8 rows of 64 doublewords, and its parts as a list.
import { colourOf, hex, make, put, tag } from './elements.js';
import { drawingOf, UNIT } from './drawing.js';
import { dumpOf } from './dump.js';
import { PAGE } from './map.js';

const WIDE = 64, ROWS = PAGE / UNIT / WIDE, SCALE = 8;
const KINDS = { taken: 'taken', free: 'free', cell: 'cell', freecell: 'free cell' };

/** The parts of a page in order, with cells in place of their extents. */
function listOf(page) {
  const covered = part =>
    part.kind === 'taken' && page.cells.some(cell => cell.from < part.to && cell.to > part.from);
  return [...page.parts.filter(part => !covered(part)), ...page.cells].sort((a, b) => a.from - b.from);
}

export function lensPart(view) {
  const element = make('section', { class: 'lens', 'aria-label': 'The chosen page', hidden: true });

  const list = make('ol', { tabindex: 0, 'aria-label': 'Parts of the page' });
  let names = new Map(), items = new Map(); // by address; by everything they show

  function named(part) {
    return {
      kind: part.pool ? `${KINDS[part.kind]} of ${part.pool.name}` : KINDS[part.kind],
      names: names.get(hex(part.from)) ?? ''
    };
  }
  /** The line that obtained a part, as a link. */
  function byLine({ k }) {
    if (k === undefined) return null;
    const text = `by line ${view.run.statements[k].line}`, step = k - view.run.skipped + 1;
    if (step < 1) return make('span', { class: 'by' }, text);
    return make('button', { type: 'button', class: 'by', onclick: () => view.go(step) }, text);
  }
  function itemOf(part) {
    const { kind, names: here } = named(part);
    return make(
      'li', {}, hex(part.from), make('span', { class: 'length' }, String(part.to - part.from)), kind,
      here && make('b', {}, ` ${here}`), byLine(part)
    );
  }
  /** The items of a page's parts; unchanged ones are reused. */
  function itemsOf(page) {
    const known = items;
    items = new Map();
    return listOf(page).map(part => {
      const look = [part.from, part.to, part.kind, part.pool?.name, part.k, names.get(hex(part.from))].join();
      items.set(look, known.get(look) ?? itemOf(part));
      return items.get(look);
    });
  }
  function readOut(page, svg, point, event) {
    const box = svg.getBoundingClientRect();
    const inside = (value, size, most) => Math.max(0, Math.min(most - 1, Math.floor(value / size * most)));
    const row = inside(event.clientY - box.top, box.height, ROWS);
    const place = page.page * PAGE + UNIT * (WIDE * row + inside(event.clientX - box.left, box.width, WIDE));
    const part = page.cells.find(it => place >= it.from && place < it.to) ??
      page.parts.find(it => place >= it.from && place < it.to);
    const { kind, names: here } = named(part);
    point.textContent =
      `${hex(place)}: ${kind}, ${part.to - part.from} bytes from ${hex(part.from)}${here && `, ${here}`}`;
  }
  function draw() {
    const page = view.moment.pages.get(view.chosen);
    element.hidden = !page;
    if (!page) return;
    names = new Map();
    for (const [name, word] of view.moment.state.names)
      names.set(word, names.has(word) ? `${names.get(word)} ${name}` : name);
    const svg = drawingOf(page, view.moment.granted, WIDE, SCALE);
    const point = make('p', { class: 'point muted' }, 'Point at a doubleword.');
    svg.onpointermove = event => readOut(page, svg, point, event);
    element.style = colourOf(view.run, page.subpool.number);
    const head = make(
      'h2', {}, `Page ${hex(page.page * PAGE)}`, make('span', { class: 'muted' }, '8 rows of 64 doublewords'),
      tag(view.run, page.subpool)
    );
    put(list, itemsOf(page));
    put(element, [head, svg, point, list, ...dumpOf(view, page)]);
  }
  return { element, draw };
}
