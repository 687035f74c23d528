// The two regions: a row for each page that is assigned at any time of the run, so that rows keep their places. In the
// teacher's mode that would reveal later answers: there only the pages of the moment have rows.
import { colourOf, count, grouped, hex, make, put, tag } from './elements.js';
import { drawingOf } from './drawing.js';
import { PAGE, runsOf } from './map.js';

const LOW = 0x6000, HIGH = 0x8000000;
const MOST_ROWS = 400, STRIDE = 100; // of a region with more, rows around the chosen page are shown, moved by strides
const MANY_ROWS = 100; // they fill the remaining height, so that no layout has to measure them
const LEGEND = [
  ['taken', 'taken'], ['free', 'free'], ['cell', 'cell in use'], ['freecell', 'free cell'],
  ['unassigned', 'not assigned']
];

export const legend = () =>
  make('div', {class: 'legend'}, ...LEGEND.map(([kind, name]) => make('span', {class: `tag ${kind}`}, name)));

function labelOf(number, page, changed) {
  const free = page?.parts.reduce((sum, it) => sum + (it.kind === 'free' ? it.to - it.from : 0), 0);
  const whose = page
    ? `subpool ${page.subpool.number} of task ${page.subpool.owner}, ${count(free, 'byte')} free`
    : 'not assigned';
  return `page ${hex(number * PAGE)}, ${whose}${changed ? ', changed' : ''}`;
}

/** The pages of runs from one up to another. */
const clipped = (runs, first, end) =>
  runs.map(it => [Math.max(it[0], first), Math.min(it[1], end)]).filter(it => it[0] < it[1]);
const countIn = runs => runs.reduce((sum, it) => sum + it[1] - it[0], 0);

/** The numbers of pages, from one place in the runs up to another. */
function pagesIn(runs, from, to) {
  const found = [];
  let at = 0;
  for (const [first, end] of runs) {
    for (let page = first + Math.max(0, from - at); page < end && at + page - first < to; page++) found.push(page);
    at += end - first;
  }
  return found;
}

export function regionsPart(view) {
  const { run } = view, element = make('div', { class: 'regions' }), rows = new Map();

  /** The row of a page; an unchanged one is reused. */
  function rowOf(number) {
    const { pages, granted } = view.moment;
    const page = pages.get(number), changed = view.moment.changed.has(number);
    const framed = granted && granted.from < (number + 1) * PAGE && granted.to > number * PAGE &&
      `${granted.from} ${granted.to}`;
    const look = [page?.key, changed, number === view.chosen, framed].join();
    if (rows.get(number)?.look === look) return rows.get(number).row;
    const strip = page ? drawingOf(page, granted, PAGE / 8, 1) : make('span', {});
    strip.setAttribute('class', page ? 'strip' : 'strip empty');
    const row = make(
      'button', {
        type: 'button',
        class: changed ? 'page changed' : 'page',
        style: page ? colourOf(run, page.subpool.number) : null,
        'data-page': number,
        tabindex: number === view.chosen ? 0 : -1,
        'aria-pressed': String(number === view.chosen),
        'aria-label': labelOf(number, page, changed),
        onclick: () => view.choose(number)
      },
      make('span', { class: 'address' }, (changed ? '• ' : '') + hex(number * PAGE)), strip,
      page ? tag(run, page.subpool) : make('span', { class: 'muted' }, '–')
    );
    rows.set(number, { look, row });
    return row;
  }
  /** All pages that may have rows, in runs. */
  function runs() {
    if (!view.teaching) return run.runs;
    const { state, before } = view.moment;
    return runsOf([...state.subpools, ...before.subpools].flatMap(it => it.extents));
  }
  /** The range of a region's pages that have rows: all, or as many as can be drawn around the chosen one. */
  function windowOf(pages) {
    const most = countIn(pages);
    if (most <= MOST_ROWS) return [0, most];
    const at = countIn(clipped(pages, 0, view.chosen));
    const first = Math.max(0, Math.min(most - MOST_ROWS, Math.floor((at - MOST_ROWS / 2) / STRIDE) * STRIDE));
    return [first, first + MOST_ROWS];
  }
  function listOf(first, end) {
    const pages = clipped(runs(), first, end), unassigned = view.teaching ? 'not assigned' : 'never assigned';
    const [from, to] = windowOf(pages), most = countIn(pages), list = [];
    const gap = (pages, what) =>
      pages > 0 && list.push(make('div', { class: 'gap' }, `${count(pages, 'page')} ${what}`));
    const jump = (pages, where, to) => pages > 0 &&
      list.push(make(
        'button', { type: 'button', class: 'gap jump', onclick: () => view.choose(to) },
        `${count(pages, 'page')} more ${where}`
      ));
    jump(from, 'below these addresses', pagesIn(pages, from - 1, from)[0]);
    const shown = pagesIn(pages, from, to);
    let next = from ? shown[0] : first;
    for (const page of shown) {
      gap(page - next, unassigned);
      list.push(rowOf(page));
      next = page + 1;
    }
    if (!shown.length) return []; // the heading says it
    if (to < most) jump(most - to, 'above these addresses', pagesIn(pages, to, to + 1)[0]);
    else gap(end - next, unassigned);
    return list;
  }
  /** Draws a region in its section: unchanged rows stay in place. */
  function drawRegion(section, first, size, assigned) {
    section.firstChild.lastChild.textContent = `${grouped(assigned)} of ${count(size, 'page')} assigned`;
    put(section, [section.firstChild, ...listOf(first, first + size)]);
  }
  /** Scrolls to the chosen row, if the regions scroll by themselves and it's out of sight. */
  function reveal() {
    const row = element.querySelector(`[data-page="${view.chosen}"]`);
    if (!row || element.scrollHeight <= element.clientHeight) return;
    const box = element.getBoundingClientRect(), { top, bottom } = row.getBoundingClientRect();
    if (top < box.top) element.scrollTop -= box.top - top + row.offsetHeight;
    else if (bottom > box.bottom) element.scrollTop += bottom - box.bottom + row.offsetHeight;
  }
  const sections = ['Above the 16 MB line', 'Below the 16 MB line'].map(
    name => make('section', { class: 'region', 'aria-label': name }, make('h2', {}, name, make('span', {})))
  );
  element.append(...sections);
  function draw() {
    const { state } = view.moment;
    drawRegion(sections[0], HIGH / PAGE, state.highOf, state.high);
    drawRegion(sections[1], LOW / PAGE, state.lowOf, state.low);
    element.parentElement.classList.toggle('full', element.querySelectorAll('.page').length > MANY_ROWS);
  }
  /** To the page this many rows further, if a row has the focus. */
  function move(row, by) {
    const all = [...element.querySelectorAll('.page')], next = all[all.indexOf(row) + by];
    if (next) view.choose(+next.dataset.page);
  }
  const focus = () => element.querySelector(`[data-page="${view.chosen}"]`)?.focus({ preventScroll: false });
  return { element, draw, drawn: reveal, move, focus };
}
