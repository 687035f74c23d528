// Storage over the whole run: a row for each page or group of pages, a column for each statement or some of them. It's
// worked out in slices of time after the first picture.
import { hex, make } from './elements.js';
import { PAGE } from './map.js';
import { countOf } from './storage.js';

const MOST_COURSE_ROWS = 48, MOST_COLUMNS = 400;
const SLICE = 10, DELAY = 250; // milliseconds: of work between two pauses; until it begins
const CANVAS = 1200, FAINT = .18; // pixels of the drawing's width; how strong a free area is
const HIGH_REGION = 0x8000000;

/** Steps from 0 to the last in buckets: from and to of each, the second excluded. */
export function bucketsOf(last, most) {
  const each = Math.max(1, Math.ceil((last + 1) / most));
  return Array.from({ length: Math.ceil((last + 1) / each) }, (_, k) => [k * each, Math.min(last + 1, (k + 1) * each)]);
}

/** The rows of runs of pages: those above the 16 MB line first. */
export class CourseRows {
  constructor(runs) {
    const isHigh = ([from]) => from * PAGE >= HIGH_REGION;
    let offset = 0;
    const placed = [...runs.filter(isHigh), ...runs.filter(it => !isHigh(it))].map(([from, to]) => {
      const run = { from: from * PAGE, to: to * PAGE, offset };
      offset += run.to - run.from;
      return run;
    });
    this.runs = placed.toSorted((a, b) => a.from - b.from);
    this.size = PAGE * Math.max(1, Math.ceil(offset / PAGE / MOST_COURSE_ROWS)); // bytes of a row
    this.count = Math.ceil(offset / this.size);
  }

  /** Calls `add` with each row that an area is in, and how many of its bytes are there. */
  spread([first, length], add) {
    const run = this.runs[countOf(this.runs, it => it.from <= first) - 1];
    for (let at = run.offset + first - run.from, end = at + length, row = Math.floor(at / this.size); at < end; row++) {
      const stop = Math.min(end, (row + 1) * this.size);
      add(row, stop - at);
      at = stop;
    }
  }

  /** Of each row of a state, the subpool with most of its bytes (none if no page is assigned), and the bytes that are
      assigned and free. */
  columnOf({ subpools }) {
    const column = Array.from({ length: this.count }, () => ({ number: null, most: 0, assigned: 0, free: 0 }));
    for (const { number, extents, free } of subpools) {
      const own = new Map();
      for (const it of extents) this.spread(it, (row, bytes) => own.set(row, (own.get(row) ?? 0) + bytes));
      for (const it of free) this.spread(it, (row, bytes) => column[row].free += bytes);
      for (const [row, bytes] of own) {
        const it = column[row];
        it.assigned += bytes;
        if (bytes > it.most) Object.assign(it, { number, most: bytes });
      }
    }
    return column;
  }

  /** The addresses of a row: first and last. */
  addressesOf(row) {
    const within = this.runs.filter(it => it.offset < (row + 1) * this.size &&
      it.offset + it.to - it.from > row * this.size);
    const clip = it => [it.from + Math.max(0, row * this.size - it.offset),
      Math.min(it.to, it.from + (row + 1) * this.size - it.offset)];
    const areas = within.map(clip);
    return [Math.min(...areas.map(it => it[0])), Math.max(...areas.map(it => it[1])) - 1];
  }
}

/** Works through a generator in slices, and then calls `done` with what it returned; the result is a call that ends
    that. */
export function inSlices(work, done) {
  let timer = 0;
  function slice() {
    const end = performance.now() + SLICE;
    while (performance.now() < end) {
      const { done: isDone, value } = work.next();
      if (isDone) return done(value);
    }
    timer = setTimeout(slice);
  }
  timer = setTimeout(slice, DELAY);
  return () => clearTimeout(timer);
}

/** The largest free area of each step, and then the columns, each of the step of its bucket with most bytes taken. */
function* courseOf(run, course) {
  for (let step = 0; step <= run.steps; step++) {
    run.largest[step] = run.largestAt(step);
    if (step % 16 === 15) yield;
  }
  for (const [from, to] of bucketsOf(run.steps, MOST_COLUMNS)) {
    let step = from;
    for (let k = from; k < to; k++) if (run.totalsAt(k).taken > run.totalsAt(step).taken) step = k;
    course.columns.push({ from, to, step, rows: course.rows.columnOf(run.stateAt(step)) });
    yield;
  }
}

/** How strongly a row is drawn: as much of it is taken, and faintly as much of it is free. */
export const strengthOf = ({ assigned, free }, size) => (assigned - free + FAINT * free) / size;

export function coursePart(view, isDone) {
  const { run } = view, course = { rows: new CourseRows(run.runs), columns: [] }, { rows } = course;
  const canvas = make('canvas', { width: CANVAS, height: Math.max(1, rows.count), 'aria-hidden': 'true' });
  const element = make('div', { class: 'course', style: `--rows:${rows.count}` }, canvas);
  const scheme = matchMedia('(prefers-color-scheme: dark)');

  function paint() {
    const pen = canvas.getContext('2d'), ink = document.createElement('i'), colours = new Map();
    canvas.append(ink);
    const colourOfNumber = number => {
      if (!colours.has(number)) {
        ink.style.color = `var(--c${run.colourOf(number)})`;
        colours.set(number, getComputedStyle(ink).color);
      }
      return colours.get(number);
    };
    pen.clearRect(0, 0, CANVAS, rows.count);
    const placeOf = step => Math.round(CANVAS * Math.max(0, Math.min(1, (step - .5) / Math.max(1, run.steps))));
    for (const { from, to, rows: column } of course.columns) {
      column.forEach((it, row) => {
        if (it.number === null) return;
        pen.fillStyle = colourOfNumber(it.number);
        pen.globalAlpha = strengthOf(it, rows.size);
        pen.fillRect(placeOf(from), row, (to > run.steps ? CANVAS : placeOf(to)) - placeOf(from), 1);
      });
    }
    ink.remove();
    element.dataset.done = course.columns.length;
  }
  /** The column and the row at a place of the window. */
  function at({ clientX, clientY }) {
    const box = canvas.getBoundingClientRect(), step = Math.round((clientX - box.left) / box.width * run.steps);
    const column = course.columns.find(it => step < it.to) ?? course.columns.at(-1);
    const row = Math.max(0, Math.min(rows.count - 1, Math.floor((clientY - box.top) / box.height * rows.count)));
    return { column, row };
  }
  canvas.onpointermove = event => {
    const { column, row } = at(event), it = column?.rows[row];
    if (!it) return;
    const [first, last] = rows.addressesOf(row).map(hex);
    const where = column.step ? `statement ${column.step}` : 'the start';
    const what = it.number === null ? 'not assigned'
      : `subpool ${it.number}, ${it.assigned - it.free} of ${rows.size} bytes taken`;
    canvas.title = `${first} to ${last}, ${where}: ${what}`;
  };
  canvas.onclick = event => {
    const { column, row } = at(event);
    if (column) view.goTo(column.step, Math.floor(rows.addressesOf(row)[0] / PAGE));
  };
  const stop = inSlices(courseOf(run, course), () => {
    paint();
    isDone();
  });
  const repaint = () => course.columns.length && paint();
  scheme.addEventListener('change', repaint);
  function close() {
    stop();
    scheme.removeEventListener('change', repaint);
  }
  /** Later storage isn't shown while answers are hidden. */
  function draw() {
    element.hidden = view.teaching || !rows.count;
    element.style.setProperty('--at', run.steps ? view.step / run.steps : 0);
  }
  return { element, draw, close };
}
