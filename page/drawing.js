// The drawing of a page of storage, by doublewords.
import { make } from './elements.js';
import { PAGE } from './map.js';

export const UNIT = 8;
// A line separates cells, and is before areas, that are at least this many units wide: more lines would hide them.
const MARKED = 24, MARKED_AREA = 8;

/** One path of boxes, in rows of `wide` doublewords. */
function boxes(parts, begin, wide) {
  let d = '';
  for (const { from, to } of parts) {
    for (let at = (from - begin) / UNIT, end = (to - begin) / UNIT; at < end;) {
      const row = Math.floor(at / wide), stop = Math.min(end, (row + 1) * wide);
      d += `M${at - row * wide} ${row}H${stop - row * wide}V${row + 1}H${at - row * wide}Z`;
      at = stop;
    }
  }
  return d;
}

/** One outline around a range of bytes, over all its rows. */
export function outline({ from, to }, begin, wide) {
  const first = (from - begin) / UNIT, last = (to - begin) / UNIT - 1;
  const [a, b] = [first % wide, last % wide + 1], [top, row] = [first, last].map(it => Math.floor(it / wide));
  // The parts in two rows may not touch: then there are two boxes.
  if (top === row || row === top + 1 && b <= a) return boxes([{ from, to }], begin, wide);
  return `M${a} ${top}H${wide}V${row}H${b}V${row + 1}H0V${top + 1}H${a}Z`;
}

const isWide = (bytes, scale, least) => bytes / UNIT * scale >= least;

/** The taken parts that touch the one before, and are wide enough for a line. */
const touching = (parts, scale) => parts.filter((it, k) => k && it.kind === 'taken' && parts[k - 1].kind === 'taken' &&
  isWide(it.to - it.from, scale, MARKED_AREA));

/** Thin lines where parts begin, except at the page's begin. */
function lines(parts, begin, wide) {
  const places = parts.map(it => (it.from - begin) / UNIT).filter(it => it > 0);
  return places.map(it => `M${it % wide} ${Math.floor(it / wide)}v1`).join('');
}

/** What a strip of a page has, in doublewords: boxes of its parts, then of its cells, and lines where areas touch. */
export function drawingBoxes(page) {
  const placeOf = at => (at - page.page * PAGE) / UNIT;
  const boxOf = it => ({ from: placeOf(it.from), to: placeOf(it.to), kind: it.kind });
  const lineOf = it => ({ from: placeOf(it.from), isLine: true });
  return [...[...page.parts, ...page.cells].map(boxOf), ...touching(page.parts, 1).map(lineOf)];
}

/** A page in rows of `wide` doublewords, each drawn `scale` units wide. */
export function drawingOf(page, granted, wide, scale) {
  const begin = page.page * PAGE;
  const svg = make(
    'svg',
    { viewBox: `0 0 ${wide} ${PAGE / UNIT / wide}`, preserveAspectRatio: 'none', 'aria-hidden': 'true' }
  );
  const path = (kind, d) => svg.append(make('path', { class: kind, d }));
  for (const kind of ['free', 'taken'])
    path(kind, boxes(page.parts.filter(it => it.kind === kind), begin, wide));
  for (const kind of ['freecell', 'cell'])
    path(kind, boxes(page.cells.filter(it => it.kind === kind), begin, wide));
  path('edge', lines(touching(page.parts, scale), begin, wide));
  path('edge ofcells', lines(page.cells.filter(it => isWide(it.whole, scale, MARKED)), begin, wide));
  if (granted && granted.from < begin + PAGE && granted.to > begin) {
    const round = { from: Math.max(granted.from, begin), to: Math.min(granted.to, begin + PAGE) };
    // Two tones: one of them is visible on any colour.
    for (const kind of ['granted below', 'granted']) path(kind, outline(round, begin, wide));
  }
  return svg;
}
