// The storage at a step as a picture of its own, for slides and handouts: as SVG, and as PNG.
import { drawingBoxes, UNIT } from './drawing.js';
import { colourOf, count, hex, make } from './elements.js';
import { PAGE } from './map.js';
import { shownLine } from './shown.js';

// Pixels: of the picture, of a page's strip, and of letters.
const PICTURE_WIDE = 960, PICTURE_TOP = 52, PICTURE_ROW = 18, STRIP_LEFT = 92, STRIP_RIGHT = 860, STRIP_HIGH = 14;
const LETTERS = 12;
const MOST_DRAWN = 64; // pages
const FONT = 'ui-monospace, Menlo, Consolas, "DejaVu Sans Mono", monospace';
const escaped = text => text.replace(/[&<>"]/g, it => `&#${it.charCodeAt(0)};`);

/** Draws into a text of SVG. */
class SvgPen {
  constructor(height) {
    Object.assign(this, { height, parts: [] });
  }
  rect(x, y, width, height, fill) {
    this.parts.push(`<rect x="${x}" y="${y}" width="${width}" height="${height}" fill="${fill}"/>`);
  }
  text(x, y, text, fill) {
    this.parts.push(`<text x="${x}" y="${y}" fill="${fill}" xml:space="preserve">${escaped(text)}</text>`);
  }
  get result() {
    const size = `width="${PICTURE_WIDE}" height="${this.height}" viewBox="0 0 ${PICTURE_WIDE} ${this.height}"`;
    const letters = `font-family="${escaped(FONT)}" font-size="${LETTERS}"`;
    return `<svg xmlns="http://www.w3.org/2000/svg" ${size} ${letters}>${this.parts.join('')}</svg>`;
  }
}

/** Draws into pixels, two for each. */
class CanvasPen {
  constructor(height) {
    this.canvas = make('canvas', { width: 2 * PICTURE_WIDE, height: 2 * height });
    this.pen = this.canvas.getContext('2d');
    this.pen.scale(2, 2);
    this.pen.font = `${LETTERS}px ${FONT}`;
  }
  rect(x, y, width, height, fill) {
    this.pen.fillStyle = fill;
    this.pen.fillRect(x, y, width, height);
  }
  text(x, y, text, fill) {
    this.pen.fillStyle = fill;
    this.pen.fillText(text, x, y);
  }
  get result() {
    return new Promise(done => this.canvas.toBlob(done, 'image/png'));
  }
}

/** The colours of the page as it's shown now: of ground and text, and of a subpool's kinds of parts. */
function paletteOf(view) {
  const pen = make('canvas', { width: 1, height: 1 }).getContext('2d', { willReadFrequently: true });
  const place = view.container.appendChild(make('div', { class: 'page', hidden: true })), known = new Map();
  function plain(colour) {
    pen.fillStyle = colour;
    pen.fillRect(0, 0, 1, 1);
    const bytes = [...pen.getImageData(0, 0, 1, 1).data].slice(0, 3);
    return `#${bytes.map(it => it.toString(16).padStart(2, '0')).join('')}`;
  }
  function of(number, kind) {
    const key = `${number} ${kind}`;
    if (!known.has(key)) {
      const path = make('path', { class: kind });
      place.setAttribute('style', colourOf(view.run, number));
      place.replaceChildren(make('svg', {}, path));
      known.set(key, plain(getComputedStyle(path).fill));
    }
    return known.get(key);
  }
  const style = getComputedStyle(view.container);
  return { of, ink: plain(style.color), ground: plain(style.backgroundColor), end: () => place.remove() };
}

/** The assigned pages of a state, the first of them in order of their addresses. */
function pagesOf({ subpools }) {
  const areas = subpools.flatMap(it => it.extents).sort((a, b) => a[0] - b[0]), found = [];
  for (const [first, length] of areas)
    for (let at = first; at < first + length && found.length <= MOST_DRAWN; at += PAGE) found.push(at / PAGE);
  return found;
}

/** A page's strip, with its address and its subpool. */
function drawPage(pen, page, y, { of, ink, ground }) {
  const { number, owner } = page.subpool, scale = (STRIP_RIGHT - STRIP_LEFT) / (PAGE / UNIT);
  pen.text(8, y + 11, hex(page.page * PAGE), ink);
  for (const { from, to, kind, isLine } of drawingBoxes(page)) {
    const x = STRIP_LEFT + from * scale;
    if (isLine) pen.rect(+(x - .5).toFixed(2), y, 1, STRIP_HIGH, ground);
    else pen.rect(+x.toFixed(2), y, +((to - from) * scale).toFixed(2), STRIP_HIGH, of(number, kind));
  }
  pen.text(STRIP_RIGHT + 12, y + 11, `SP ${number} T${owner}`, ink);
}

/** Draws a moment of a run with a pen of a class. */
function drawn(view, moment, Pen) {
  const { run } = view, { step, state, pages } = moment, all = pagesOf(state), shown = all.slice(0, MOST_DRAWN);
  const rows = Math.max(1, shown.length) + (all.length > shown.length), height = PICTURE_TOP + PICTURE_ROW * rows + 8;
  const pen = new Pen(height);
  const palette = paletteOf(view), { ink, ground } = palette;
  pen.rect(0, 0, PICTURE_WIDE, height, ground);
  const said = step && shownLine(view.textOfStatement(step).split('\n')[0]).trim().slice(0, 110);
  const where = step ? `line ${run.statement(step).line}: ${said}` : 'before the first statement';
  pen.text(8, 18, `${shownLine(run.name)}, ${where}`, ink);
  if (step) pen.text(8, 36, run.statement(step).reply.slice(0, 120), ink);
  shown.forEach((it, k) => drawPage(pen, pages.get(it), PICTURE_TOP + k * PICTURE_ROW, palette));
  if (!shown.length) pen.text(STRIP_LEFT, PICTURE_TOP + 11, 'no page is assigned', ink);
  if (rows > shown.length && shown.length)
    pen.text(STRIP_LEFT, PICTURE_TOP + shown.length * PICTURE_ROW + 11, 'and more pages', ink);
  palette.end();
  return pen.result;
}

export const svgOf = (view, moment) => drawn(view, moment, SvgPen);

/** Saves the picture of the moment that is shown as a file. */
export async function savePicture(view, kind) {
  const data = await drawn(view, view.moment, kind === 'svg' ? SvgPen : CanvasPen);
  const blob = kind === 'svg' ? new Blob([data], { type: 'image/svg+xml' }) : data, url = URL.createObjectURL(blob);
  make('a', { href: url, download: `${view.run.name.replace(/\.vsm$/, '')}-${view.moment.step}.${kind}` }).click();
  setTimeout(() => URL.revokeObjectURL(url), 60_000);
}

/** The steps that a text like `1-3, 8` names, up to the last one. */
export function stepsIn(text, last) {
  const found = new Set();
  for (const part of text.split(/[\s,]+/).filter(Boolean)) {
    const [, from, to] = /^(\d+)(?:-(\d+))?$/.exec(part) ?? [];
    for (let step = Number(from); step <= Math.min(last, Number(to ?? from)); step++) found.add(step);
  }
  return [...found].sort((a, b) => a - b);
}

/** A page to be printed: statements with their answers and pictures, below each other. */
export function handoutOf(view, steps, momentAt) {
  const { run } = view;
  const sections = steps.map(step => {
    const picture = make('div', { class: 'picture' });
    picture.innerHTML = svgOf(view, momentAt(step));
    const text = step ? view.textOfStatement(step).split('\n').map(shownLine).join('\n') : 'Before the first statement';
    return make('section', {}, make('pre', {}, step ? `${run.statement(step).line}  ${text}` : text),
      make('p', {}, step ? run.statement(step).reply : ''), picture);
  });
  const head = make('h1', {}, `${run.name}: ${count(steps.length, 'statement')}`);
  return make('div', { class: 'handout' }, head, ...sections);
}
