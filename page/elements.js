// Elements, numbers and colours.
const SVG = 'http://www.w3.org/2000/svg', SVG_NAMES = new Set(['svg', 'path', 'rect', 'g', 'title']);

export const hex = value => value.toString(16).toUpperCase().padStart(8, '0');
export const grouped = value => value.toLocaleString('en');
export const count = (value, one, many = `${one}s`) => `${grouped(value)} ${value === 1 ? one : many}`;

/** An element with attributes; those that begin with `on` are its handlers. Null ones are omitted. */
export function make(name, values = {}, ...inner) {
  const it = SVG_NAMES.has(name) ? document.createElementNS(SVG, name) : document.createElement(name);
  for (const [key, value] of Object.entries(values)) {
    if (key.startsWith('on')) it[key] = value;
    else if (value !== null && value !== undefined && value !== false)
      it.setAttribute(key, value === true ? '' : value);
  }
  it.append(...inner.filter(part => part !== null && part !== undefined && part !== ''));
  return it;
}

/** Replaces an element's nodes; those it already has stay in place. */
export function put(element, nodes) {
  const wanted = new Set(nodes);
  for (const it of [...element.childNodes]) if (!wanted.has(it)) it.remove();
  nodes.forEach((it, k) => {
    if (element.childNodes[k] !== it) element.insertBefore(it, element.childNodes[k] ?? null);
  });
}

/** A part of the page with a heading. */
export const panel = (name, ...inner) =>
  make('section', {class: 'panel', 'aria-label': name}, make('h2', {}, name), ...inner);

/** The attribute of a place that links of the page lead to, by its name. */
export const placeOf = name => ({ 'data-at': name });

/** The colour of a subpool's number, as a style. */
export const colourOf = (run, number) => `--c:var(--c${run.colourOf(number)})`;

/** A subpool by colour, number and owner; the owner is omitted next to its own name. */
export function tag(run, subpool, { shared = false, own = false } = {}) {
  const title = `subpool ${subpool.number}, owned by task ${subpool.owner}`;
  return make('span', { class: shared ? 'tag shared' : 'tag', style: colourOf(run, subpool.number), title },
    `SP ${subpool.number}${own ? '' : ` T${subpool.owner}`}`);
}

const MOST_LINKS = 4000;

/** A text in which each `line 6` leads to that line. */
export function withLinks(text, chosen) {
  const pieces = text.split(/\b(line \d+)\b/);
  if (pieces.length > MOST_LINKS) return [text];
  return pieces.map((it, k) => k % 2
    ? make('button', { type: 'button', class: 'to-line by', onclick: () => chosen(+it.slice(5)) }, it) : it);
}

/** A line drawing of 16 by 16, next to its button's label. */
export const icon = (d, filled) => make(
  'svg', {class: filled ? 'icon filled' : 'icon', viewBox: '0 0 16 16', 'aria-hidden': 'true'},
  make('path', {d})
);
