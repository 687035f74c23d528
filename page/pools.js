// The cell pools: each cell is a box in its extent, and the next one to be handed out is framed.
import { colourOf, count, hex, make, panel, placeOf, put, tag } from './elements.js';

const SIDE = 12, IN_ROW = 22, NEXT = 4, ROUND = 1.5;
const TOGETHER = 8 * IN_ROW; // cells that are drawn anew if one of them changes
const KINDS_OF_CELLS = ['cell', 'freecell', 'freecell next'];

/** A box with round corners for each of some cells of an extent, as one path. */
function boxesOf(cells) {
  const side = SIDE - 3, line = side - 2 * ROUND, arc = `a${ROUND} ${ROUND} 0 0 1 `;
  return cells.map(k => {
    const [x, y] = [1.5 + k % IN_ROW * SIDE, 1.5 + Math.floor(k / IN_ROW) * SIDE];
    return `M${x + ROUND} ${y}h${line}${arc}${ROUND} ${ROUND}v${line}${arc}-${ROUND} ${ROUND}h-${line}` +
      `${arc}-${ROUND} -${ROUND}v-${line}${arc}${ROUND} -${ROUND}z`;
  }).join('');
}

/** Some cells of an extent, from one on, by the digits of their kinds. */
function cellsElement(from, digits) {
  const paths = KINDS_OF_CELLS.map((name, kind) => {
    const cells = [...digits].flatMap((it, k) => Number(it) === kind ? [from + k] : []);
    return cells.length ? make('path', { class: name, d: boxesOf(cells) }) : null;
  });
  return make('g', {}, ...paths);
}

function extentElement([first, length], cells) {
  const wide = Math.min(cells, IN_ROW), size = { width: wide * SIDE + 2, height: Math.ceil(cells / IN_ROW) * SIDE + 2 };
  return make('div', { class: 'extent' },
    make('span', { class: 'mono muted' }, `${hex(first)}, ${count(cells, 'cell')}, ${count(length, 'byte')}`),
    make('svg', { ...size, role: 'img' }));
}

const headOf = (run, pool) => make('p', {}, make('strong', {}, pool.name),
  tag(run, { number: pool.subpool, owner: pool.owner }), `${count(pool.size, 'byte')} a cell`,
  pool.header && make('q', { class: 'muted' }, pool.header));

function nextOf({ free }) {
  const more = free.length - NEXT;
  const first = `next: ${free.slice(0, NEXT).map(hex).join(' ')}${more > 0 ? ` and ${more} more` : ''}`;
  return make('p', { class: 'mono muted' }, free.length ? first : 'no cell is free');
}

export function poolsPart(view) {
  const { run } = view, element = make('div', {}), whole = panel('Cell pools'), [heading] = whole.childNodes;
  let known = new Map(), fresh = new Map(); // elements by what they show: those that stay the same stay in place

  function kept(act, ...look) {
    const key = look.join();
    if (!fresh.has(key)) fresh.set(key, known.get(key) ?? act());
    return fresh.get(key);
  }
  function extentOf(pool, area, cells, order) {
    const [first] = area, it = kept(() => extentElement(area, cells), 'extent', pool.name, area, cells), groups = [];
    const kindAt = k => order.has(first + k * pool.size) ? order.get(first + k * pool.size) ? 1 : 2 : 0;
    let free = 0;
    for (let from = 0; from < cells; from += TOGETHER) {
      const kinds = Array.from({ length: Math.min(TOGETHER, cells - from) }, (_, k) => kindAt(from + k));
      free += kinds.filter(Boolean).length;
      groups.push(kept(() => cellsElement(from, kinds.join('')), 'cells', pool.name, first, from, kinds.join('')));
    }
    put(it.lastChild, groups);
    it.lastChild.setAttribute('aria-label', `${count(cells, 'cell')}, ${free} free`);
    return it;
  }
  function poolOf(pool) {
    const { name, subpool, owner, size, header, extents } = pool, order = new Map(pool.free.map((at, k) => [at, k]));
    const place = { class: 'pool', style: colourOf(run, subpool), ...placeOf(`pool ${name}`) };
    const it = kept(() => make('div', place), 'pool', name, subpool);
    put(it, [
      kept(() => headOf(run, pool), 'head', name, subpool, owner, size, header),
      ...extents.map((area, k) => extentOf(pool, area, k ? pool.secondary : pool.primary, order)), nextOf(pool)
    ]);
    return it;
  }
  function draw() {
    const pools = view.moment.state.pools.map(poolOf);
    [known, fresh] = [fresh, new Map()];
    put(whole, [heading, ...pools]);
    put(element, pools.length ? [whole] : []);
  }
  return { element, draw };
}
