// The assigned pages of a state: whose each is, its parts from byte to byte, and its cells. Each is computed when it's
// asked for: a region may have 262,144.
import { PAGE } from './map.js';

const byAddress = (a, b) => a.first - b.first;
const endOf = ([first, length]) => first + length;

/** How many of the first of ascending items satisfy a condition. */
export function countOf(list, holds) {
  let low = 0, high = list.length;
  while (low < high) {
    const mid = (low + high) >> 1;
    if (holds(list[mid])) low = mid + 1;
    else high = mid;
  }
  return low;
}

/** The parts of a page, in order: the subpool's free areas are free, the rest is taken, cut where areas meet, each with
    the statement that obtained it. */
function partsOf(begin, free, pieces) {
  const parts = [], edges = pieces.flatMap(it => [it.from, it.to]).sort((a, b) => a - b);
  const push = (from, to) =>
    parts.push({ from, to, kind: 'taken', k: pieces.find(it => it.from <= from && from < it.to)?.k });
  const taken = (from, to) => {
    for (const edge of edges) {
      if (edge <= from || edge >= to) continue;
      push(from, edge);
      from = edge;
    }
    if (from < to) push(from, to);
  };
  let at = begin;
  for (const [first, length] of free) {
    const from = Math.max(begin, first), to = Math.min(begin + PAGE, first + length);
    taken(at, from);
    parts.push({ from, to, kind: 'free' });
    at = to;
  }
  taken(at, begin + PAGE);
  return parts;
}

/** The cells of a pool's extent that reach into a page, cut at its ends, each with whether it's free, and the statement
    that got it. */
function cellsOf({ first, pool, count, free }, begin, gets) {
  const from = Math.max(0, Math.floor((begin - first) / pool.size));
  const to = Math.min(count, Math.ceil((begin + PAGE - first) / pool.size));
  return Array.from({ length: Math.max(0, to - from) }, (_, k) => {
    const at = first + (from + k) * pool.size;
    return {
      from: Math.max(begin, at),
      to: Math.min(begin + PAGE, at + pool.size),
      ...free.has(at) ? { kind: 'freecell' } : { kind: 'cell', k: gets.get(at) },
      pool,
      whole: pool.size
    };
  });
}

/** `piecesAt(page, extents)` returns which statement obtained which piece of a page, and `gets()` which one handed out
    the cell at an address. */
export class Pages {
  constructor(state, piecesAt, gets) {
    Object.assign(this, { piecesAt, gets, made: new Map() });
    this.extents = state.subpools.flatMap(
      subpool => subpool.extents.map(it => ({ first: it[0], end: endOf(it), subpool }))
    ).sort(byAddress);
    this.cells = state.pools.flatMap(pool => {
      const free = new Set(pool.free);
      return pool.extents.map((it, k) => (
        { first: it[0], end: endOf(it), pool, free, count: k ? pool.secondary : pool.primary }
      ));
    }).sort(byAddress);
  }

  /** The lowest assigned page. */
  get lowest() {
    return this.extents.length ? this.extents[0].first / PAGE : undefined;
  }

  subpoolAt(page) {
    const found = this.extents[countOf(this.extents, it => it.first <= page * PAGE) - 1];
    return found && page * PAGE < found.end ? found.subpool : undefined;
  }

  has(page) {
    return this.subpoolAt(page) !== undefined;
  }

  /** A page, or nothing if it isn't assigned; `key` differs if anything in it does. */
  get(page) {
    if (!this.made.has(page)) this.made.set(page, this.pageOf(page));
    return this.made.get(page);
  }

  pageOf(page) {
    const subpool = this.subpoolAt(page), begin = page * PAGE, end = begin + PAGE;
    if (!subpool) return undefined;
    const among = (list, firstOf, lastOf) =>
      list.slice(countOf(list, it => lastOf(it) <= begin), countOf(list, it => firstOf(it) < end));
    const free = among(subpool.free, it => it[0], endOf), within = among(this.cells, it => it.first, it => it.end);
    const parts = partsOf(begin, free, this.piecesAt(page, within.map(it => [it.first, it.end - it.first])));
    const cells = within.flatMap(it => cellsOf(it, begin, this.gets()));
    const told = [...parts.map(it => it.kind[0] + it.from), ...cells.map(it => it.kind + it.from)];
    return { page, subpool, parts, cells, key: `${subpool.number} ${subpool.owner} ${told}` };
  }
}
