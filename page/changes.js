// The pages that differ between two moments; a page is compared when it's asked for.
import { PAGE, runsOf } from './map.js';
import { countOf } from './storage.js';

/** The areas that are in one of two lists and not in the other. */
function differing(list, others) {
  const lengths = new Map(others);
  const found = list.filter(([first, length]) => lengths.get(first) !== length || !lengths.delete(first));
  return [...found, ...lengths];
}

/** Areas outside which two sides don't differ. */
function differences(grants, now, before) {
  const holdersOf = ({ subpools, pools }) =>
    new Map([...subpools.map(it => [`${it.number} ${it.owner}`, it]), ...pools.map(it => [it.name, it])]);
  const freeOf = it => it.size ? it.free.map(at => [at, it.size]) : it.free;
  const [holders, others] = [now, before].map(it => holdersOf(it.state)), none = { extents: [], free: [] };
  const found = [...new Set([...holders.keys(), ...others.keys()])].flatMap(name => {
    const [it, other] = [holders, others].map(all => all.get(name) ?? none);
    return [...differing(it.extents, other.extents), ...differing(freeOf(it), freeOf(other))];
  });
  let same = 0;
  while (same < now.stand.length && now.stand[same] === before.stand[same]) same++;
  const areas = [...now.stand.slice(same), ...before.stand.slice(same)].map(k => grants.areas[k]);
  return [...found, ...areas.flatMap(it => it ? [[it.from, it.length || 1]] : [])];
}

/** The pages that differ between two sides, in their parts or in stored bytes. */
export class Changes {
  constructor(grants, now, before) {
    const rows = [...new Set([...now.bytes.keys(), ...before.bytes.keys()])];
    const stored = rows.filter(it => now.bytes.get(it) !== before.bytes.get(it));
    Object.assign(this, { now, before, stored: new Set(stored.map(it => Math.floor(it / PAGE))) });
    this.runs = runsOf(now === before ? [] : [...differences(grants, now, before), ...stored.map(it => [it, 1])]);
    this.share();
  }

  isWithin(page) {
    return (this.runs[countOf(this.runs, it => it[0] <= page) - 1]?.[1] ?? 0) > page;
  }

  has(page) {
    return this.isWithin(page) &&
      (this.stored.has(page) || this.now.pages.get(page)?.key !== this.before.pages.get(page)?.key);
  }

  /** The lowest of them that is assigned. */
  get first() {
    for (const [from, to] of this.runs)
      for (let page = from; page < to; page++) if (this.now.pages.has(page) && this.has(page)) return page;
    return undefined;
  }

  /** Passes on what was computed for one side to the other, for pages that don't differ. */
  share() {
    const [made, others] = [this.now.pages.made, this.before.pages.made];
    for (const [one, other] of [[made, others], [others, made]])
      for (const [page, it] of one) if (!other.has(page) && !this.isWithin(page)) other.set(page, it);
  }
}
