// What follows from the replies: which statements are in effect, and what each of them obtained.
import { PAGE } from './map.js';

const KEPT = -2, NOTHING = -1;
const NEAR = 16, CHUNK = 256; // pages: areas longer than NEAR are looked up by CHUNK

export const isKept = reply => /^(RC=|T=|OK)/.test(reply);

/** How a reply is shown: as kept, a step back or forward, return code 4, refused, or none of these. */
export function kindOf(reply) {
  if (/^(ABEND|REFUSED|FAULT)/.test(reply)) return 'refused';
  if (reply === 'RC=4') return 'four';
  if (reply.startsWith('KEPT=')) return 'step';
  return isKept(reply) ? 'kept' : 'shown';
}

/** What each reply does to the history: it keeps one more change, or sets the number of kept ones, or does nothing. */
export const stepsOf = replies => Int32Array.from(
  replies, it => isKept(it) ? KEPT : it.startsWith('KEPT=') ? +it.slice(5) : NOTHING
);

/** Which of the first `count` statements are then in effect, and which can be redone. A kept one is pushed; a step says
    how many changes are kept after it, and that number are popped or pushed back. */
export function standing(steps, limit, count = steps.length) {
  const stand = [], again = [];
  let kept = 0;
  for (let k = 0; k < count; k++) {
    const now = steps[k];
    if (now === KEPT) {
      stand.push(k);
      again.length = 0;
      kept = Math.min(kept + 1, limit);
    } else if (now !== NOTHING) {
      for (; kept > now && stand.length; kept--) again.push(stand.pop());
      for (; kept < now && again.length; kept++) stand.push(again.pop());
    }
  }
  return { stand, again, kept };
}

/** The address and length of what a reply grants; a cell's reply has no length. */
export function areaOf(reply) {
  const found = /^RC=0 A=(\w{8})(?: L=(\w{8}))?$/.exec(reply);
  return found && { from: parseInt(found[1], 16), length: found[2] ? parseInt(found[2], 16) : 0 };
}

/** What the replies of a run grant, and which of them may reach a page. */
export class Grants {
  constructor(replies) {
    Object.assign(this, { areas: replies.map(areaOf), near: new Map(), far: new Map() });
    this.areas.forEach((area, k) => {
      if (!area?.length) return;
      const isNear = area.length <= NEAR * PAGE, unit = isNear ? PAGE : CHUNK * PAGE;
      const places = isNear ? this.near : this.far;
      for (let at = Math.floor(area.from / unit); at * unit < area.from + area.length; at++) {
        if (!places.has(at)) places.set(at, []);
        places.get(at).push(k);
      }
    });
  }

  /** By address, which of these standing statements handed out the cell there. */
  cells(stand) {
    return new Map(stand.flatMap(k => this.areas[k]?.length === 0 ? [[this.areas[k].from, k]] : []));
  }

  /** The areas in a page that standing statements obtained, and extents of cell pools, in pieces: from, to, and the
      statement (none for an extent). An area is granted only in free storage, so earlier areas there are gone: the
      last one is looked at first. */
  piecesAt(page, isStanding, extents) {
    const pieces = [];
    let open = [[page * PAGE, (page + 1) * PAGE]];
    function take(start, length, k) {
      const rest = [];
      for (const [first, end] of open) {
        const from = Math.max(first, start), to = Math.min(end, start + length);
        if (from < to) pieces.push({ from, to, k });
        rest.push(...from < to ? [[first, from], [to, end]] : [[first, end]]);
      }
      open = rest.filter(([first, end]) => first < end);
    }
    for (const [first, length] of extents) take(first, length);
    const near = this.near.get(page) ?? [], far = this.far.get(Math.floor(page / CHUNK)) ?? [];
    for (let at = near.length - 1, beyond = far.length - 1; open.length && (at >= 0 || beyond >= 0);) {
      const k = (near[at] ?? -1) > (far[beyond] ?? -1) ? near[at--] : far[beyond--];
      if (isStanding(k)) take(this.areas[k].from, this.areas[k].length, k);
    }
    return pieces;
  }
}
