// What is shown at a step: the states before and after its statement, and what follows from the replies up to it.
import { Changes } from './changes.js';
import { areaOf, Grants, isKept, standing, stepsOf } from './replies.js';
import { Pages } from './storage.js';

const MOST_SIDES = 3; // that are kept of a run: a step back or on computes one more

/** What is computed once for a run: what its replies do and grant, and its last sides. */
function pastOf(run) {
  const replies = run.past ? [] : run.statements.map(it => it.reply);
  return run.past ??= { changes: stepsOf(replies), grants: new Grants(replies), sides: new Map() };
}

function sideOf(run, step) {
  const { sides } = pastOf(run), side = sides.get(step) ?? madeSide(run, step);
  sides.delete(step);
  sides.set(step, side);
  if (sides.size > MOST_SIDES) sides.delete(sides.keys().next().value); // the least recently used
  return side;
}

function madeSide(run, step) {
  const { changes, grants } = pastOf(run);
  const state = run.stateAt(step), count = run.skipped + step;
  const { stand, again, kept } = standing(changes, state.limit, count);
  const stands = new Uint8Array(count);
  for (const k of stand) stands[k] = 1;
  let cells = null;
  const gets = () => cells ??= grants.cells(stand);
  const pages = new Pages(state, (page, extents) => grants.piecesAt(page, k => stands[k], extents), gets);
  return { state, stand, stands, again, kept, pages, bytes: run.bytesAt(step) };
}

/** The steps whose statements were kept and aren't in effect: undone, whether they can be redone or not. */
const undoneOf = (run, { stands }) => ({
  has(step) {
    const k = run.skipped + step - 1;
    return k < stands.length && !stands[k] && isKept(run.statements[k].reply);
  }
});

/** What the statement of a step was granted, from byte to byte; a cell is as long as its pool says. */
function grantedAt(run, step, state) {
  const area = areaOf(run.statement(step).reply);
  if (!area) return null;
  const pool = state.pools.find(
    it => it.extents.some(([first, length]) => area.from >= first && area.from < first + length)
  );
  return { from: area.from, to: area.from + (area.length || (pool?.size ?? 8)) };
}

/** The moment after a step's statement. With `still`, nothing is granted and nothing has changed. */
export function momentOf(run, step, still) {
  const now = sideOf(run, step), before = step && !still ? sideOf(run, step - 1) : now;
  return {
    step, state: now.state, pages: now.pages, before: before.state, bytes: now.bytes, bytesBefore: before.bytes,
    changed: new Changes(pastOf(run).grants, now, before), undone: undoneOf(run, now),
    again: now.again.length, kept: now.kept, stand: now.stand, areas: pastOf(run).grants.areas,
    granted: step && !still ? grantedAt(run, step, now.state) : null,
  };
}
