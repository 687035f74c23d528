// Subpools, names, the history and the totals, as tables.
import { count, grouped, make, panel, placeOf, tag } from './elements.js';
import { PAGE } from './map.js';

export const MOST_SUBPOOLS = 400; // of more, only those of one task are shown
const sum = areas => areas.reduce((total, [, length]) => total + length, 0);

/** Pages, taken and free bytes of a subpool; or nothing if there is none. */
const sizesOf = subpool =>
  subpool ? [sum(subpool.extents) / PAGE, sum(subpool.extents) - sum(subpool.free), sum(subpool.free)] : [];

function subpoolRow(view, subpool, was, shared) {
  const place = placeOf(`subpool ${subpool.number} ${subpool.owner}`);
  return make('tr', place, make('td', { class: 'text' }, tag(view.run, subpool)),
    ...sizesOf(subpool).map((it, k) => make('td', { class: was[k] === it ? null : 'changed' }, grouped(it))),
    shared ? make('td', { class: 'text sharers' }, subpool.sharers.map(it => `T${it}`).join(' ')) : null);
}

/** How the free bytes of a subpool are divided, if they are. */
function freeRow({ free }, columns) {
  if (free.length < 2) return [];
  const most = free.reduce((found, [, length]) => Math.max(found, length), 0);
  const text = `${count(free.length, 'free area')}, the largest ${grouped(most)}`;
  return [make('tr', { class: 'divided muted' }, make('td', { colspan: columns }, text))];
}

/** The rows of the subpools: of very many, only those that the shown task sees and those that changed. */
function subpoolRows(view, shared) {
  const { state, before } = view.moment, { number } = view.task;
  const known = new Map(before.subpools.map(it => [`${it.number} ${it.owner}`, it]));
  const wasOf = it => sizesOf(known.get(`${it.number} ${it.owner}`));
  const isShown = it => state.subpools.length <= MOST_SUBPOOLS || it.owner === number || it.sharers.includes(number) ||
    String(wasOf(it)) !== String(sizesOf(it));
  return state.subpools.filter(isShown)
    .map(it => [subpoolRow(view, it, wasOf(it), shared), ...freeRow(it, shared ? 5 : 4)]);
}

export function subpoolsPart(view) {
  const element = make('div', {});
  function draw() {
    const { subpools } = view.moment.state;
    const shared = subpools.some(it => it.sharers.length), rows = subpoolRows(view, shared);
    const heads = ['subpool', 'pages', 'taken', 'free', ...shared ? ['sharers'] : []];
    const head =
      make('tr', {}, ...heads.map((it, k) => make('th', { scope: 'col', class: k % 4 ? null : 'text' }, it)));
    const more = subpools.length - rows.length;
    const others = more ? make('p', { class: 'muted' }, `${count(more, 'subpool')} more: choose their task.`) : null;
    element.replaceChildren(panel('Subpools', make('table', {}, head, ...rows.flat()), others));
  }
  return { element, draw };
}

export function namesPart(view) {
  const element = make('div', {});
  function draw() {
    const { state, before } = view.moment, was = new Map(before.names);
    const row = ([name, word]) => make(
      'tr', placeOf(`name ${name}`), make('td', { class: 'text' }, name),
      make('td', { class: was.get(name) === word ? null : 'changed' }, word)
    );
    element.replaceChildren(
      ...state.names.length ? [panel('Names', make('table', placeOf('names'), ...state.names.map(row)))] : []
    );
  }
  return { element, draw };
}

/** A bar divided in proportion to its parts. */
const barOf = (whole, ...parts) => make(
  'div', { class: 'share', 'aria-hidden': 'true' },
  ...parts.map(it => make('i', { style: `width:${whole ? 100 * it / whole : 0}%` }))
);

export function totalsPart(view) {
  const element = make('div', {});
  function draw() {
    const { state, again } = view.moment;
    element.replaceChildren(
      panel(
        'History', barOf(state.limit, state.kept, again),
        make(
          'p', { class: 'history' },
          `${grouped(state.kept)} kept of at most ${grouped(state.limit)}, ${grouped(again)} undone`
        )
      ),
      panel(
        'Bytes', barOf(state.taken + state.free, state.taken),
        make(
          'p', { class: 'bytes' }, `${count(state.taken, 'byte')} taken, ${count(state.free, 'byte')} free`
        )
      )
    );
  }
  return { element, draw };
}
