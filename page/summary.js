// What a statement changed, in one line: each part is a link to its place on the page.
import { count, hex, make } from './elements.js';
import { PAGE } from './map.js';

const MOST_PARTS = 12; // of the parts

const sumOf = areas => areas.reduce((total, [, length]) => total + length, 0);
const signed = (value, one) => `${value > 0 ? '+' : '−'}${count(Math.abs(value), one)}`;
const keyOf = it => `${it.number} ${it.owner}`;

/** The sizes of a subpool (or of none) that a statement may change. */
const sizesIn = it => it ? [sumOf(it.extents) / PAGE, sumOf(it.extents) - sumOf(it.free)] : [0, 0];

function subpoolChanges({ state, before }) {
  const [now, was] = [state, before].map(all => new Map(all.subpools.map(it => [keyOf(it), it])));
  return [...new Set([...was.keys(), ...now.keys()])].flatMap(key => {
    const [it, old] = [now.get(key), was.get(key)];
    const [pages, taken] = sizesIn(it).map((size, k) => size - sizesIn(old)[k]);
    const told = [
      pages && signed(pages, 'page'), taken && signed(taken, 'byte'),
      !old && 'new', !it && 'gone', it && old && String(it.sharers) !== String(old.sharers) && 'sharers'
    ].filter(Boolean);
    const { number, owner } = it ?? old, many = state.tasks.length > 1 ? ` of task ${owner}` : '';
    return told.length ? [{ text: `subpool ${number}${many}: ${told.join(', ')}`, at: `subpool ${key}` }] : [];
  });
}

function poolChanges({ state, before }) {
  const [now, was] = [state, before].map(all => new Map(all.pools.map(it => [it.name, it])));
  return [...new Set([...was.keys(), ...now.keys()])].flatMap(name => {
    const [it, old] = [now.get(name), was.get(name)], free = it && old ? it.free.length - old.free.length : 0;
    const told = [!old && 'new', !it && 'gone', free && `${signed(free, 'free cell')}`].filter(Boolean);
    const isOther = it && old && !told.length && String([it.extents, it.free]) !== String([old.extents, old.free]);
    const text = `cell pool ${name}${isOther ? '' : `: ${told.join(', ')}`}`;
    return told.length || isOther ? [{ text, at: `pool ${name}` }] : [];
  });
}

function registerChanges({ state, before }) {
  return state.tasks.flatMap(task => {
    const old = before.tasks.find(it => it.number === task.number)?.registers;
    const whose = task.current ? '' : ` of task ${task.number}`;
    return task.registers.flatMap((word, k) => old && old[k] !== word
      ? [{ text: `R${k}${whose}`, task: task.number, at: `R${k}` }] : []);
  });
}

function taskChanges({ state, before }) {
  const was = new Map(before.tasks.map(it => [it.number, it]));
  const found = state.tasks.flatMap(it => {
    const old = was.get(it.number), runs = it.current && !old?.current && `task ${it.number} runs`;
    const text = old ? runs : `task ${it.number}: new`;
    return text ? [{ text, at: `task ${it.number}` }] : [];
  });
  const ended = before.tasks.filter(old => !state.tasks.some(it => it.number === old.number));
  return [...found, ...ended.map(it => ({ text: `task ${it.number} ended`, at: 'ended' }))];
}

function nameChanges({ state, before }) {
  const was = new Map(before.names), now = new Map(state.names);
  return [...new Set([...now.keys(), ...was.keys()])].filter(it => now.get(it) !== was.get(it))
    .map(it => ({ text: it, at: now.has(it) ? `name ${it}` : 'names' }));
}

/** The parts of what a moment's statement changed: texts with their places. A page is named if bytes were stored in it,
    or if nothing else is named. */
export function changesOf(moment) {
  const { changed } = moment;
  const found = [registerChanges, nameChanges, taskChanges, subpoolChanges, poolChanges].flatMap(it => it(moment));
  const stored = [...changed.stored].map(page => ({ text: `bytes of page ${hex(page * PAGE)}`, page }));
  const all = [...found, ...stored], { first } = changed;
  return all.length || first === undefined ? all : [{ text: `page ${hex(first * PAGE)}`, page: first }];
}

/** The line of the card; nothing if the statement changed nothing that is shown. */
export function changedLine(view) {
  const all = changesOf(view.moment), more = all.length - MOST_PARTS;
  if (!all.length) return null;
  const act = it => it.page === undefined ? view.show(it.at, it.task) : view.choose(it.page);
  const parts = all.slice(0, MOST_PARTS).map(it =>
    make('button', { type: 'button', class: 'by', onclick: () => act(it) }, it.text));
  return make(
    'p', { class: 'what' }, 'Changed: ', ...parts.flatMap((it, k) => k ? [', ', it] : [it]),
    more > 0 ? ` and ${count(more, 'part')} more.` : '.'
  );
}
