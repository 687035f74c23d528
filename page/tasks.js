// The tasks as a tree, each with the subpools that it owns and shares, and the registers of one of them.
import { count, make, panel, placeOf, put, tag } from './elements.js';

const MOST_TAGS = 12;

/** The subpools that each task owns and shares, by its number. */
function seenBy({ subpools }) {
  const seen = new Map();
  const of = task => seen.get(task) ?? seen.set(task, { owned: [], shared: [] }).get(task);
  for (const it of subpools) {
    of(it.owner).owned.push(it);
    for (const task of it.sharers) of(task).shared.push(it);
  }
  return of;
}

function branchOf(view, parent, seen) {
  const { state } = view.moment, children = state.tasks.filter(it => it.parent === parent);
  return children.length
    ? make('ul', {}, ...children.map(it => make('li', {}, taskOf(view, it, seen), branchOf(view, it.number, seen))))
    : null;
}

/** Whether a task is new, has begun or ceased to share or own a subpool, or has become the current one. */
function isChanged({ before }, task, { now, earlier }) {
  const was = before.tasks.find(it => it.number === task.number);
  const numbers = ({ owned, shared }) => [...owned, ...shared].map(it => it.number).sort((a, b) => a - b).join();
  return !was || task.current && !was.current || numbers(now(task.number)) !== numbers(earlier(task.number));
}

/** Tasks that the statement ended, which are no longer in the tree. */
function endedOf({ state, before }) {
  const ended = before.tasks.filter(was => !state.tasks.some(it => it.number === was.number));
  const text = `• ${ended.map(it => `task ${it.number}`).join(', ')} ended`;
  return ended.length ? make('p', { class: 'ended changed', ...placeOf('ended') }, text) : null;
}

/** The subpools of a task; of many only their number, which the table below has. */
function tagsOf(view, { owned, shared }) {
  if (owned.length + shared.length > MOST_TAGS)
    return [make('span', { class: 'muted' }, `${count(owned.length, 'subpool')}, ${shared.length} shared`)];
  return [...owned.map(it => tag(view.run, it, { own: true })),
    ...shared.map(it => tag(view.run, it, { shared: true }))];
}

function taskOf(view, task, seen) {
  const changed = isChanged(view.moment, task, seen);
  return make(
    'div', {
      class: ['task', task.current && 'current', changed && 'changed'].filter(Boolean).join(' '),
      ...placeOf(`task ${task.number}`)
    },
    changed ? make('span', { class: 'requests' }, '•') : null,
    make(
      'button', {
        type: 'button',
        'data-task': task.number,
        'aria-pressed': String(task.number === view.task.number),
        title: 'show its registers',
        onclick: () => view.pick(task.number)
      },
      `Task ${task.number}`
    ),
    task.current ? make('span', { class: 'requests' }, 'makes the requests') : null,
    ...tagsOf(view, seen.now(task.number))
  );
}

export function tasksPart(view) {
  const tree = make('div', { class: 'tree' }), whole = panel('Tasks and their subpools', tree);
  const element = make('div', {}, whole), [heading] = whole.childNodes;
  /** Scrolls the tree to a task that begins to make the requests, if it's out of sight. */
  function reveal() {
    const task = tree.querySelector('.current');
    if (!task || tree.scrollHeight <= tree.clientHeight) return;
    const box = tree.getBoundingClientRect(), { top, bottom } = task.getBoundingClientRect();
    if (top < box.top || bottom > box.bottom) tree.scrollTop += top - box.top - tree.clientHeight / 3;
  }
  function draw() {
    const seen = { now: seenBy(view.moment.state), earlier: seenBy(view.moment.before) };
    put(tree, [branchOf(view, 0, seen)]);
    put(whole, [heading, tree, endedOf(view.moment)].filter(Boolean));
  }
  const focus = number => element.querySelector(`[data-task="${number}"]`)?.focus();
  return { element, draw, drawn: reveal, focus };
}

export function registersPart(view) {
  const element = make('div', {});
  function draw() {
    const { task } = view;
    const was = view.moment.before.tasks.find(it => it.number === task.number)?.registers ?? [];
    const wordOf = (word, number) =>
      make('td', { class: was[number] === word ? null : 'changed', ...placeOf(`R${number}`) }, word);
    const cells = number =>
      [make('th', { scope: 'row' }, `R${number}`), wordOf(task.registers[number], number)];
    const rows = Array.from({ length: 8 }, (_, k) => make('tr', {}, ...cells(k), ...cells(k + 8)));
    element.replaceChildren(panel(`Registers of task ${task.number}`, make('table', {}, ...rows)));
  }
  return { element, draw };
}
