// The keys, and how to read the page.
import { make } from './elements.js';

const KEYS = [
  [['←', '→'], 'one statement back, one on; with Shift ten'],
  [['Page up', 'Page down'], 'a hundred back, a hundred on'],
  [['Home', 'End'], 'before the first statement, after the last'],
  [['[', ']'], 'to the previous or next statement that was refused or answered 4'],
  [['↑', '↓'], 'in the script a statement, in the storage a page'],
  [['Space'], 'play or stop'],
  [['T'], 'teacher’s mode: answers stay hidden until you ask for them'],
  [['Enter'], 'in the teacher’s mode: show the answer'],
  [['/'], 'find a text in the script, or go to a line'],
  [['?'], 'this help'],
];
const TEXTS = [
  'Each row of the storage is a page of 4,096 bytes; its colour and number are those of its subpool, and T ' +
    'is the owner. A strong colour is taken, a faint one free, also for cells; thin lines separate areas that ' +
    'touch. An outline surrounds what the statement was granted, and a dot marks what it changed.',
  'Over the slider are ticks at what was refused (long), answered 4 (low), a step (high) and what check found ' +
    '(middle); the storage of the whole run, a row for each page or some of them, the stronger the more of it is ' +
    'taken; and, on one scale, curves of the bytes taken (filled), of the pages below (line) and above (dashes) the ' +
    '16 MB line, and of the largest free area (dots), with what each reaches. With many statements, each point has ' +
    'the greatest and the least value.',
  'All of it is what vsm printed: a map before and after each statement, and PEEKs of what POKEs store; and what ' +
    'vsm-explain check finds. Only which line obtained an area, and which statements are undone, is derived from the ' +
    'replies.',
];

/** A switch for keys of one character: with speech input they may be in the way. */
const lettersSwitch = view => make(
  'label', {},
  make('input', { type: 'checkbox', checked: true, onchange: event => { view.hasLetters = event.target.checked; } }),
  ' Keys of one character (T / ? [ ]) act'
);

export function helpDialog(view) {
  const title = make('h2', {}, 'A run, statement by statement');
  title.id = `help-title-${Math.random().toString(36).slice(2)}`;
  const keys = KEYS.flatMap(
    ([names, does]) => [make('dt', {}, ...names.map(it => make('kbd', {}, it))), make('dd', {}, does)]
  );
  return make(
    'dialog', { 'aria-labelledby': title.id }, title, make('dl', {}, ...keys),
    make('p', {}, lettersSwitch(view)), ...TEXTS.map(it => make('p', {}, it)),
    make('form', { method: 'dialog' }, make('button', {}, 'Close'))
  );
}

/** Saves the storage as a picture of a kind, or prints a handout of the statements that a text names. */
export function savingDialog({ save, print }) {
  const field = make('input', { 'aria-label': 'Statements', placeholder: '1-3, 8', autocomplete: 'off' });
  const button = (text, kind) => make('button', { type: 'button', onclick: () => save(kind) }, text);
  const form = make('form', { method: 'dialog', onsubmit: () => print(field.value) });
  form.append(make('label', {}, 'Statements ', field), ' ', make('button', {}, 'Print'));
  return make(
    'dialog', { 'aria-label': 'Pictures and handouts' }, make('h2', {}, 'Pictures and handouts'),
    make('p', {}, 'The storage as it’s shown: ', button('SVG', 'svg'), ' ', button('PNG', 'png')),
    make('p', {}, 'Or statements by their numbers, each with its answer and its storage:'), form,
    make('form', { method: 'dialog' }, make('button', {}, 'Close'))
  );
}

/** Asks whether to show all answers. */
export function askingDialog(act) {
  return make(
    'dialog', { 'aria-label': 'Show all answers?' }, make('h2', {}, 'Show all answers?'),
    make('p', {}, 'That shows the answers, remarks and comments of the whole script.'),
    make(
      'form', { method: 'dialog' }, make('button', {}, 'Keep them hidden'), ' ',
      make('button', { class: 'all', onclick: act }, 'Show all')
    )
  );
}
