// The output as text; in the teacher's mode a list of statements, each answer shown only on request.
import { make } from './elements.js';
import { withoutRemarks } from './remarks.js';
import { kindOf } from './replies.js';

const MOST_TEXT = 2 ** 20; // characters of the output that are shown
const AT_ONCE = 200; // statements of the list that are shown at once

/** The answers of an output, each followed by the lines of its map. */
function answersWithMaps(output) {
  const found = [];
  for (const line of output.split('\n')) {
    if (line.startsWith(' ')) found.at(-1).map.push(line);
    else if (line) found.push({ line: Number(line.slice(0, 7)), reply: line.slice(8), map: [] });
  }
  return found;
}

function frontOf(output) {
  if (output.length <= MOST_TEXT) return output;
  const front = output.slice(0, output.lastIndexOf('\n', MOST_TEXT) + 1);
  const more = (output.length - front.length).toLocaleString('en');
  return `${front}.. and ${more} characters more: Save output has all of them.\n`;
}

function itemOf({ line, reply, map }, lines) {
  const answer = make('div', { class: 'answer' });
  const ask = make('button', { type: 'button', 'aria-label': `Show the answer of line ${line}` }, 'Show the answer');
  ask.onclick = () => {
    const shown = make('code', { class: kindOf(reply), tabindex: -1 }, reply);
    answer.replaceChildren(shown, ...(map.length ? [make('pre', {}, map.join('\n'))] : []));
    shown.focus({ preventScroll: true });
  };
  answer.append(ask);
  return make('li', {}, make('span', { class: 'muted' }, String(line)),
    make('code', { class: 'statement' }, withoutRemarks([lines[line - 1] ?? ''])[0].trim()), answer);
}

/** The list of the statements, and a button for those not listed yet. */
function askedList(output, script) {
  const answers = answersWithMaps(output), lines = script.split('\n'), list = make('ol', { class: 'asked' });
  const more = make('button', { type: 'button', onclick: () => add() }, 'More statements');
  let shown = 0;
  function add() {
    list.append(...answers.slice(shown, shown + AT_ONCE).map(it => itemOf(it, lines)));
    shown = Math.min(shown + AT_ONCE, answers.length);
    more.hidden = shown === answers.length;
  }
  add();
  return [list, more];
}

/** Shows a run's output in an element. */
export function showOutput(container, { output, script }, isTeaching) {
  if (isTeaching && output) container.replaceChildren(...askedList(output, script));
  else container.replaceChildren(make('pre', { class: 'text', tabindex: 0, 'aria-label': 'Output' },
    frontOf(output) || 'No output.'));
}
