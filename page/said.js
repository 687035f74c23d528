// The statement, its reply, and what that means; in the teacher's mode a question in place of a hidden answer.
import { inSlices } from './course.js';
import { count, make, withLinks } from './elements.js';
import { meaningOf } from './meanings.js';
import { kindOf } from './replies.js';
import { inColumns, shownLine } from './shown.js';
import { changedLine } from './summary.js';
import { endOfArea } from './taken.js';

/** A step in one line, for screen readers. */
export function spoken(view) {
  if (!view.step) return 'Before the first statement.';
  const statement = view.textOfStatement(view.step), { reply } = view.run.statement(view.step);
  const answer =
    view.step > view.told ? 'The answer is hidden.' : `${reply}. ${meaningOf(reply, statement).meaning}`;
  const found = view.foundAt(view.step).map(it => ` ${it}.`).join('');
  return `Statement ${view.step}. ${statement.split('\n')[0].trim()}. ${answer}${found}`;
}

const LONG = 80; // characters of an answer that has smaller letters
const BEFORE_MARK = 71; // columns of a line that are the statement's: column 72 only says that it's continued
const muted = text => make('p', { class: 'muted' }, text);

/** What an answer leaves, or what to do about it: folded until it's first opened. */
function moreOf(view, { head, text }) {
  const ontoggle = event => { view.isMoreOpen = event.target.open; };
  return make(
    'details', { class: 'muted', open: view.isMoreOpen, ontoggle }, make('summary', {}, head), make('p', {}, text)
  );
}

export function saidPart(view) {
  const element =
    make('section', { class: 'said', 'aria-label': 'The statement and its answer', tabindex: 0 });

  /** The lesson's own question, in the teacher's mode. */
  const asked = () => view.teaching && view.run.question ? [make('p', { class: 'question' }, view.run.question)] : [];

  function start() {
    const { steps } = view.run;
    const advice = steps ? 'Step on with the right arrow key.' : 'The script has no statement that is shown.';
    const number = make('strong', {}, count(steps, 'statement'));
    return [muted('Before the first statement'), number, ...asked(), muted(advice)];
  }
  function question() {
    const ahead = view.step > view.told + 1;
    const name = ahead ? 'Show the answers up to here' : 'Show the answer';
    const storage = ahead ? ', as far as answers have been asked for.' : '.';
    return [
      make('p', {}, make('button', { type: 'button', class: 'ask', onclick: view.ask }, name)),
      muted(`What does it answer? Enter shows it. The storage shown is the one before the statement${storage}`),
      ...asked()
    ];
  }
  const ends = new Map(); // of areas, by the steps that obtained them, as far as they are known
  let stop = () => {};
  /** When the area that a statement obtained was released: a link, once it's known. */
  function endOf(step) {
    const { granted } = view.moment, { run } = view, place = make('span', { class: 'end' });
    if (!granted || view.teaching || !/ L=/.test(run.statement(step).reply)) return place;
    if (!ends.has(step)) {
      stop = inSlices(endOfArea(run, step, granted), found => {
        ends.set(step, found);
        view.draw();
      });
      return place;
    }
    const end = ends.get(step);
    if (!end) place.textContent = ' Never released.';
    else {
      const { line, reply } = run.statement(end.step), isUndone = kindOf(reply) === 'step';
      const how = isUndone ? ' Undone by ' : end.isWhole ? ' Released by ' : ' Partly released by ';
      const link = { type: 'button', class: 'by', onclick: () => view.go(end.step) };
      place.append(how, make('button', link, `line ${line}`), '.');
    }
    return place;
  }
  function answer(text) {
    const { reply } = view.run.statement(view.step), { meaning, more } = meaningOf(reply, text);
    const line = changedLine(view);
    line?.append(endOf(view.step));
    const look = `${kindOf(reply)}${reply.length > LONG ? ' long' : ''}`;
    const found = view.foundAt(view.step).map(
      it => make('p', { class: 'finding' }, ...withLinks(it, chosen => view.toLine(chosen))));
    const told = [make('strong', { class: look }, reply), line, ...found, make('p', {}, meaning)];
    return [...told.filter(Boolean), ...more ? [moreOf(view, more)] : []];
  }
  /** If the map's history isn't what the replies add up to, the page doesn't know all of vsm's answers. */
  function warning() {
    const { kept, state } = view.moment;
    return kept === state.kept ? [] : [make(
      'p', { class: 'refused' },
        `This page counts ${count(kept, 'kept change')} and vsm ${count(state.kept, 'kept change')}: ` +
        'it doesn’t know all answers of this vsm, so what is undone, and which line obtained an area, may be wrong.'
    )];
  }
  function draw() {
    stop();
    const text = view.step ? view.textOfStatement(view.step) : '';
    const shown = text.split('\n').map(it => shownLine(it.slice(0, BEFORE_MARK).trimEnd())).join('\n');
    const parts = () => view.step > view.told ? question() : answer(text);
    if (!view.step) element.replaceChildren(...start());
    else element.replaceChildren(make('pre', {}, ...inColumns(shown)), ...parts());
    element.append(...warning());
  }
  return { element, draw, close: () => stop() };
}
