// The panel that explains the present statement, and what is wrong in a script, by the module of vsm-explain.
import { bytesOf, gunzipped } from './bench-keep.js';
import { runnerOf } from './bench-runner.js';
import { latin } from './bytes.js';
import { make, withLinks } from './elements.js';
import { findingsIn, shell } from './explain-questions.js';

const SETTLING = 50; // milliseconds from a step until its questions are asked, so that those passed by aren't
const MOST_SHOWN = 2 ** 20; // characters of an answer
const MOST_FAULTS = 200;
const PARTS = ['why', 'who', 'areas'];
const NOT_ASKED = 'No address is named here. You can ask about one, a register, a name or a subpool.';
export const NO_RUN = { script: '', words: [], name: '' };

/** A text of an answer, cut if it's too long to be shown. */
function shownText({ status, output, errors }) {
  const text = output + errors || `No answer: exit status ${status}.`;
  if (text.length <= MOST_SHOWN) return text;
  return `${text.slice(0, MOST_SHOWN)}\n.. and ${(text.length - MOST_SHOWN).toLocaleString('en')} characters more.\n`;
}

export class Explainer {
  /** `parts` are elements by name; `source` is the worker's text; `module` is the element that holds the module (JSON
      of a text: gzip'd, in base64), or nothing; `found` is called with what is wrong in the script, and `chosen` with
      a line that is clicked. */
  constructor(parts, source, module, found, chosen) {
    Object.assign(this, { parts, source, module, found, chosen, runner: null, ready: null, asking: null });
    this.isThere = module.textContent !== '';
    this.begin(NO_RUN);
    parts.panel.hidden = !this.isThere;
    parts.panel.addEventListener('toggle', () => this.askSoon());
    parts.form.addEventListener('submit', event => {
      event.preventDefault();
      this.askSoon();
    });
    parts.asked.addEventListener('change', () => this.askSoon());
  }

  /** Takes another run: its script, options and name. Nothing of the one before is shown any longer. */
  begin(run) {
    Object.assign(this, { run, place: null, hasRun: false, isChecked: false });
    this.stop();
    this.found([]);
    this.say('There’s no statement to explain.');
  }

  stop() {
    clearTimeout(this.asking);
    this.runner?.stop();
    Object.assign(this, { asking: null, key: '' });
  }

  /** Explains a statement: `line` is its first line and `end` its last one; or says why not. */
  show(place, why = '') {
    if (place && place.line === this.place?.line) return;
    this.place = place;
    if (!place) {
      this.stop();
      this.say(why);
    }
    this.askSoon();
  }

  /** Looks for what is wrong in the script, once it has run. */
  check() {
    this.hasRun = true;
    this.askSoon();
  }

  /** A sentence in place of the explanation. */
  say(text) {
    const { said, explained, of } = this.parts;
    said.textContent = text;
    said.hidden = !text;
    explained.hidden = Boolean(text);
    if (text) of.textContent = '';
    this.showBusy();
  }

  askSoon() {
    clearTimeout(this.asking);
    if (!this.isThere) return;
    this.asking = setTimeout(() => this.ask(), SETTLING);
    this.showBusy();
  }

  /** The questions that aren't answered yet, each with its arguments and the number of bytes of the script. */
  questions() {
    const { run: { script, words }, place, parts: { panel, asked } } = this, list = [];
    if (panel.open && place) {
      const own = asked.value.trim(), bytes = script.split('\n', place.end).join('\n').length + 1;
      list.push({ key: 'why', words: ['why', ...words, '-', String(place.line)] });
      list.push({ key: 'who', words: ['who', ...words, '-'], bytes, asked: own || undefined });
      list.push({ key: 'areas', words: ['report', '--areas', ...words, '-'], bytes });
    }
    if (!this.isChecked && this.hasRun && script)
      list.push({ key: 'check', words: ['check', '--leaks', '--json', ...words, '-'] });
    return list;
  }

  /** Asks what isn't answered yet; the first time this starts the module. */
  async ask() {
    const { asking } = this, questions = this.questions(), key = JSON.stringify(questions);
    let why = '';
    if (questions.length) {
      try {
        this.runner = await (this.ready ??= this.started());
      } catch (fault) {
        why = fault.message;
      }
    }
    if (asking !== this.asking) return; // something else is asked by now
    this.asking = null;
    if (why) return this.fail(why);
    if (questions.length && key !== this.key) {
      Object.assign(this, { key, askedAt: this.place });
      this.runner.run({ script: latin(this.run.script), questions });
    }
    this.showBusy();
  }

  async started() {
    const module = await gunzipped(bytesOf(JSON.parse(this.module.textContent)));
    return runnerOf(this.source, module, told => this.told(told));
  }

  showBusy() {
    this.parts.panel.setAttribute('aria-busy', String(this.asking !== null || Boolean(this.runner?.isRunning)));
  }

  told(message) {
    if (message.kind === 'fault') this.fail(message.why);
    else if (message.kind === 'end') this.showBusy();
    else if (message.key === 'check') this.showFindings(message);
    else this.showAnswer(message);
  }

  fail(why) {
    this.say(`The module of vsm-explain can’t be used: ${why}.`);
  }

  showFindings({ status, output }) {
    this.isChecked = true;
    this.found(status > 4 ? [] : findingsIn(output));
  }

  showAnswer(answer) {
    const { parts, askedAt: place, run: { name, words } } = this, { key, asked, status } = answer;
    const isAsked = key !== 'who' || asked !== '';
    if (key === 'why') this.say('');
    parts.of.textContent = `line ${place.line}`;
    parts[key].replaceChildren(...withLinks(isAsked ? shownText(answer) : NOT_ASKED, this.chosen));
    parts[key].classList.toggle('bad', status > 4);
    const front = shell(['head', '-n', String(place.end), name]), told = asked.split(/\s+/).filter(Boolean);
    if (key === 'who') parts.asked.placeholder = parts.asked.value.trim() ? parts.asked.placeholder : asked;
    const command = {
      why: () => shell(['vsm-explain', 'why', ...words, name, String(place.line)]),
      who: () => `${front} | ${shell(['vsm-explain', 'who', ...words, '-', ...told])}`,
      areas: () => `${front} | ${shell(['vsm-explain', 'report', '--areas', ...words, '-'])}`,
    };
    parts[`${key}-command`].textContent = isAsked ? command[key]() : '';
  }
}

/** The elements of the panel, by the names that Explainer has for them. */
export function partsOfPanel(byId) {
  const named = {
    panel: 'explain', of: 'explain-of', said: 'explain-said', explained: 'explained', form: 'who-form',
    asked: 'who-asked'
  };
  const parts = Object.fromEntries(Object.entries(named).map(([name, id]) => [name, byId(id)]));
  for (const it of PARTS) Object.assign(parts, { [it]: byId(it), [`${it}-command`]: byId(`${it}-command`) });
  return parts;
}

/** A list of faults in an element, each a button that leads to its place; it's drawn again only if it changes. */
export function faultsList(element, chosen) {
  let key = '';
  const itemOf = it => make('li', {}, make('button', {
    type: 'button', class: it.look, onclick: () => chosen(it)
  }, `line ${it.line}, column ${it.column}: ${it.text}`));
  return faults => {
    const shown = faults.slice(0, MOST_FAULTS), more = faults.length - shown.length;
    const fresh = JSON.stringify([shown, more]);
    if (fresh === key) return;
    key = fresh;
    element.hidden = !faults.length;
    element.replaceChildren(...shown.map(itemOf));
    if (more) element.append(make('li', { class: 'muted' }, `and ${more.toLocaleString('en')} more`));
  };
}
