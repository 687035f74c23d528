// A run, statement by statement. Other pages need only showRun.
import { make } from './elements.js';
import { askingDialog, helpDialog, savingDialog } from './help.js';
import { keysOf } from './keys.js';
import { lensPart } from './lens.js';
import { PAGE, Run, Sentence } from './map.js';
import { momentOf } from './moment.js';
import { handoutOf, savePicture, stepsIn } from './picture.js';
import { poolsPart } from './pools.js';
import { legend, regionsPart } from './regions.js';
import { saidPart, spoken } from './said.js';
import { scriptPart } from './script.js';
import { namesPart, subpoolsPart, totalsPart } from './tables.js';
import { takenPart } from './taken.js';
import { registersPart, tasksPart } from './tasks.js';
import { withoutRemarks } from './remarks.js';
import { transportPart } from './transport.js';
import { kindOf } from './replies.js';

const PLAY = 700, NOTE = 300; // milliseconds: between two statements; until the address is changed
const LOWEST = 0x6000 / PAGE;
let made = 0;

/** What this browser lacks, as a sentence; or null. */
function lackOf() {
  const lacks = [
    typeof DecompressionStream === 'undefined' && 'DecompressionStream',
    !CSS.supports('color', 'light-dark(red, red)') && 'light-dark()'
  ].filter(Boolean);
  if (!lacks.length) return null;
  return `This page shows a run of vsm, but this browser lacks ${lacks.join(' and ')}: ` +
    'Chrome 123, Firefox 120 and Safari 17.5 have what it needs.';
}

/** A sentence in place of the run. */
function apologise(container, fault) {
  container.classList.add('run');
  container.replaceChildren(make(
    'p', { class: 'sentence', role: 'alert' },
    fault instanceof Sentence ? fault.message : `The run can’t be shown: ${fault}.`
  ));
}

/** The view of one run: its present step, and its parts. */
class View {
  constructor(container, run, options) {
    Object.assign(this, { container, run, options, id: `run-${++made}` });
    Object.assign(this, { step: 0, told: run.steps, asked: 0, teaching: false, chosen: null, picked: null });
    Object.assign(this, { clock: null, drawing: null, noting: null, isMoreOpen: false, hasLetters: true });
    this.findings = new Map();
    for (const act of ['play', 'ask', 'help']) this[act] = this[act].bind(this);
    this.dialog = helpDialog(this);
    this.asking = askingDialog(() => this.teach());
    this.saving = savingDialog({ save: kind => savePicture(this, kind), print: text => this.print(text) });
    this.live = make('div', { class: 'unseen', 'aria-live': 'polite' });
    this.regions = regionsPart(this);
    this.tasks = tasksPart(this);
    this.script = scriptPart(this);
    this.build();
    this.listen();
  }

  /** Puts the parts in place: the head, and below it the script, the storage, and the rest. */
  build() {
    const head = transportPart(this), said = saidPart(this), lens = lensPart(this);
    const tables = [registersPart, subpoolsPart, takenPart, poolsPart, namesPart, totalsPart].map(it => it(this));
    const side = [this.tasks, ...tables];
    const within = [said.element, legend(), this.regions.element, lens.element];
    const storage = make('div', { class: 'storage' }, ...within);
    const name = 'Tasks, registers, subpools, cell pools and names';
    const rest = make('div', { class: 'side', role: 'group', 'aria-label': name });
    rest.append(...side.map(it => it.element));
    const columns = make('div', { class: 'columns' }, this.script.element, storage, rest);
    const foot = this.run.program ? make('footer', { class: 'muted' }, this.run.program) : null;
    const stage = make('div', { class: 'stage' }, head.element, columns, foot);
    this.find = head.find;
    this.parts = [head, this.script, said, this.regions, lens, ...side];
    this.container.classList.add('run');
    this.container.replaceChildren(stage, this.live, this.dialog, this.asking, this.saving);
  }

  /** A step's statement as it's shown: without remarks while its answer is hidden. */
  textOfStatement(step) {
    if (step <= this.told) return this.run.textOfStatement(step);
    const [first, last] = this.run.linesOf(step);
    return withoutRemarks(this.run.lines.slice(first - 1, last)).map(it => it.trimEnd()).join('\n');
  }

  /** A line as it's shown: remarks and comments are hidden with the answers that they may reveal. */
  textOfLine(number) {
    const text = this.run.lines[number - 1];
    if (this.told === this.run.steps) return text;
    const step = this.run.stepAt(number);
    if (!step) return text[0] === '*' ? '*' : '';
    return step <= this.told ? text : this.textOfStatement(step).split('\n')[number - this.run.linesOf(step)[0]] ?? '';
  }

  /** Takes what check has found, each with its line. */
  take(findings) {
    this.findings = Map.groupBy(findings, it => this.run.stepAt(it.line));
    this.draw();
  }

  /** The texts of what was found at a step's statement; in the teacher's mode they'd tell what is still to come. */
  foundAt(step) {
    return this.teaching ? [] : (this.findings.get(step) ?? []).map(it => it.text);
  }

  listen() {
    this.ending = new AbortController();
    const { signal } = this.ending;
    document.addEventListener('keydown', keysOf(this), { signal });
    this.resizing = new ResizeObserver(() => this.moment && this.script.resize());
    this.resizing.observe(this.script.element);
    if (this.options.address) addEventListener('hashchange', () => this.followAddress(), { signal });
  }

  /** Ends it: keys and clock no longer act. The container is left as it is. */
  close() {
    this.ending.abort();
    this.resizing.disconnect();
    for (const it of this.parts) it.close?.();
    clearInterval(this.clock);
    clearTimeout(this.noting);
    cancelAnimationFrame(this.drawing);
  }

  /** To a statement; moves that are faster than frames are drawn once. */
  go(to) {
    this.step = Math.max(0, Math.min(this.run.steps, to));
    this.picked = null;
    this.drawing ??= requestAnimationFrame(() => this.draw());
  }

  /** To a statement, and a page there. */
  goTo(step, page) {
    this.go(step);
    cancelAnimationFrame(this.drawing);
    this.draw();
    this.choose(page);
  }

  draw() {
    this.drawing = null;
    try {
      this.drawParts();
    } catch (fault) {
      this.close();
      apologise(this.container, fault);
    }
  }

  drawParts() {
    this.told = this.teaching ? this.asked : this.run.steps;
    const shown = Math.min(this.step, this.told);
    const key = `${shown} ${shown < this.step}`;
    if (this.moment?.key !== key) {
      this.moment = { ...momentOf(this.run, shown, shown < this.step), key };
      this.turn();
    }
    this.task = this.moment.state.tasks.find(it => it.number === this.picked) ??
      this.moment.state.tasks.find(it => it.current);
    for (const part of this.parts) part.draw();
    for (const part of this.parts) part.drawn?.(); // what needs the layout, which is then made once
    const text = spoken(this);
    if (this.live.textContent !== text) this.live.textContent = text;
    this.options.moved?.(this);
    this.note();
  }

  /** Chooses the enlarged page: where something was granted; else it stays, unless only others have changed or it's no
      longer assigned. */
  turn() {
    const { granted, pages, changed } = this.moment;
    if (granted) this.chosen = Math.floor(granted.from / PAGE);
    else if (!pages.has(this.chosen) || !changed.has(this.chosen)) {
      this.chosen = changed.first ?? (pages.has(this.chosen) ? this.chosen : pages.lowest ?? LOWEST);
    }
  }

  choose(page) {
    this.chosen = page;
    this.draw();
    this.regions.focus();
  }

  pick(task) {
    this.picked = task;
    this.draw();
    this.tasks.focus(task);
  }

  /** To a line of the script, and to its statement if it has one. */
  toLine(line) {
    const step = this.run.stepAt(line);
    if (step > 0) this.go(step);
    this.script.reveal(line);
    this.options.revealed?.(line);
  }

  /** Leads to a place of the page by its name: a register of a task, a name, a subpool, a cell pool, a task. */
  show(name, task) {
    if (task !== undefined && task !== this.task.number) {
      this.picked = task;
      this.draw();
    }
    const place = this.container.querySelector(`[data-at="${CSS.escape(name)}"]`);
    if (!place) return;
    place.tabIndex = -1;
    place.scrollIntoView({ block: 'nearest' });
    place.focus({ preventScroll: true });
  }

  get playing() {
    return this.clock !== null;
  }

  /** Plays to the end, or stops. */
  play() {
    clearInterval(this.clock);
    this.clock = this.playing
      ? null
      : setInterval(() => this.step < this.run.steps ? this.go(this.step + 1) : this.play(), PLAY);
    this.draw();
  }

  /** Prints statements with their storage, as far as answers are shown. */
  print(text) {
    const asked = stepsIn(text, this.told), steps = asked.length ? asked : [Math.min(this.step, this.told)];
    const handout = handoutOf(this, steps, step => momentOf(this.run, step));
    document.querySelector('.handout')?.remove();
    this.container.append(handout);
    this.container.classList.add('handing');
    addEventListener('afterprint', () => {
      handout.remove();
      this.container.classList.remove('handing');
    }, { once: true });
    window.print();
  }

  help() {
    this.dialog.showModal();
  }

  /** Teacher's mode on or off; switched on, it hides the answers after the present statement. */
  teach(asked = this.step) {
    this.teaching = !this.teaching;
    this.asked = asked;
    this.draw();
  }

  /** The key T: it asks before it shows all answers. */
  turnTeaching() {
    if (this.teaching && this.told < this.run.steps) this.asking.showModal();
    else this.teach();
  }

  /** Shows the answers up to the present statement. */
  ask() {
    if (!this.teaching || this.step <= this.asked) return false;
    this.asked = this.step;
    this.draw();
    this.script.element.focus({ preventScroll: true });
    return true;
  }

  /** To the next statement, back or on, that was refused or got return code 4; hidden answers aren't looked at. */
  seek(by) {
    for (let step = this.step + by; step > 0 && step <= this.told; step += by) {
      if (['refused', 'four'].includes(kindOf(this.run.statement(step).reply))) return this.go(step);
    }
  }

  /** `#12` in the address is statement 12; `#teacher` is the teacher's mode, from the first one. */
  followAddress() {
    if (location.hash === '#teacher') {
      this.step = 0;
      this.teaching = false;
      this.teach(0);
    } else this.go(parseInt(location.hash.slice(1), 10) || 0);
  }

  note() {
    clearTimeout(this.noting);
    if (this.options.address && !this.teaching)
      this.noting = setTimeout(() => history.replaceState(null, '', `#${this.step}`), NOTE);
  }
}

/** Shows a run in an element, replacing its contents, and returns the view, whose close() ends it; null if a sentence
    is shown instead. `data` has `name`, `options` (arguments), `script` (text), `skipped` (the number of answers before
    the first map), perhaps `question` (the lesson's), `bytes` (see Run), `findings` (of check, each a `line` and a
    `text`) and `program` (its identity), and what vsm printed for the script with inserted maps: `text`, or `output`,
    gzip'd and in base64. Options: `address` keeps the statement in the page's address; `teacher` begins in the
    teacher's mode; `moved` is called with the view whenever it's drawn, and `revealed` with a line that was looked up.
    */
export async function showRun(container, data, options = {}) {
  try {
    const lack = lackOf();
    if (lack) throw new Sentence(lack);
    const view = new View(container, await Run.of(data), options);
    if (options.teacher) view.teach(0);
    else if (options.address) view.followAddress();
    view.take(data.findings ?? []);
    return view;
  } catch (fault) {
    apologise(container, fault);
    return null;
  }
}
