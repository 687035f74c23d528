// The bench in a browser: an editor, the program in a worker, and what a run shows.
import { showOutput } from './bench-answers.js';
import { editorOf } from './bench-editor.js';
import { Explainer, faultsList, NO_RUN, partsOfPanel } from './bench-explain.js';
import { base64Of, bytesOf, gunzipped, gzipped, linkOf, MOST_LINK, NAMES, readLink } from './bench-keep.js';
import { faultOfOption } from './bench-options.js';
import { editedAt, MOST_OWN, OwnScripts } from './bench-own.js';
import { ownList } from './bench-own-list.js';
import { runnerOf } from './bench-runner.js';
import { editorText, faultOfScript, optionsIn } from './bench-script.js';
import { latin, latinText } from './bytes.js';
import { make } from './elements.js';
import { FOUND } from './explain-questions.js';
import { kindOf } from './replies.js';
import { showRun } from './view.js';

const SAVING = 300; // milliseconds from an edit until it's kept
const OWN = 'script.vsm';
const byId = id => document.getElementById(id);
const megabytes = bytes => `${(bytes / 1e6).toFixed(1)} MB`;
const inSeconds = milliseconds =>
  milliseconds < 1000 ? `${Math.round(milliseconds)} ms` : `${(milliseconds / 1000).toFixed(1)} s`;

/** What this browser lacks, as a sentence; or null. */
function lackOfBrowser() {
  const lacks = [
    typeof WebAssembly === 'undefined' && 'WebAssembly', typeof Worker === 'undefined' && 'workers',
    typeof DecompressionStream === 'undefined' && 'DecompressionStream',
    typeof CompressionStream === 'undefined' && 'CompressionStream',
    !CSS.supports('color', 'light-dark(red, red)') && 'light-dark()'
  ].filter(Boolean);
  if (!lacks.length) return null;
  return `This page is a bench for z/OS virtual storage, but this browser lacks ${lacks.join(' and ')}: ` +
    'Chrome 123, Firefox 120 and Safari 17.5 have what it needs.';
}

class Bench {
  constructor(data, wasm) {
    this.data = data;
    this.wasm = wasm;
    this.examples = new Map(data.examples.map(it => [it.name, it]));
    this.name = OWN;
    this.result = { output: '', script: '', words: [], mapped: null };
    this.view = null;
    this.turned = false; // whether the output is shown because there was no picture
    this.own = new OwnScripts(() => localStorage);
    this.isOwn = false; // a lesson or a link's script becomes one's own when it's edited
    this.isUnkept = false;
    this.place = Infinity; // the statement that the next picture shows
    this.ending = ''; // the status line of a run that has ended
    this.runner = runnerOf(data.worker, wasm, told => this.told(told));
    const parts = {
      area: byId('script'), numbers: byId('numbers'), replies: byId('replies'), now: byId('now'), caret: byId('caret'),
      marks: byId('marks')
    };
    this.editor = editorOf(parts, () => this.edited(), line => this.goToLine(line), text => this.refusePaste(text));
    Object.assign(this, { faults: [], findings: [] });
    this.listFaults = faultsList(byId('faults'), it => this.editor.select(it));
    this.explainer = new Explainer(
      partsOfPanel(byId), data.explainer, byId('explain-module'), it => this.found(it),
      line => this.goToLine(line)
    );
    byId('identity').textContent = data.identity.line;
    this.listen();
  }

  listen() {
    const clicks = {
      open: () => byId('file').click(), 'save-script': () => this.saveScript(), 'save-output': () => this.saveOutput(),
      'save-page': () => this.savePage(), copy: () => this.copyLink(), teacher: () => this.teach(!this.isTeaching),
      help: () => this.help(), stop: () => this.stop(), fold: () => this.fold(true), unfold: () => this.fold(false),
      own: () => this.manage(), room: () => this.makeRoom()
    };
    for (const [id, act] of Object.entries(clicks)) byId(id).addEventListener('click', act);
    byId('form').addEventListener('submit', event => {
      event.preventDefault();
      this.run();
    });
    byId('examples').addEventListener('change', () => this.choose(byId('examples').value));
    byId('file').addEventListener('change', () => this.openFile());
    for (const it of NAMES) byId(it).addEventListener('input', () => this.edited());
    for (const it of ['picture', 'output']) byId(`tab-${it}`).addEventListener('click', () => this.showTab(it));
    document.querySelector('[role=tablist]').addEventListener('keydown', event => this.moveTab(event));
    addEventListener('keydown', event => {
      if (event.key !== 'Enter' || !(event.ctrlKey || event.metaKey)) return;
      event.preventDefault();
      this.run();
    });
    addEventListener('hashchange', () => this.followLink());
    addEventListener('storage', () => {
      this.listScripts();
      if (this.isOwn) this.keepSoon();
    });
  }

  /** Begins with the link's script, or else with the newest script of one's own, or else with the first lesson. */
  async begin() {
    if (await this.followLink()) return;
    const [own] = this.own.all();
    if (own) this.load(own, own.id);
    else this.choose(this.examples.has('first-steps.vsm') ? 'first-steps.vsm' : [...this.examples.keys()][0]);
  }

  get options() {
    return Object.fromEntries(NAMES.map(it => [it, byId(it).value.trim()]));
  }

  get words() {
    return Object.entries(this.options).filter(([, value]) => value).flatMap(([name, value]) => [`--${name}`, value]);
  }

  get isTeaching() {
    return byId('teacher').getAttribute('aria-checked') === 'true';
  }

  get state() {
    const { view, place } = this, step = !view ? place : view.step === view.run.steps ? Infinity : view.step;
    return { script: this.editor.text, options: this.options, name: this.name, teacher: this.isTeaching, step };
  }

  /** Loads a script with its options, and runs it. A script that is kept nowhere isn't replaced without a question. */
  load({ script, options, name, teacher, step = Infinity }, id = null) {
    if (this.isLost() && !confirm('The script in the editor isn’t saved. Replace it?'))
      return this.listScripts();
    const isLesson = id === null && this.examples.get(name)?.script === script;
    this.own.open(id);
    this.isOwn = id !== null;
    this.name = isLesson ? name : this.ownName(name);
    this.chosen = isLesson ? name : '';
    this.isUnkept = false;
    this.setOptions(options);
    if (teacher !== undefined) this.setTeaching(teacher);
    this.editor.text = script;
    this.view?.close();
    this.view = null;
    this.place = step;
    this.listScripts();
    this.run(true);
  }

  /** A script's name, which is no lesson's: the file of a lesson is another one. */
  ownName(name) {
    return this.examples.has(name) ? `my-${name}` : name || OWN;
  }

  /** Sets the options; a residence that doesn't exist gets an entry, so that it's seen and refused. */
  setOptions(options) {
    const residence = options.residence === '24' ? '' : options.residence ?? '', list = byId('residence');
    for (const it of [...list.options].slice(2)) it.remove();
    const isOther = ![...list.options].some(it => it.value === residence);
    if (isOther) list.append(new Option(residence.slice(0, 8), residence));
    for (const it of NAMES) byId(it).value = it === 'residence' ? residence : options[it] ?? '';
  }

  /** Whether an edit would be lost because it can be kept nowhere. */
  isLost() {
    return this.isUnkept && !this.own.write(this.state).isKept;
  }

  choose(value) {
    const own = this.own.all().find(it => `own ${it.id}` === value);
    if (own) this.load(own, own.id);
    else if (this.examples.has(value)) this.load(this.examples.get(value));
  }

  /** Lists one's own scripts and the lessons, and chooses the one that the editor has. */
  listScripts() {
    const front = text => text.trim().split('\n')[0].slice(0, 40);
    const label = it => `${it.name}, edited ${editedAt(it.at)}: ${front(it.script)}`;
    const own = this.own.all().map(it => new Option(label(it), `own ${it.id}`));
    const titled = it => it.title ? `${it.name}: ${it.title}` : it.name;
    const lessons = [...this.examples.values()].map(it => new Option(titled(it), it.name));
    const groups = [['Your own', own], ['Lessons', lessons]].filter(it => it[1].length);
    const now = new Option(this.isOwn ? `${this.name} (your own)` : this.name, '');
    byId('examples').replaceChildren(now, ...groups.map(([label, inner]) => make('optgroup', { label }, ...inner)));
    byId('examples').value = this.chosen;
  }

  /** One's own scripts in a list, where they can be named, opened, saved and deleted. */
  manage() {
    const had = this.own.id;
    this.note('Your own scripts', ownList(this.own, {
      open: own => {
        byId('note').close();
        this.load(own, own.id);
      },
      save: own => this.save(own.name, '.vsm', latin(own.script), 'application/octet-stream'),
      changed: (id, name) => {
        if (name !== undefined && id === this.own.id) this.name = name;
        if (had !== null) this.isOwn = this.own.id !== null;
        this.listScripts();
        this.keepSoon();
      },
    }));
  }

  /** Deletes the oldest of one's own scripts, so that the one in the editor can be kept. */
  makeRoom() {
    this.own.remove(this.own.all().at(-1).id);
    this.isOwn = true;
    this.keepNow();
  }

  /** An edit makes a script one's own. */
  edited() {
    if (!this.isOwn) {
      this.isOwn = true;
      this.name = this.ownName(this.name);
      this.chosen = '';
      this.listScripts();
    }
    this.isUnkept = true;
    this.showWrong();
    this.markOld();
    this.keepSoon();
  }

  keepSoon() {
    clearTimeout(this.keeping);
    this.keeping = setTimeout(() => this.keepNow(), SAVING);
  }

  /** Keeps a script of one's own in the browser, and any script in the address if it's short enough. The browser's Back
      leads to the script before a newly loaded one. */
  async keepNow(isNew = false) {
    clearTimeout(this.keeping);
    const { state } = this, told = this.isOwn ? this.own.write(state) : {};
    this.kept = state;
    const link = faultOfScript(state.script) ? null : await linkOf(state);
    const fits = link !== null && link.length <= MOST_LINK, address = fits ? link : '#';
    // Another edit may have been made while this one was packed.
    if (this.kept !== state) return { link, fits };
    // The address of a script that is too long for it has at least its entry and its place.
    const held = { own: this.own.id, step: state.step };
    if (isNew && location.hash.length > 1 && location.hash !== address) history.pushState(held, '', address);
    else history.replaceState(held, '', address);
    this.isUnkept = this.isOwn && !told.isKept && !fits;
    window.onbeforeunload = this.isUnkept ? event => event.preventDefault() : null;
    this.sayKept(told, fits, link !== null);
    return { link, fits };
  }

  /** Says where this window's script is kept. */
  sayKept({ isKept, isFull, isOther }, fits, isScript) {
    const where = [isKept && 'in this browser', fits && 'in the address'].filter(Boolean).join(' and ');
    const more = [
      isKept && isOther && 'Another window has edited the one that was here: it’s another entry.',
      isFull && `This browser keeps ${MOST_OWN} scripts of yours.`,
      !fits && isScript && 'The script is too long for the address.'
    ];
    byId('kept').textContent = [`${where ? `Kept ${where}` : 'Not kept'}.`, ...more.filter(Boolean)].join(' ');
    byId('kept').classList.toggle('bad', this.isUnkept);
    byId('room').hidden = !isFull;
    if (isFull) byId('room').textContent = `Delete the oldest, ${this.own.all().at(-1).name}`;
  }

  /** What is wrong with the options, a sentence for each. */
  showWrong() {
    const found = NAMES.map(it => [it, faultOfOption(it, byId(it).value.trim())]);
    for (const [name, why] of found) byId(name).setAttribute('aria-invalid', String(why !== null));
    const text = found.map(it => it[1]).filter(Boolean).join(' ');
    byId('wrong').textContent = text;
    return text;
  }

  /** Marks the run as old if its script or options aren't those of the editor. */
  markOld() {
    const { script, words } = this.result;
    const isOld = script !== this.editor.text || words.join() !== this.words.join();
    byId('result').classList.toggle('old', isOld);
    if (!this.runner.isRunning) this.say(isOld ? 'Edited since this run: Run shows it anew' : this.ending);
    this.showBeside();
  }

  /** To the statement that a line belongs to; another line is only shown. */
  goToLine(line) {
    const step = this.view?.run.stepAt(line);
    if (step > 0) this.view.go(step);
    else this.editor.reveal(line);
  }

  /** The number of the script's lines that are as they were run: all, or those before the first that differs. */
  sameLines(text) {
    const ran = this.result.script.replace(/\n$/, ''), most = Math.min(text.length, ran.length);
    if (text.startsWith(ran) && (text.length === most || text[most] === '\n')) return Infinity;
    let at = 0;
    for (let step = 2 ** 16; step; step = Math.floor(step / 2))
      while (at + step <= most && text.slice(at, at + step) === ran.slice(at, at + step)) at += step;
    return text.slice(0, at).split('\n').length - 1;
  }

  /** Shows replies, faults and the present statement next to the editor's lines, as far as these are those of the
      run. A reply is looked up when its line is in sight. */
  showBeside() {
    const { view } = this, { run } = view ?? {}, same = this.sameLines(this.editor.text);
    const faults = this.isTeaching ? [] : this.faults.filter(it => it.line <= same);
    this.listFaults(faults);
    const replyAt = line => {
      const step = run?.atLine.get(line);
      if (!(step > 0 && step <= view.told && run.linesOf(step)[1] <= same)) return undefined;
      const { reply } = run.statement(step);
      return { reply, kind: kindOf(reply) };
    };
    const now = view?.step ? run.linesOf(view.step) : [0, 0];
    this.editor.show(replyAt, now[1] <= same ? now : [0, 0], faults);
  }

  /** Refuses a text that would make the script too long, before the editor holds it. */
  refusePaste(text) {
    const fault = faultOfScript(text);
    if (fault) this.note('This text can’t be put in', make('p', {}, `With it ${fault}.`));
    return fault !== null;
  }

  /** The view calls this at each step; its own key T also switches the teacher's mode. */
  moved(view) {
    if (view !== this.view) return;
    if (view.teaching !== this.isTeaching) this.setTeaching(view.teaching);
    this.showBeside();
    this.explain();
    this.keepSoon();
  }

  /** Has the panel explain the present statement, or say why not. */
  explain() {
    const { step, told, run } = this.view;
    if (!step) this.explainer.show(null, 'No statement is shown yet.');
    else if (step > told) this.explainer.show(null, 'The answer is hidden until you ask for it.');
    else {
      const [line, end] = run.linesOf(step);
      this.explainer.show({ line, end });
    }
  }

  /** Takes what check has found: what is left stands only at its statements, since it may be much. */
  found(all) {
    this.faults = all.filter(it => it.word !== 'LEFT');
    this.findings = all.filter(it => FOUND.includes(it.word)).map(({ line, text }) => ({ line, text }));
    this.view?.take(this.findings);
    this.showBeside();
  }

  /** Loads the script in the address; whether it has one. */
  async followLink() {
    try {
      const held = history.state ?? {}, found = await readLink(location.hash);
      if (!found) return this.followEntry(held);
      const { text, fault } = editorText(found.script);
      if (!fault) this.load({ ...found, script: text }, this.entryOf({ ...found, script: text }, held.own));
      else this.note('This link can’t be followed', make('p', {}, `${found.name || OWN}, ${fault}.`));
      return !fault;
    } catch {
      this.note('This link can’t be read', make('p', {}, 'The address holds something that isn’t a script of ' +
        'this bench, or is too long, perhaps since it was cut short. What this browser has kept is shown ' +
        'instead.'));
      return false;
    }
  }

  /** The id of the entry that has a link's script: the one that the address has had, or another one; null if none has
      it, or if it's a lesson. */
  entryOf(found, id = null) {
    const own = id !== null && this.own.get(id), isSame = own && own.script === found.script;
    if (isSame) return id;
    return this.examples.get(found.name)?.script === found.script ? null : this.own.equal(found)?.id ?? null;
  }

  /** Loads the entry of an address that holds no script; whether there is one. */
  followEntry({ own: id, step }) {
    const own = typeof id === 'string' ? this.own.get(id) : null;
    if (own) this.load({ ...own, step: step ?? Infinity }, id);
    return own !== null;
  }

  run(isNew = false) {
    const script = this.editor.text, fault = faultOfScript(script), wrong = this.showWrong();
    this.runner.stop();
    if (this.view) this.place = this.view.step === this.view.run.steps ? Infinity : this.view.step;
    this.view?.close();
    this.view = null;
    this.fail('');
    this.keepNow(isNew);
    this.result = { script, words: this.words, name: this.name, output: '', mapped: null };
    byId('result').classList.remove('old');
    this.explainer.begin(NO_RUN);
    if (fault || wrong) return this.refuse(fault ? `${this.name}, ${fault}.` : wrong);
    this.result.question = this.examples.get(this.chosen)?.question ?? '';
    this.began = performance.now();
    this.isCleared = false;
    this.busy(true);
    this.say('Running');
    this.explainer.begin(this.result);
    this.runner.run({ words: this.words, script: latin(script) });
  }

  stop() {
    if (!this.runner.isRunning) return;
    this.runner.stop();
    this.busy(false);
    this.say(`Stopped after ${inSeconds(performance.now() - this.began)}`, true);
    if (!this.result.mapped) this.withoutPicture('The run was stopped, so there’s no picture.');
  }

  /** Handles a message of the worker. */
  told(message) {
    const acts = {
      progress: () => this.progress(message),
      ran: () => this.ran(message),
      picture: () => this.pictured(message),
      end: () => this.ended(),
      fault: () => this.refuse(`The run didn’t end: ${message.why}.`),
    };
    acts[message.kind]();
  }

  progress({ part, share, bytes }) {
    byId('progress').value = share;
    // What is shown of the run before could be mistaken for this one's.
    if (!this.isCleared) {
      this.isCleared = true;
      this.withoutPicture('The run is under way.');
      if (part === 'script') this.showOutput();
    }
    const what = part === 'script' ? 'Running' : 'Making the picture';
    byId('far').textContent = `${what}: ${Math.floor(share * 100)}%, ${megabytes(bytes)} printed`;
  }

  ran({ status, output, errors, count }) {
    Object.assign(this.result, { status, count, output: latinText(output) });
    this.showOutput();
    this.fail(errors);
    if (status !== 0 && status !== 4) {
      this.withoutPicture(`The program ended with exit status ${status}, so there’s no picture.`);
      this.turned ||= byId('output').hidden;
      this.showTab('output');
    } else if (this.turned) {
      this.turned = false;
      this.showTab('picture');
    }
  }

  async pictured({ output, bytes, why }) {
    if (why) return this.withoutPicture(`There’s no picture of this run: ${why}.`);
    Object.assign(this.result, { mapped: output, bytes });
    const { result } = this, data = { ...this.dataOf(result), text: latinText(output) };
    const view = await showRun(byId('picture'), data, { teacher: this.isTeaching, moved: it => this.moved(it),
      revealed: line => this.editor.reveal(line) });
    if (this.result !== result) return view?.close();
    this.view = view;
    view?.take(this.findings);
    if (!this.isTeaching) view?.go(this.place);
    this.showBeside();
  }

  /** The data of a run's page, except what the program printed. */
  dataOf({ name, words, script, bytes, question }) {
    return { name, options: words, script: script.replace(/\n$/, ''), skipped: 0, bytes, question };
  }

  ended() {
    this.busy(false);
    const { status, count } = this.result;
    const statements = `${count.toLocaleString('en')} ${count === 1 ? 'statement' : 'statements'}`;
    const took = inSeconds(performance.now() - this.began);
    this.endings = [`Exit status ${status} · ${statements} · ${took}`, `${statements} · ${took}`];
    this.sayEnding();
    if (status > 4) byId('status').classList.add('bad');
    this.markOld();
    this.explainer.check();
  }

  /** Says why there was no run, or why it didn't end. */
  refuse(why) {
    this.busy(false);
    this.fail(why);
    this.say('No run', true);
    this.withoutPicture('There’s no run to be shown.');
    this.ending = 'No run';
    this.showBeside();
  }

  withoutPicture(why) {
    byId('picture').replaceChildren(make('p', { class: 'sentence' }, why));
    byId('picture').classList.add('run');
  }

  busy(isBusy) {
    byId('result').setAttribute('aria-busy', String(isBusy));
    byId('stop').disabled = !isBusy;
    byId('progress').hidden = !isBusy;
    byId('progress').value = 0;
    byId('far').textContent = '';
  }

  say(text, isBad = false) {
    byId('status').textContent = text;
    byId('status').classList.toggle('bad', isBad);
  }

  fail(text) {
    byId('errors').hidden = !text;
    byId('errors').textContent = text;
  }

  showOutput() {
    showOutput(byId('output'), this.result, this.isTeaching);
  }

  /** In the teacher's mode the status shows no answer, and the editor, which has the comments, is hidden. */
  setTeaching(isOn) {
    if (isOn !== this.isTeaching) this.fold(isOn, false);
    byId('teacher').setAttribute('aria-checked', String(isOn));
    this.showOutput();
    this.showBeside();
    this.sayEnding();
    this.keepSoon();
  }

  sayEnding() {
    if (!this.endings || this.runner.isRunning) return;
    this.ending = this.endings[this.isTeaching ? 1 : 0];
    this.say(this.ending);
  }

  teach(isOn) {
    this.setTeaching(isOn);
    if (this.view && this.view.teaching !== isOn) {
      this.view.teach(0);
      if (isOn) this.view.go(0);
    }
  }

  showTab(shown) {
    for (const it of ['picture', 'output']) {
      byId(it).hidden = it !== shown;
      byId(`tab-${it}`).setAttribute('aria-selected', String(it === shown));
      byId(`tab-${it}`).tabIndex = it === shown ? 0 : -1;
    }
  }

  moveTab(event) {
    if (event.key !== 'ArrowLeft' && event.key !== 'ArrowRight') return;
    const other = byId('picture').hidden ? 'picture' : 'output';
    this.showTab(other);
    byId(`tab-${other}`).focus();
    event.preventDefault();
    event.stopPropagation();
  }

  fold(isFolded, isAsked = true) {
    byId('bench').classList.toggle('folded', isFolded);
    byId('unfold').hidden = !isFolded;
    if (isAsked) byId(isFolded ? 'unfold' : 'fold').focus();
  }

  note(title, ...inner) {
    byId('note-title').textContent = title;
    byId('note-text').replaceChildren(...inner.filter(Boolean));
    byId('note').showModal();
  }

  help() {
    const { identity: { commit, kit, program, module, bytes }, explained } = this.data;
    const asked = make('pre', { tabindex: 0, 'aria-label': 'The program’s own help' });
    const rows = {
      Commit: commit, Kit: kit, 'Program (SHA-256)': program, 'Module (SHA-256)': module,
      'Module, bytes': bytes.toLocaleString('en')
    };
    const first = make(
      'p', {}, 'Ctrl+Enter runs the script. A statement begins after a blank, and a character in the tinted column, ' +
        'the 72nd, continues it on the next line. Each character is one byte. In the picture ', make('kbd', {}, '?'),
      ' lists the keys.'
    );
    this.note(
      'The bench', first,
      make('p', {}, 'Nothing is loaded, and nothing is sent: the page has no access to the network. Script and ' +
        'options are kept in this browser and in the address.'),
      make('h3', {}, 'What runs here'),
      make('p', {}, 'The functions of this page’s program are those of vsm that were proved at this commit with this ' +
        'kit. To run in a browser they were compiled to WebAssembly; that step, and the browser, are trusted.'),
      make('dl', {}, ...Object.entries(rows).flatMap(([name, value]) => [make('dt', {}, name), make('dd', {}, value)])),
      explained && make('p', {}, explained.line),
      make('h3', {}, 'The program’s own help'), asked
    );
    const runner = runnerOf(this.data.worker, this.wasm, ({ kind, output, why }) => {
      if (kind === 'progress') return;
      runner.stop();
      asked.textContent = kind === 'ran' ? latinText(output) : why;
    });
    runner.run({ words: ['--help'], script: latin('') });
  }

  async copyLink() {
    const { link, fits } = await this.keepNow();
    if (!fits) {
      const [has, most] = [link?.length ?? 0, MOST_LINK].map(it => it.toLocaleString('en'));
      const length = link ? `It would have ${has} characters, and a link has ${most} at most. ` : '';
      return this.note('The script is too long for a link',
        make('p', {}, `${length}Save the script as a file instead.`));
    }
    try {
      await navigator.clipboard.writeText(location.href);
      this.say('The link is copied');
    } catch {
      const field = make('input', { readonly: '', 'aria-label': 'Link' });
      field.value = location.href;
      this.note('A link with the script and its options', field);
      field.select();
    }
  }

  async openFile() {
    const [file] = byId('file').files;
    byId('file').value = '';
    if (!file) return;
    try {
      const { text, fault } = editorText(latinText(new Uint8Array(await file.arrayBuffer())));
      if (fault) this.note('This file can’t be opened', make('p', {}, `${file.name}, ${fault}.`));
      else this.load({ script: text, options: { ...this.options, ...optionsIn(text) }, name: file.name });
    } catch (fault) {
      this.note('This file can’t be opened', make('p', {}, `${file.name}: ${fault.message}`));
    }
  }

  save(name, ending, content, type) {
    const url = URL.createObjectURL(new Blob([content], { type }));
    make('a', { href: url, download: name.replace(/\.vsm$/, '') + ending }).click();
    setTimeout(() => URL.revokeObjectURL(url), 60_000);
  }

  saveScript() {
    const fault = faultOfScript(this.editor.text);
    if (fault) this.note('This script can’t be saved', make('p', {}, `${this.name}, ${fault}.`));
    else this.save(this.name, '.vsm', latin(this.editor.text), 'application/octet-stream');
  }

  saveOutput() {
    this.save(this.name, '.out', latin(this.result.output), 'application/octet-stream');
  }

  /** Saves the page that vsm-view would make of this run. */
  async savePage() {
    const { mapped, name } = this.result;
    if (!mapped) return this.note('There’s no picture to save', make('p', {}, 'Run the script first.'));
    const output = base64Of(await gzipped(mapped));
    const { findings, data: { identity } } = this;
    const told = { ...this.dataOf(this.result), findings, output, program: identity.line };
    const title = make('title', {}, `${name} · vsm`).outerHTML;
    const data = `id="data">${JSON.stringify(told).replaceAll('<', '\\u003c')}`;
    const page = this.data.page.replace('<title></title>', () => title).replace('id="data">', () => data);
    this.save(this.name, '.html', page, 'text/html');
  }
}

async function startBench() {
  const place = byId('bench');
  try {
    const lack = lackOfBrowser();
    if (lack) throw new Error(lack);
    const data = JSON.parse(byId('data').textContent), wasm = await gunzipped(bytesOf(data.wasm));
    place.replaceChildren(byId('parts').content.cloneNode(true));
    await new Bench(data, wasm).begin();
  } catch (fault) {
    place.replaceChildren(make('p', { class: 'sentence', role: 'alert' }, fault.message || 'This page can’t start.'));
  }
}

startBench();
