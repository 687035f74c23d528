// What vsm printed for a script with inserted maps, and the states that these maps show.
import { latin } from './bytes.js';

export const PAGE = 4096;
const COLOURS = 8;

/** Why something can't be shown, as a sentence for the page. */
export class Sentence extends Error {}

/** The text in the data: plain (`text`), or compressed by gzip and in base64 (`output`). */
async function textOf(data) {
  if (typeof data?.script !== 'string') throw new Sentence('This page is damaged: it has no data of a run.');
  if (typeof data.text === 'string') return data.text;
  try {
    const stream = new Blob([latin(atob(data.output))]).stream().pipeThrough(new DecompressionStream('gzip'));
    return new TextDecoder('latin1').decode(await new Response(stream).arrayBuffer());
  } catch {
    throw new Sentence('This page is damaged: what vsm printed can’t be unpacked.');
  }
}

/** The places where answers begin (a map's lines begin with a blank, and belong to the answer before them), and what
    occurs in any map: the numbers of subpools, and the assigned pages, in runs; and of each answer with a map the bytes
    taken, and those of the pages below and above the 16 MB line. It's one pass over the text. */
function survey(text) {
  const answers = [], numbers = new Set(), extents = new Set(), totals = [];
  for (let at = 0; at < text.length; at = text.indexOf('\n', at) + 1 || text.length) {
    if (text.charCodeAt(at) !== 32) answers.push(at);
    else if (text.startsWith('SU', at + 1)) numbers.add(text.slice(at + 9, text.indexOf(' ', at + 9)));
    else if (text.startsWith(' E', at + 1)) extents.add(text.slice(at + 9, at + 26));
    else if (text.startsWith('PA', at + 1)) {
      const numberAfter = word => parseInt(text.slice(text.indexOf(word, at) + word.length, at + 120), 10);
      totals[answers.length - 1] =
        { taken: numberAfter('TAKEN '), low: numberAfter('LOW ') * PAGE, high: numberAfter('HIGH ') * PAGE };
    }
  }
  const areas = [...extents].map(it => it.split(' ').map(word => parseInt(word, 16)));
  return { answers, numbers: [...numbers].map(Number).sort((a, b) => a - b), runs: runsOf(areas), totals };
}

/** Areas as ascending runs of pages, from and to; each page is in exactly one. */
export function runsOf(areas) {
  const runs = [];
  for (const [first, length] of areas.toSorted((a, b) => a[0] - b[0])) {
    const from = Math.floor(first / PAGE), to = Math.ceil((first + length) / PAGE), last = runs.at(-1);
    if (last && from <= last[1]) last[1] = Math.max(last[1], to);
    else runs.push([from, to]);
  }
  return runs;
}

const areaIn = words => [parseInt(words[1], 16), parseInt(words[2], 16)];

/** What a line of a map adds to a state; extents and free areas belong to the subpool or cell pool before them. */
const LINES = {
  TASK: (state, words) => state.tasks.push({
    number: +words[1],
    parent: +words[3],
    current: words[4] === 'CURRENT',
    registers: []
  }),
  R0: (state, words) => state.tasks.at(-1).registers.push(...words.slice(1)),
  R8: (state, words) => state.tasks.at(-1).registers.push(...words.slice(1)),
  SUBPOOL: (state, words) => state.subpools.push(state.holder = {
    number: +words[1],
    owner: +words[3],
    sharers: words[5] === 'NONE' ? [] : words[5].split(',').map(Number),
    extents: [],
    free: []
  }),
  CELLPOOL: (state, words, line) => state.pools.push(state.holder = {
    name: words[1],
    subpool: +words[3],
    owner: +words[5],
    size: +words[7],
    primary: +words[9],
    secondary: +words[11],
    location: words[13],
    header: / HDR '(.*)'$/.exec(line)?.[1] ?? '',
    extents: [],
    free: []
  }),
  EXTENT: (state, words) => state.holder.extents.push(areaIn(words)),
  FREE: (state, words) => state.holder.free.push(areaIn(words)),
  FREECELL: (state, words) => state.holder.free.push(parseInt(words[1], 16)),
  PAGES: (state, words) =>
    Object.assign(state, { low: +words[2], lowOf: +words[4], high: +words[6], highOf: +words[8] }),
  BYTES: (state, words) => Object.assign(state, { taken: +words[2], free: +words[4] }),
  NAME: (state, words) => state.names.push([words[1], words[2]]),
  HISTORY: (state, words) => Object.assign(state, { kept: +words[2], limit: +words[4] }),
};

/** The state shown by the map at a place of the text. */
function parseMap(text, at) {
  const state = { tasks: [], subpools: [], pools: [], names: [], holder: null };
  for (at = text.indexOf('\n', at) + 1; at && text.charCodeAt(at) === 32;) {
    const end = text.indexOf('\n', at);
    const line = text.slice(at, end < 0 ? text.length : end);
    const words = line.trim().split(' ');
    if (!LINES[words[0]]) throw new Sentence(`What vsm printed has a map with a line '${line.trim()}'.`);
    LINES[words[0]](state, words, line);
    at = end + 1;
  }
  if (!state.tasks.length || state.limit === undefined)
    throw new Sentence('What vsm printed lacks a map.');
  return state;
}

/** A run: the answered statements, and the states before and after each that has maps. */
export class Run {
  constructor(data, text) {
    const { answers, numbers, runs, totals } = survey(text);
    this.text = text;
    this.totals = totals;
    this.largest = []; // by step, the bytes of the largest free area, as far as it's known
    this.name = data.name;
    this.options = data.options;
    this.lines = data.script.split('\n');
    this.numbers = numbers;
    this.runs = runs;
    this.skipped = data.skipped;
    this.bytes = data.bytes ?? [];
    this.question = data.question ?? '';
    this.program = data.program ?? '';
    this.steps = Math.floor((answers.length - data.skipped) / 2);
    if (this.steps < 0 || answers.length === data.skipped) throw new Sentence('What vsm printed has no map.');
    this.readAnswers(answers);
  }

  static async of(data) {
    return new Run(data, await textOf(data));
  }

  /** After the answers before the first map, a map and an answer alternate. The last map is missing if the script ends
      inside a statement. An inserted map takes a line, so the numbers of the lines after it are one higher. */
  readAnswers(answers) {
    const reply = at => this.text.slice(at + 8, this.text.indexOf('\n', at));
    const line = at => parseInt(this.text.slice(at, at + 7), 10);
    this.maps = [];
    this.statements = answers.slice(0, this.skipped).map(at => ({ line: line(at), reply: reply(at) }));
    for (let k = this.skipped; k < answers.length; k += 2) {
      if (reply(answers[k]) !== 'MAP')
        throw new Sentence(`What vsm printed lacks the map after ${this.statements.length} statements.`);
      this.maps.push(answers[k]);
      if (k + 1 < answers.length)
        this.statements.push({ line: line(answers[k + 1]) - this.maps.length, reply: reply(answers[k + 1]) });
    }
    this.atLine = new Map(this.statements.map((it, k) => [it.line, k - this.skipped + 1]));
  }

  /** The statement of a step; step 1 is the first one with maps. */
  statement(step) {
    return this.statements[this.skipped + step - 1];
  }

  /** The state after a step's statement; for step 0, that before the first. */
  stateAt(step) {
    return parseMap(this.text, this.maps[Math.min(step, this.maps.length - 1)]);
  }

  /** The bytes taken at a step, and those of the pages below and above the 16 MB line. */
  totalsAt(step) {
    return this.totals[this.skipped + 2 * Math.min(step, this.maps.length - 1)];
  }

  /** The bytes of the largest free area at a step. */
  largestAt(step) {
    const { text } = this, from = this.maps[Math.min(step, this.maps.length - 1)];
    const end = text.indexOf('\n HISTORY ', from);
    const next = at => (text.indexOf('\n  FREE ', at) + 1 || Infinity) - 1;
    let at = this.free?.from <= from && from <= this.free.at ? this.free.at : next(from), most = '00000000';
    for (; at < end; at = next(at + 1)) {
      const length = text.slice(at + 17, at + 25);
      if (length > most) most = length;
    }
    this.free = { from, at }; // so that many maps without a free area are gone through once
    return parseInt(most, 16);
  }

  /** The colour of a subpool's number, from 0: by its rank among all numbers of the run. */
  colourOf(number) {
    return Math.max(0, this.numbers.indexOf(number)) % COLOURS;
  }

  /** The bytes at a step in all rows of 16 in which a POKE of the run stores: digits by address. */
  bytesAt(step) {
    const rows = new Map();
    for (const [at, row, digits] of this.bytes) {
      if (at > step) break;
      if (digits) rows.set(row, digits);
      else rows.delete(row);
    }
    return rows;
  }

  /** By row, the step that last changed its bytes, up to one. */
  writersAt(step) {
    return new Map(this.bytes.filter(it => it[0] <= step).map(([at, row]) => [row, at]));
  }

  /** The lines of a step's statement: from its first one, while there is a character in column 72. */
  linesOf(step) {
    const first = this.statement(step).line;
    let last = first;
    const isContinued = number => (this.lines[number - 1][71] ?? ' ') !== ' ';
    while (last < this.lines.length && isContinued(last) && !this.atLine.has(last + 1)) last++;
    return [first, last];
  }

  /** The step whose statement a line belongs to; undefined for a comment or an empty line. */
  stepAt(number) {
    for (let line = number; line > 0; line--) {
      const step = this.atLine.get(line);
      if (step !== undefined) return step < 1 || this.linesOf(step)[1] >= number ? step : undefined;
      if ((this.lines[line - 2]?.[71] ?? ' ') === ' ') return undefined;
    }
  }

  textOfStatement(step) {
    const [first, last] = this.linesOf(step);
    return this.lines.slice(first - 1, last).map(it => it.trimEnd()).join('\n');
  }
}
