// What vsm-view does, on bytes: a script with a MAP before each statement and after the last.
import { latin, latinText } from './bytes.js';
import { Run } from './map.js';
import { joinedBytes } from './module-host.js';

const LINE_FEED = 10, BLANK = 32, BYTES_IN_ROW = 16, MOST_PEEKS = 200_000, MOST_MAPS = 4 * 2 ** 20;
const POKED = /^\S* +POKE +([^ ,]+),(X'[0-9A-F]*)?/i;

/** The answers of an output: line number and text of each. A map's lines begin with a blank. */
export function answersOf(output) {
  const found = [];
  for (let at = 0; at < output.length;) {
    const end = output.indexOf(LINE_FEED, at), behind = end < 0 ? output.length : end;
    if (output[at] !== BLANK) {
      const text = latinText(output.subarray(at, behind));
      found.push({ line: Number(text.slice(0, 7)), reply: text.slice(8) });
    }
    at = behind + 1;
  }
  return found;
}

/** The script with texts inserted before each of these lines, which ascend, and after the last: there is one more text
    than lines. A line on which a statement begins never continues another, so no statement is cut in two. */
export function withLines(script, begins, texts) {
  const pieces = [];
  let from = 0, at = 0, line = 1;
  begins.forEach((wanted, k) => {
    for (; line < wanted; line++) at = script.indexOf(LINE_FEED, at) + 1;
    pieces.push(script.subarray(from, at), latin(texts[k]));
    from = at;
  });
  pieces.push(script.subarray(from));
  if (script.length && script.at(-1) !== LINE_FEED) pieces.push(latin('\n'));
  return joinedBytes([...pieces, latin(texts.at(-1))]);
}

/** Whether the answers between the inserted maps are those of the script without them. */
export function isSameRun(plain, mapped) {
  const between = mapped.filter((it, k) => k % 2);
  return between.length === plain.length && plain.every((it, k) => it.reply === between[k].reply);
}

/** The value of a number, a name or a register in a state; undefined if it's none of these. */
function valueOf(word, state) {
  const [, decimal, hexadecimal, binary, register] =
    /^(?:(\d+)|X'([0-9A-F]+)'|B'([01]+)'|\(R?(\d\d?)\))$/.exec(word) ?? [];
  if (register) return parseInt(state.tasks.find(it => it.current).registers[register], 16);
  const found = state.names.find(it => it[0] === word);
  return found ? parseInt(found[1], 16)
    : [[decimal, 10], [hexadecimal, 16], [binary, 2]].map(it => it[0] && parseInt(...it)).find(it => it >= 0);
}

/** The rows in which the POKEs of a run store, each by its first address, ascending. */
function pokedRows(run) {
  const rows = new Set();
  for (let step = 1; step <= run.steps; step++) {
    const { line, reply } = run.statement(step), text = run.lines[line - 1];
    const found = reply === 'OK' && POKED.exec(text.slice(0, 71));
    const start = found && valueOf(found[1].toUpperCase(), run.stateAt(step - 1));
    if (!(start >= 0)) continue;
    const count = (text[71] ?? ' ') !== ' ' ? 256 : ((found[2]?.length ?? 10) - 2) / 2;
    for (let row = start - start % BYTES_IN_ROW; row < start + count; row += BYTES_IN_ROW) rows.add(row);
  }
  return [...rows].sort((a, b) => a - b);
}

/** For each map, the rows in which a POKE of the run stores and whose page is assigned then; none if they are too
    many. */
export function rowsToPeek(script, output) {
  if (output.length > MOST_MAPS) return [];
  const run = new Run({ script: latinText(script), skipped: 0 }, latinText(output)), rows = pokedRows(run);
  if (!rows.length || rows.length * (run.steps + 1) > MOST_PEEKS) return [];
  return run.maps.map((_, step) => {
    const { subpools } = run.stateAt(step);
    const isHere = row => subpools.some(
      it => it.extents.some(([first, length]) => first <= row && row < first + length)
    );
    return rows.filter(isHere);
  });
}

export const peeksOf = rowsAt =>
  rowsAt.map(rows => rows.map(it => ` PEEK X'${it.toString(16).toUpperCase()}',${BYTES_IN_ROW}\n`).join(''));

/** What the inserted PEEKs show: step, row and bytes of each row that differs from the step before; no bytes if its
    page isn't assigned. */
export function bytesSeen(answers, rowsAt) {
  const found = [];
  let known = new Map(), at = 0;
  rowsAt.forEach((rows, step) => {
    const shown = new Map(rows.map((row, k) => [row, answers[at + k]?.reply.slice(2) ?? '']));
    for (const row of known.keys()) if (!shown.has(row)) found.push([step, row, '']);
    for (const [row, text] of shown) if (known.get(row) !== text) found.push([step, row, text]);
    known = shown;
    at += rows.length + 1;
  });
  return found;
}
