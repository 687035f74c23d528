// The worker of the bench: it runs a script, and then again with maps put in, and reports its progress.
import { answersOf, bytesSeen, isSameRun, peeksOf, rowsToPeek, withLines } from './bench-maps.js';
import { ranOver, reasonOf, TooMuch } from './bench-run.js';
import { latin } from './bytes.js';

const PAUSE = 100; // milliseconds between two reports of progress
const MOST_OUTPUT = 128 * 2 ** 20; // bytes: what the page can go through without a long pause
let program;

/** Runs vsm over a script, and reports its progress. */
function ran(words, script, part) {
  let last = performance.now();
  function report(read, bytes) {
    if (performance.now() - last < PAUSE) return;
    last = performance.now();
    postMessage({ kind: 'progress', part, share: script.length ? read / script.length : 1, bytes });
  }
  return ranOver(program, ['vsm', ...words].map(latin), script, MOST_OUTPUT, report);
}

function pictureOf(words, script, plain, answers) {
  const begins = answers.map(it => it.line);
  const ranWith = texts => ran(words, withLines(script, begins, texts), 'maps');
  try {
    const { output, status } = ranWith([...begins.map(() => ' MAP\n'), ' MAP\n']);
    if (status !== plain.status || !isSameRun(answers, answersOf(output)))
      return { why: 'with maps between them the answers differ, which is an error in this page' };
    const rows = answers.some(it => it.reply === 'OK') ? rowsToPeek(script, output) : [];
    const bytes = rows.length ? bytesSeen(answersOf(ranWith(peeksOf(rows)).output), rows) : [];
    return { output, bytes };
  } catch (fault) {
    const why = reasonOf(fault);
    if (!(fault instanceof TooMuch)) return { why };
    return { why: `with a map at each statement ${why} (vsm-view makes pages of parts)` };
  }
}

onmessage = ({ data: { wasm, words, script } }) => {
  try {
    program ??= new WebAssembly.Module(wasm);
    const plain = ran(words, script, 'script');
    const answers = answersOf(plain.output);
    postMessage({ kind: 'ran', ...plain, count: answers.length });
    if (plain.status === 0 || plain.status === 4)
      postMessage({ kind: 'picture', ...pictureOf(words, script, plain, answers) });
    postMessage({ kind: 'end' });
  } catch (fault) {
    postMessage({ kind: 'fault', why: reasonOf(fault) });
  }
};
