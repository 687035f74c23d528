// The worker that explains: it runs vsm-explain once for each question about a script.
import { ranOver, reasonOf } from './bench-run.js';
import { latinText } from './bytes.js';
import { whoAsked } from './explain-questions.js';

const MOST_OUTPUT = 16 * 2 ** 20; // bytes
const encoder = new TextEncoder();
let program;

/** The answer to one question; `who` without arguments gets those that suit the answer of `why`, or isn't run. */
function answerTo({ key, words, bytes, asked }, script, why) {
  const added = asked ?? (key === 'who' ? whoAsked(why) : ''), told = added.split(/\s+/).filter(Boolean);
  if (key === 'who' && !told.length) return { key, status: 0, output: '', errors: '', asked: '' };
  try {
    const all = ['vsm-explain', ...words, ...told].map(it => encoder.encode(it));
    const { status, output, errors } = ranOver(program, all, script.subarray(0, bytes), MOST_OUTPUT);
    return { key, status, output: latinText(output), errors, asked: added };
  } catch (fault) {
    return { key, status: 16, output: '', errors: `vsm-explain: ${reasonOf(fault)}\n`, asked: added };
  }
}

onmessage = ({ data: { wasm, script, questions } }) => {
  let why = '';
  try {
    program ??= new WebAssembly.Module(wasm);
  } catch (fault) {
    postMessage({ kind: 'fault', why: fault.message });
    return;
  }
  for (const question of questions) {
    const answer = answerTo(question, script, why);
    if (answer.key === 'why') why = answer.output;
    postMessage({ kind: 'answer', ...answer });
  }
  postMessage({ kind: 'end' });
};
