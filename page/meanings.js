// The meaning of an answer, in the words of docs/MESSAGES.md.
import { MESSAGES } from './messages.js';

/** An answer without its own values: `RC=0 A=00006000` is `RC=0 A=`. */
const formOf = reply => reply.replace(/\b(A|L|T|D|KEPT|UNDONE)=\w+/g, '$1=');

const BY_FORM = new Map();
for (const row of MESSAGES)
  for (const text of row.texts) BY_FORM.set(formOf(text), [...BY_FORM.get(formOf(text)) ?? [], row]);

const wordsOf = text => text.toUpperCase().split(/[^A-Z0-9]+/).filter(Boolean);

/** The operation of a statement and the word of its first operand: neither its name nor its remarks. */
const operationOf = statement => wordsOf(/^\S*\s+(\S+(?:\s+[^\s,=]+)?)/.exec(statement)?.[1] ?? '');

/** The statements before the colon of `STORAGE with COND=YES, CPOOL GET: ..`, each as its words. */
const labelsOf = head =>
  head.split(', ').flatMap(it => it.replace(/ with .*/, '').split(/ and | or /)).map(wordsOf);

/** A meaning by its statements: `RUN, ENDTASK: the task ..` is one part, of RUN or ENDTASK. */
function partsOfMeaning(meaning) {
  const parts = [];
  for (const sentence of meaning.split(/(?<=\.) /)) {
    const found = /^([A-Z]{2,}[^:;]*): (.*)$/.exec(sentence);
    if (found) parts.push({ labels: labelsOf(found[1]), text: found[2] });
    else if (parts.length) parts.at(-1).text += ` ${sentence}`;
    else parts.push({ labels: null, text: sentence });
  }
  return parts;
}

const capital = text => text && text[0].toUpperCase() + text.slice(1);

/** What an answer to a statement means, and what it leaves or what to do about it. If the document distinguishes
    statements, these are the parts whose words are in the statement; if there are none, the parts without words; else
    all. */
export function meaningOf(reply, statement) {
  const rows = BY_FORM.get(formOf(reply)) ?? [];
  const all = rows.flatMap(row => partsOfMeaning(row.meaning).map(part => ({ ...part, row })));
  if (!all.length) return { meaning: '', more: null };
  const words = new Set(operationOf(statement));
  const named = all.filter(it => it.labels?.some(label => label.every(word => words.has(word))));
  const bare = all.filter(it => !it.labels), chosen = named.length ? named : bare.length ? bare : all;
  const { leaves, advice } = chosen[0].row;
  const more = { head: leaves ? 'What it leaves' : 'What to do', text: leaves ?? advice };
  return { meaning: chosen.map(it => capital(it.text)).join(' '), more };
}
