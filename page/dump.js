// Bytes stored in the chosen page, in rows of 16; a changed row also shows the earlier ones.
import { hex, make } from './elements.js';
import { PAGE } from './map.js';

const ZERO = /^0*$/, NONE = '', IN_WORD = 4;
// By the first code of each run of characters, those of EBCDIC (page 037).
const RUNS = {
  0x40: ' ', 0x4b: '.<(+|&', 0x5a: '!$*);', 0x60: '-/', 0x6b: ',%_>?', 0x7a: ':#@\'="', 0x81: 'abcdefghi',
  0x91: 'jklmnopqr', 0xa2: 'stuvwxyz', 0xc1: 'ABCDEFGHI', 0xd1: 'JKLMNOPQR', 0xe2: 'STUVWXYZ', 0xf0: '0123456789'
};
const EBCDIC = new Map(Object.entries(RUNS).flatMap(([first, text]) =>
  [...text].map((it, k) => [Number(first) + k, it])));

const bytesIn = digits => digits.match(/../g) ?? [];
const charactersOf = digits => bytesIn(digits).map(it => EBCDIC.get(parseInt(it, 16)) ?? '.').join('');

/** A row of bytes; those that differ from another row are marked. */
function rowOf(head, digits, other, writer = null) {
  const others = bytesIn(other);
  const bytes = bytesIn(digits).flatMap((it, k) => [
    k && k % IN_WORD === 0 ? ' ' : NONE, other !== NONE && it !== others[k] ? make('mark', {}, it) : it
  ]);
  return make(
    'tr', {}, make('th', { scope: 'row' }, head), make('td', { class: 'bytes-of' }, ...bytes),
    make('td', { class: 'text' }, charactersOf(digits)), make('td', { class: 'text' }, writer)
  );
}

/** The bytes of a page that aren't zero, or weren't before the statement, with the lines that stored them; nothing if
    there are none. */
export function dumpOf(view, { page }) {
  const { bytes, bytesBefore, step } = view.moment, { run } = view;
  const here = row => row >= page * PAGE && row < (page + 1) * PAGE;
  const isShown = row => !ZERO.test(bytes.get(row) ?? NONE) || !ZERO.test(bytesBefore.get(row) ?? NONE);
  const rows = [...bytes.keys()].filter(it => here(it) && isShown(it)).sort((a, b) => a - b);
  if (!rows.length) return [];
  const writers = run.writersAt(step);
  function writerOf(row) {
    const at = writers.get(row);
    if (!at) return null;
    const link = { type: 'button', class: 'by', onclick: () => view.go(at) };
    return make('button', link, `by line ${run.statement(at).line}`);
  }
  const lines = rows.flatMap(row => {
    const now = bytes.get(row), before = bytesBefore.get(row) ?? NONE;
    const was = before !== NONE && before !== now ? [rowOf('before', before, now)] : [];
    return [...was, rowOf(hex(row), now, was.length ? before : NONE, writerOf(row))];
  });
  const caption = make('caption', {}, 'Bytes that POKEs stored');
  return [make('table', { class: 'dump', tabindex: 0 }, caption, make('tbody', {}, ...lines))];
}
