// A script as the editor's text and as bytes: each character is one byte.

export const MOST_LINES = 20_000; // a text field of many more is slow
export const MOST_BYTES = 4 * 2 ** 20;

/** The line and column of a place in a text, in words. */
export function placeIn(text, at) {
  const before = text.slice(0, at).split('\n');
  return `line ${before.length}, column ${before.at(-1).length + 1}`;
}

/** What is wrong with a text as a script of this page, in words; or null. */
export function faultOfScript(text) {
  const other = /[^\0-\xff]/u.exec(text);
  if (other)
    return `${placeIn(text, other.index)}: “${other[0]}” isn’t one byte, so a script can’t have it`;
  let lines = 0;
  for (let at = 0; at < text.length; lines++) at = text.indexOf('\n', at) + 1 || text.length;
  const tooMany = (has, most, what) => has <= most ? null
    : `the script has ${has.toLocaleString('en')} ${what}, and this page takes at most ` +
      `${most.toLocaleString('en')}: the program vsm itself runs it`;
  return tooMany(lines, MOST_LINES, 'lines') ?? tooMany(text.length, MOST_BYTES, 'bytes');
}

/** The options in the comments before a script's first statement, as in `*! --residence 31`, by their names. */
export function optionsIn(text) {
  const found = {};
  for (const line of text.split('\n')) {
    if (!line.startsWith('*') && line.slice(0, 71).trim()) break;
    if (line.startsWith('*! ')) for (const [, name,
      value] of line.matchAll(/--([a-z]+)[ =]+(\S+)/g)) found[name] = value;
  }
  return found;
}

/** A file's text as the editor can hold it. Carriage returns right before line feeds are dropped, as vsm drops them;
    any other is a fault. */
export function editorText(text) {
  const plain = text.replaceAll('\r\n', '\n');
  const alone = plain.indexOf('\r');
  if (alone >= 0) return { fault: `${placeIn(plain, alone)}: the editor can’t hold a carriage return within a line` };
  const fault = faultOfScript(plain);
  return fault ? { fault } : { text: plain };
}
