// A script's text as it's shown. The data have one character for each byte.
import { latin } from './bytes.js';
import { make } from './elements.js';

const COLUMNS = 71; // before the one whose character continues a statement
const HIDDEN = /[\0-\x1f\x7f-\x9f\u200b-\u200f\u2028-\u202e\u2060-\u2069\ufeff]/g;
const SIGN = '\ufffd', DELETE = '\x7f', PICTURES = 0x2400, PICTURE_OF_DELETE = '\u2421';
const PICTURE = /([\u2400-\u2421])/;
const decoder = new TextDecoder('utf-8', { fatal: true });

/** Bytes above 127 as letters if they are UTF-8. */
function decoded(text) {
  try {
    return decoder.decode(latin(text));
  } catch {
    return text;
  }
}

/** The picture of a control byte; a sign for what has none. */
const signOf = it =>
  it === DELETE ? PICTURE_OF_DELETE : it < ' ' ? String.fromCharCode(PICTURES + it.charCodeAt(0)) : SIGN;

/** A line as it's shown: as UTF-8 if it is that, with column 72 in its place; with pictures of control bytes, and a
    sign for each letter that has no width or changes the order of others. */
export function shownLine(line) {
  if (!/[^ -~]/.test(line)) return line;
  const bytes = line.slice(0, COLUMNS), rest = line.slice(COLUMNS), front = decoded(bytes);
  // A letter that is on both sides of column 72 leaves it without its place.
  const isCut = front === bytes && /[\x80-\xff]/.test(bytes);
  const text = isCut || !rest ? decoded(line) : front.padEnd(COLUMNS) + decoded(rest);
  return text.replace(HIDDEN, signOf);
}

/** A shown text in parts, in which each picture is as wide as a letter: in few fonts it is that by itself. */
export const inColumns = text =>
  text.split(PICTURE).map((it, k) => k % 2 ? make('span', { class: 'control', title: 'a control byte' }, it) : it);
