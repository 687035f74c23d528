// Scripts with their options as links hold them.
import { MOST_BYTES } from './bench-script.js';
import { latin, latinText } from './bytes.js';

export const MOST_LINK = 32 * 1024; // characters of the address
export const NAMES = ['low', 'high', 'residence', 'history'];

const piped = (bytes, stream) => new Blob([bytes]).stream().pipeThrough(stream);
const through = async (bytes, stream) => new Uint8Array(await new Response(piped(bytes, stream)).arrayBuffer());

export const base64Of = bytes => btoa(latinText(bytes));
export const gzipped = bytes => through(bytes, new CompressionStream('gzip'));
export const gunzipped = bytes => through(bytes, new DecompressionStream('gzip'));
export const bytesOf = base64 => latin(atob(base64));

let packedLast = { script: null, text: '' };

/** A script as a link holds it; that of the last one is kept, since each step makes a link. */
async function packedScript(script) {
  if (packedLast.script !== script) {
    const packed = base64Of(await through(latin(script), new CompressionStream('deflate-raw')));
    packedLast = { script, text: packed.replaceAll('+', '-').replaceAll('/', '_').replace(/=+$/, '') };
  }
  return packedLast.text;
}

/** The part of a link after its #: options as text, the statement that is shown if it isn't the last one, and the
    script compressed. */
export async function linkOf({ script, options, name, teacher, step }) {
  const packed = await packedScript(script), told = new URLSearchParams();
  for (const it of NAMES) if (options[it]) told.set(it, options[it]);
  if (name) told.set('name', name);
  if (teacher) told.set('teacher', '1');
  if (Number.isFinite(step) && !teacher) told.set('statement', step);
  told.set('script', packed);
  return `#${told}`;
}

/** An unpacked script; at most one byte more than a script may have is unpacked. */
async function unpacked(bytes) {
  const reader = piped(bytes, new DecompressionStream('deflate-raw')).getReader();
  let text = '';
  for (let it = await reader.read(); !it.done; it = await reader.read()) {
    text += latinText(it.value);
    if (text.length > MOST_BYTES) {
      await reader.cancel();
      break;
    }
  }
  return text;
}

/** A statement's number as a link has it; another text is none. */
const stepIn = text => /^\d{1,7}$/.test(text ?? '') ? Number(text) : Infinity;

/** The contents of a link; null if it has no script. It throws if the link can't be read or is longer than any of this
    page. */
export async function readLink(hash) {
  const told = new URLSearchParams(hash.slice(1)), packed = told.get('script');
  if (packed === null) return null;
  if (hash.length > MOST_LINK) throw new RangeError('too long');
  const script = await unpacked(bytesOf(packed.replaceAll('-', '+').replaceAll('_', '/')));
  const options = Object.fromEntries(NAMES.map(it => [it, told.get(it) ?? '']));
  const [name, step] = [told.get('name') ?? '', stepIn(told.get('statement'))];
  return { script, options, name, teacher: told.has('teacher'), step };
}
