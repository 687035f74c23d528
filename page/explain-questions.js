// The questions that the page asks vsm-explain, and what its answers hold.

/** What `who` is asked for a statement by default, according to the text of `why`: who changed the bytes that it reads
    or stores, or the storage at the address that it was granted or names; else nothing. */
export function whoAsked(why) {
  const [first] = why.split('\n');
  const granted = /^ {2}answered: .* A=([0-9A-F]{8})/m.exec(why), place = /\b(?:at|cell) ([0-9A-F]{8})\b/.exec(first);
  const bytes = /^line \d+: (\d+) bytes? (?:stored )?at ([0-9A-F]{8})/.exec(first);
  if (granted) return granted[1];
  if (bytes) return `${bytes[2]} ${bytes[1]}`;
  return place?.[1] ?? '';
}

/** The words of what is found at a statement whose answer is right. */
export const FOUND = ['OUTSIDE', 'STALE', 'PART', 'UNSET', 'LEFT'];
const MILD = ['WARNING', 'PART', 'UNSET']; // words of what is only worth a look

/** What `check --json` prints: each with its word, line, column and text, the number of characters to mark there, and
    how it looks. */
export function findingsIn(output) {
  const rows = output.split('\n').slice(1).filter(Boolean).map(it => JSON.parse(it));
  return rows.filter(it => it.kind === 'finding').map(({ word, line, column, end, text }) => ({
    word, line, column, text, length: Math.max(1, end - column), look: MILD.includes(word) ? 'warning' : null
  }));
}

/** An argument as a shell needs it. */
const quoted = word => /^[\w.,=@%+/:-]+$/.test(word) ? word : `'${word.replaceAll("'", "'\\''")}'`;

/** A command line, with its arguments as a shell needs them. */
export const shell = words => words.map(quoted).join(' ');
