// One's own scripts as this browser keeps them: each is an entry of its own, and two windows never write the same one.
import { NAMES } from './bench-keep.js';

export const MOST_OWN = 30;
const KEY = 'nilbozad.own ', OLD_KEYS = ['nilbozad.own', 'nilbozad.bench']; // the old ones hold a list, or one script

const contentOf = ({ script, options }) => JSON.stringify([script, ...NAMES.map(it => options[it] ?? '')]);

function parsed(text) {
  try {
    return JSON.parse(text);
  } catch {
    return null;
  }
}

/** A script of one's own, of what was kept under its id; null if that's no script. */
function ownOf(it, id) {
  if (typeof it?.script !== 'string') return null;
  const options = Object.fromEntries(NAMES.map(name => [name, String(it.options?.[name] ?? '')]));
  // An id begins with the time of the first edit, which is all that older pages kept.
  const at = Number(it.at) || parseInt(id, 10) || 0;
  return { id, script: it.script, options, name: String(it.name ?? ''), at };
}

/** When a script was edited, as its time, or, if that was on another day, its date. */
export function editedAt(at, now = Date.now()) {
  if (!at) return 'earlier';
  const [then, today] = [at, now].map(it => new Date(it));
  return then.toDateString() === today.toDateString()
    ? then.toLocaleTimeString('en-GB', { hour: '2-digit', minute: '2-digit' })
    : then.toLocaleDateString('en-GB', { day: 'numeric', month: 'short' });
}

/** The entries, and which of them is this window's: the one that its edits go to. */
export class OwnScripts {
  /** `storage` returns the browser's storage; that, and each use of it, may throw. */
  constructor(storage, now = Date.now) {
    Object.assign(this, { storage, now, id: null, seen: '', read: { text: null, found: null } });
    this.moveOld();
  }

  /** What an act on the storage returns, or this if it throws. */
  tried(act, otherwise) {
    try {
      return act(this.storage());
    } catch {
      return otherwise;
    }
  }

  /** An entry; that of the last one is kept as long as its text is the same, since each step asks for it. */
  get(id) {
    const text = this.tried(it => it.getItem(KEY + id), null);
    if (text === null) return null;
    if (this.read.text !== text || this.read.found?.id !== id) this.read = { text, found: ownOf(parsed(text), id) };
    return this.read.found;
  }

  /** All of them, the last edited one first. */
  all() {
    const keys = this.tried(it => Array.from({ length: it.length }, (_, k) => it.key(k)), []);
    return keys.filter(it => it.startsWith(KEY)).map(it => this.get(it.slice(KEY.length))).filter(Boolean)
      .sort((a, b) => b.at - a.at);
  }

  /** The one with this script and these options, if there is one. */
  equal(own) {
    const content = contentOf(own);
    return this.all().find(it => contentOf(it) === content);
  }

  /** Makes an entry this window's; null is none: the next edit makes another. */
  open(id) {
    const own = id === null ? null : this.get(id);
    Object.assign(this, { id: own && id, seen: own ? contentOf(own) : '' });
    return own;
  }

  /** Keeps a script in this window's entry: in a new one if it has none, or if another window has written that one,
      which `isOther` says. Nothing is dropped for it: `isFull` says that there is no room for one more. */
  write(own) {
    const kept = this.id === null ? null : this.get(this.id), content = contentOf(own), had = kept && contentOf(kept);
    if (kept && had === content && kept.name === own.name) {
      this.seen = content;
      return { isKept: true };
    }
    const isOther = kept !== null && had !== this.seen && had !== content;
    if ((!kept || isOther) && this.all().length >= MOST_OWN) return { isKept: false, isFull: true };
    if (this.id === null || isOther) this.id = `${this.now()} ${Math.random()}`;
    const isKept = this.put({ ...own, id: this.id, at: this.now() });
    if (isKept) this.seen = content;
    return { isKept, isOther };
  }

  put({ id, script, options, name, at }) {
    return this.tried(it => {
      it.setItem(KEY + id, JSON.stringify({ script, options, name, at }));
      return true;
    }, false);
  }

  /** Names an entry, which stays what it is otherwise. */
  rename(id, name) {
    const own = this.get(id);
    return own !== null && this.put({ ...own, name });
  }

  remove(id) {
    this.tried(it => it.removeItem(KEY + id));
    if (id === this.id) this.open(null);
  }

  /** Moves what older pages kept in one list to entries. */
  moveOld() {
    for (const key of OLD_KEYS) {
      const text = this.tried(it => it.getItem(key), null), told = parsed(text);
      const old = (Array.isArray(told) ? told : [told]).map((it, k) => ownOf(it, String(it?.id ?? `first ${k}`)));
      if (text === null || !old.some(Boolean)) continue;
      this.tried(it => it.removeItem(key));
      const all = old.filter(Boolean).map(it => this.put(it));
      if (!all.every(Boolean)) this.tried(it => it.setItem(key, text));
    }
  }
}
