// Trials of what keeps one's own scripts, in a storage in place of the browser's.
import assert from 'node:assert';
import test from 'node:test';
import { editedAt, MOST_OWN, OwnScripts } from './bench-own.js';

/** A storage as a browser has it; of more than `most` characters it takes none. */
class Room {
  constructor(most = Infinity) {
    Object.assign(this, { held: new Map(), most });
  }
  get length() {
    return this.held.size;
  }
  key(k) {
    return [...this.held.keys()][k];
  }
  getItem(key) {
    return this.held.get(key) ?? null;
  }
  setItem(key, text) {
    const others = [...this.held].reduce((sum, [name, it]) => sum + (name === key ? 0 : it.length), 0);
    if (others + text.length > this.most) throw new Error('QuotaExceededError');
    this.held.set(key, text);
  }
  removeItem(key) {
    this.held.delete(key);
  }
}

let clock = 0;
const windowOn = room => new OwnScripts(() => room, () => ++clock);
const scriptOf = (script, name = 'a.vsm') => ({ script, name, options: {} });
const scriptsIn = own => own.all().map(it => it.script);

test('each edit goes to the same entry, also after a reload', () => {
  const room = new Room(), own = windowOn(room);
  own.write(scriptOf('one'));
  own.write(scriptOf('one more'));
  const again = windowOn(room);
  again.open(own.id);
  assert.deepEqual(again.write(scriptOf('one more, edited')), { isKept: true, isOther: false });
  assert.deepEqual(scriptsIn(own), ['one more, edited']);
});

test('two windows with one entry: the second that edits it gets another, and loses nothing', () => {
  const room = new Room(), first = windowOn(room);
  first.write(scriptOf('begun'));
  const second = windowOn(room);
  second.open(first.id);
  first.write(scriptOf('3,000 lines'));
  assert.deepEqual(second.write(scriptOf('one line')), { isKept: true, isOther: true });
  assert.deepEqual(second.write(scriptOf('one line more')), { isKept: true, isOther: false });
  assert.deepEqual(scriptsIn(first), ['one line more', '3,000 lines']);
  assert.notEqual(first.id, second.id);
});

test('what is kept as it is isn’t written again, and is found', () => {
  const room = new Room(), own = windowOn(room);
  own.write(scriptOf('same'));
  const [before] = room.held.values();
  assert.deepEqual(own.write(scriptOf('same')), { isKept: true });
  assert.equal([...room.held.values()][0], before);
  assert.equal(own.equal(scriptOf('same', 'other name')).id, own.id);
  assert.equal(own.equal(scriptOf('other')), undefined);
});

test('the oldest goes only if it’s deleted', () => {
  const room = new Room(), own = windowOn(room);
  for (let k = 0; k < MOST_OWN; k++) {
    own.open(null);
    own.write(scriptOf(`number ${k}`));
  }
  own.open(null);
  assert.deepEqual(own.write(scriptOf('one too many')), { isKept: false, isFull: true });
  assert.equal(own.all().length, MOST_OWN);
  assert.equal(own.all().at(-1).script, 'number 0');
  own.remove(own.all().at(-1).id);
  assert.equal(own.write(scriptOf('one too many')).isKept, true);
  assert.deepEqual([own.all().length, own.all()[0].script], [MOST_OWN, 'one too many']);
});

test('an entry that another window deleted is written anew', () => {
  const room = new Room(), first = windowOn(room), second = windowOn(room);
  first.write(scriptOf('mine'));
  second.remove(first.id);
  assert.equal(first.write(scriptOf('mine')).isKept, true);
  assert.deepEqual(scriptsIn(second), ['mine']);
});

test('names can be changed, which makes it no other entry', () => {
  const room = new Room(), own = windowOn(room), other = windowOn(room);
  own.write(scriptOf('it'));
  other.rename(own.id, 'lesson 3');
  assert.deepEqual([own.all()[0].name, own.write(scriptOf('it, edited', 'lesson 3')).isOther], ['lesson 3', false]);
  assert.equal(own.rename('nowhere', 'x'), false);
});

test('a storage that is full, missing or damaged loses nothing and ends nothing', () => {
  const small = windowOn(new Room(100));
  assert.equal(small.write(scriptOf('x'.repeat(200))).isKept, false);
  const none = new OwnScripts(() => {
    throw new Error('SecurityError');
  });
  assert.deepEqual([none.all(), none.write(scriptOf('x')).isKept, none.get('a')], [[], false, null]);
  const room = new Room();
  for (const [k, text] of ['', '{', '7', 'null', '[]', '{"script":7}', '{"script":"s","options":3}'].entries())
    room.setItem(`nilbozad.own ${k}`, text);
  assert.deepEqual(scriptsIn(windowOn(room)), ['s']);
});

test('what older pages kept is moved, whole or not at all', () => {
  const room = new Room();
  const list = [{ script: 'new', id: '5', options: { low: '16' } }, { script: 7 }, null, { script: 'old', id: '4' }];
  room.setItem('nilbozad.own', JSON.stringify(list));
  room.setItem('nilbozad.bench', JSON.stringify({ script: 'oldest' }));
  const own = windowOn(room);
  assert.deepEqual(scriptsIn(own), ['new', 'old', 'oldest']);
  assert.deepEqual([own.get('5').options.low, room.getItem('nilbozad.own')], ['16', null]);
  const damaged = new Room();
  for (const text of ['{', '3', '[{"script":7}, null]']) {
    damaged.setItem('nilbozad.own', text);
    assert.deepEqual([windowOn(damaged).all(), damaged.getItem('nilbozad.own')], [[], text]);
  }
});

test('the time of an edit, or its day', () => {
  const noon = new Date(2026, 0, 5, 12, 3).getTime();
  assert.equal(editedAt(noon, noon + 60_000), '12:03');
  assert.equal(editedAt(noon, noon + 86_400_000), '5 Jan');
  assert.equal(editedAt(0, noon), 'earlier');
});
