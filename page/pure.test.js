// Trials of what needs no browser: replies, meanings, questions, and the parts of pages. tools/tests/test_view.py runs
// them in node, joined with their imports.
import assert from 'node:assert';
import test from 'node:test';
import { findingsIn, shell, whoAsked } from './explain-questions.js';
import { meaningOf } from './meanings.js';
import { bucketsOf, CourseRows } from './course.js';
import { withoutRemarks } from './remarks.js';
import { runsOf } from './map.js';
import { momentOf } from './moment.js';
import { stepsIn } from './picture.js';
import { Grants, kindOf, standing, stepsOf } from './replies.js';
import { lineRows, wrapped } from './script.js';
import { shownLine } from './shown.js';
import { Pages } from './storage.js';
import { takenBy } from './taken.js';

const subpool = (extents, free) => ({ number: 1, owner: 1, sharers: [], extents, free });
const partsAt = (pages, page) => pages.get(page).parts.map(it => [it.from, it.to, it.kind, it.k]);
const stands = (replies, limit) => standing(stepsOf(replies), limit);
const piecesAt = (replies, page, extents = []) => new Grants(replies).piecesAt(page, () => true, extents);

test('a step back takes the last ones, a step forward returns them', () => {
  const replies = ['RC=0 A=00006000 L=00000008', 'RC=4', 'KEPT=0', 'KEPT=2'];
  assert.deepEqual(stands(replies.slice(0, 3), 9), { stand: [], again: [1, 0], kept: 0 });
  assert.deepEqual(stands(replies, 1024), { stand: [0, 1], again: [], kept: 2 });
  assert.deepEqual(stands(replies.slice(0, 2), 1), { stand: [0, 1], again: [], kept: 1 });
});

test('a kept statement drops what was undone, and a refused one does not', () => {
  assert.deepEqual(stands(['OK', 'KEPT=0', 'ABEND S0C4'], 9).again, [0]);
  assert.deepEqual(stands(['OK', 'KEPT=0', 'T=2'], 9), { stand: [2], again: [], kept: 1 });
});

test('an unknown kept answer makes the count differ from the map', () => {
  assert.equal(stands(['RC=0', 'STORED'], 9).kept, 1);
});

test('the kinds of replies', () => {
  const kinds = { 'RC=0': 'kept', 'RC=4': 'four', 'KEPT=1': 'step', 'D=00': 'shown', 'FAULT VALUE': 'refused' };
  for (const [reply, kind] of Object.entries(kinds)) assert.equal(kindOf(reply), kind);
});

test('areas that touch are separated, and each has its statement', () => {
  const replies = ['RC=0 A=00006000 L=00000010', 'RC=0 A=00006010 L=00000008'];
  const state = { subpools: [subpool([[0x6000, 0x1000]], [[0x6018, 0xFE8]])], pools: [] };
  const pages = new Pages(state, page => piecesAt(replies, page), () => new Map());
  assert.deepEqual(partsAt(pages, 6), [
    [0x6000, 0x6010, 'taken', 0], [0x6010, 0x6018, 'taken', 1], [0x6018, 0x7000, 'free', undefined]
  ]);
});

test('what is left of an area keeps its statement, on both sides of a later area', () => {
  const replies = ['RC=0 A=00006000 L=00000018', 'RC=0', 'RC=0 A=00006008 L=00000008'];
  const areas = piecesAt(replies, 6).map(it => [it.from, it.to, it.k]);
  assert.deepEqual(areas, [[0x6008, 0x6010, 2], [0x6000, 0x6008, 0], [0x6010, 0x6018, 0]]);
});

test('no line runs through an extent that a GET made', () => {
  const replies = ['RC=0 A=00006000 L=00000008', 'RC=0', 'RC=0 A=00006000'];
  assert.deepEqual(piecesAt(replies, 6, [[0x6000, 0x10]]), [{ from: 0x6000, to: 0x6010, k: undefined }]);
  assert.deepEqual([...new Grants(replies).cells([0, 1, 2])], [[0x6000, 2]]);
});

test('an area over two pages is in both', () => {
  const replies = ['RC=0 A=00006FF8 L=00000010', 'RC=0 A=00010000 L=00400000', 'RC=0 A=00012000 L=00000008'];
  assert.deepEqual([6, 7].map(it => piecesAt(replies, it).map(one => one.to - one.from)), [[8], [8]]);
  assert.deepEqual([0x12, 0x40F, 0x410].map(it => piecesAt(replies, it).map(one => one.k)), [[2, 1], [1], []]);
});

test('areas are runs of pages, each page once', () => {
  assert.deepEqual(runsOf([[0x9000, 0x1000], [0x6000, 0x1001], [0x7000, 0x1000], [0x8000, 0x10]]), [[6, 10]]);
  assert.deepEqual(runsOf([[0x9000, 0x1000], [0x6000, 0x2000]]), [[6, 8], [9, 10]]);
});

/** A random run of states and replies; a state may equal the one before. What is shown of a page follows from both. */
function runByChance(seed) {
  const chance = most => (seed = (seed * 1103515245 + 12345) % 2147483648, Math.floor(seed / 65536) % most);
  const some = (count, act) => Array.from({ length: count }, (_, k) => act(k)).filter(() => chance(2));
  const states = [], replies = [];
  for (let step = 0; step < 30; step++) {
    const subpools = some(3, k => {
      const first = 0x6000 + 0x3000 * k, free = some(4, at => [first + 0x400 * at, 8 + 8 * chance(9)]);
      return { ...subpool([[first, 0x1000 * (1 + chance(3))]], free), owner: 1 + chance(2), number: k };
    });
    const pools = some(2, k => {
      const first = 0x6000 + 0x3000 * k, free = some(5, at => first + 16 * at);
      return { name: `P${k}`, size: 8, primary: 600, secondary: 9, extents: [[first, 0x1300]], free };
    });
    states.push(step && chance(2) ? states.at(-1) : { limit: 9, subpools, pools });
    const place = (6 + chance(9)).toString(16) + chance(10);
    const texts = [`RC=0 A=000${place}00 L=0000${chance(3)}100`, `RC=0 A=000060${chance(4)}0`, `KEPT=${chance(5)}`];
    replies.push(texts[chance(3)]);
  }
  const statements = replies.map(reply => ({ reply }));
  return {
    steps: states.length - 1, statements, skipped: 0, statement: step => statements[step - 1],
      stateAt: step => states[step],
    bytesAt: () => new Map()
  };
}

test('a page differs exactly if its parts do, and what is reused from the step before is right', () => {
  const seen = it => it && [it.key, it.parts, it.cells.map(({ pool, ...cell }) => cell)];
  for (let seed = 1; seed <= 40; seed++) {
    const run = runByChance(seed), fresh = step => momentOf({ ...run, past: null }, step, true).pages;
    for (let step = 1; step <= run.steps; step++) {
      const { changed, pages } = momentOf(run, step), [now, before] = [fresh(step), fresh(step - 1)];
      for (let page = 5; page < 16; page++) {
        assert.equal(changed.has(page), now.get(page)?.key !== before.get(page)?.key,
          `seed ${seed}, step ${step}, page ${page}`);
        assert.deepEqual(seen(pages.get(page)), seen(now.get(page)), `seed ${seed}, step ${step}, page ${page}`);
      }
    }
  }
});

test('a meaning is of the operation, and not of remarks, operands or a name', () => {
  const released = 'The area, or the whole subpool, was released.';
  for (const statement of [' STORAGE RELEASE,LENGTH=8,ADDR=A,SP=1   then DETACH 2',
    'DETACH  FREEMAIN RU,LV=8,A=DETACH'])
    assert.equal(meaningOf('RC=0', statement).meaning, released);
  assert.match(meaningOf('RC=0 A=00006000 L=00000008', ' STORAGE OBTAIN,LENGTH=8,ADDR=A  CPOOL BUILD').meaning,
    /^The area was/);
  assert.doesNotMatch(meaningOf('RC=0 A=00006000 L=00000008', ' STORAGE OBTAIN,LENGTH=8').meaning, /cell pool/);
  assert.match(meaningOf('RC=4', ' CPOOL GET,C,CPID=CP').meaning, /no cell is free/i);
});

test('advice can be followed', () => {
  assert.equal(meaningOf('FAULT VALUE', ' RUN X').more.text, 'See Values in STATEMENTS.');
  assert.deepEqual(meaningOf('NEW', ' RUN X'), { meaning: '', more: null });
});

test('remarks are dropped, and operands stay', () => {
  const shown = {
    ' CPOOL GET,C,CPID=CP   none is free: 4': ' CPOOL GET,C,CPID=CP', ' MAP   half of it': ' MAP',
      ' ENDTASK  and ends': ' ENDTASK',
    "A  POKE P,X'C1 C2'  as text": "A  POKE P,X'C1 C2'", ' RUN 2': ' RUN 2', ' MAP': ' MAP', ' BACK 1  no': ' BACK 1'
  };
  for (const [line, text] of Object.entries(shown)) assert.deepEqual(withoutRemarks([line]), [text]);
  const lines = [' STORAGE OBTAIN,   the form'.padEnd(71) + 'X', '               LENGTH=8  it is'.padEnd(71) + 'X',
    'more remarks'];
  assert.deepEqual(withoutRemarks(lines), [' STORAGE OBTAIN,', '               LENGTH=8', '']);
});

test('lines wrap after blanks, and nothing is lost', () => {
  assert.deepEqual(wrapped('* one two three', 8), ['* one ', 'two ', 'three']);
  assert.deepEqual(wrapped('   LONGWORD', 5), ['   LO', 'NGWOR', 'D']);
  assert.deepEqual(wrapped('', 5), ['']);
});

test('a statement breaks before its remarks, column 72 has no row of its own, and nothing is lost', () => {
  const line = ' STORAGE OBTAIN,LENGTH=8,SP=1   three areas of 16 bytes'.padEnd(71) + 'X', remarks = 32;
  assert.deepEqual(lineRows(line, remarks, 72), { rows: [line], more: [], mark: '' });
  assert.deepEqual(lineRows(line, remarks, 60), { rows: [line.slice(0, 71)], more: [], mark: 'X' });
  const { rows, more, mark } = lineRows(line, remarks, 40);
  assert.deepEqual([rows, mark], [[' STORAGE OBTAIN,LENGTH=8,SP=1   '], 'X']);
  assert.equal(more[0].trimEnd(), 'three areas of 16 bytes');
  for (let most = 12; most < 80; most++) {
    const it = lineRows(line, remarks, most);
    assert.equal([...it.rows, ...it.more, it.mark].join(''), line);
    assert.ok(it.rows.every(row => row.trimEnd().length <= most - (it.mark && 2)));
    assert.ok(it.more.every(row => row.trimEnd().length <= most - 4));
  }
  assert.deepEqual(lineRows(' POKE P,X\'C1C2\'', 0, 12).rows, [' POKE ', 'P,X\'C1C2\'']);
  for (const most of [0, 1, 9, 20]) assert.equal(lineRows(`${line}${line}`, 0, most).rows.join(''), line + line);
  const numbered = ' BACK 0'.padEnd(72) + '00000010', comment = `* ${'word '.repeat(15)}`.trimEnd();
  assert.deepEqual(lineRows(numbered, 0, 60), { rows: [numbered.slice(0, 71)], more: [], mark: ' 00000010' });
  assert.deepEqual(lineRows(comment, 0, 60, true), { rows: wrapped(comment, 60), more: [], mark: '' });
});

test('statements to be printed', () => {
  const told = { '1-3, 8': [1, 2, 3, 8], '9-99 2': [2, 9, 10], '': [], 'x 5-3 -1 1e9': [], '99999999-99999999': [] };
  for (const [text, steps] of Object.entries(told)) assert.deepEqual(stepsIn(text, 10), steps);
});

test('a line as it’s shown', () => {
  const bytes = text => String.fromCharCode(...new TextEncoder().encode(text));
  assert.equal(shownLine(bytes('* größer')), '* größer');
  assert.equal(shownLine('* \xe4\xff'), '* \xe4\xff');
  assert.equal(shownLine('a\x07\x1bb\x7f\x80'), 'a\u2407\u241bb\u2421\ufffd');
  const long = bytes(' MAP  ä').padEnd(71) + 'X';
  assert.deepEqual([shownLine(long).length, shownLine(long).at(71)], [72, 'X']);
  assert.equal(shownLine(bytes('* \u202e')), '* \ufffd');
});

test('what is still taken, by the statement that took it', () => {
  const state = { subpools: [subpool([[0x6000, 0x2000]], [[0x6010, 8], [0x6040, 0x1fc0]])], pools: [] };
  const areas = [{ from: 0x6000, length: 0x20 }, { from: 0x6020, length: 0x20 }, null, { from: 0x6000, length: 8 }];
  assert.deepEqual(takenBy(state, [0, 1, 2, 3], areas).map(it => [it.who, it.bytes, it.areas]),
    [[1, 32, 1], [0, 16, 2], [3, 8, 1]]);
  const pools = [{ name: 'CP', extents: [[0x6000, 0x18]] }];
  assert.deepEqual(takenBy({ ...state, pools }, [0, 1, 2, 3], areas).map(it => [it.who, it.bytes]),
    [[1, 32], ['CP', 16], [0, 8]]);
});

test('the course has each area in its rows', () => {
  const rows = new CourseRows([[6, 8], [0x8000, 0x8000 + 96]]), found = [];
  assert.deepEqual([rows.size, rows.count], [3 * 4096, 33]);
  rows.spread([0x8002000, 0x2000], (row, bytes) => found.push([row, bytes]));
  rows.spread([0x6000, 0x1000], (row, bytes) => found.push([row, bytes]));
  assert.deepEqual(found, [[0, 4096], [1, 4096], [32, 4096]]);
  assert.deepEqual(rows.addressesOf(32), [0x6000, 0x7fff]);
  assert.deepEqual(bucketsOf(10, 4), [[0, 3], [3, 6], [6, 9], [9, 11]]);
});

test('who is asked about the bytes or the area of a statement, or about nothing', () => {
  const granted = "line 1: 16 bytes (X'10'), subpool 1, below the line\n  answered: RC=0 A=00006000 L=00000010\n";
  const released = "line 5: release of 32 bytes (X'20') at 00006100 from subpool 7\n  answered: RC=0\n";
  const asked = {
    [granted]: '00006000', [released]: '00006100',
    'line 3: 4 bytes stored at 00006010\n  answered: OK\n': '00006010 4',
    'line 3: 1 byte at 00006010\n  answered: D=C1\n': '00006010 1',
    'line 9: cell 00006000 back to cell pool CP\n  answered: RC=0\n': '00006000',
    'line 2: steps back: 1\n  the page of 00006000\n  answered: KEPT=1\n': '', '': ''
  };
  for (const [why, question] of Object.entries(asked)) assert.equal(whoAsked(why), question);
});

test('what check prints is read, and what is only worth a look has another look', () => {
  const rows = [
    { version: 1, command: 'check' },
    { kind: 'finding', word: 'OPERAND', line: 1, column: 17, end: 25, text: 'OPERAND: no operand', counts: true },
    { kind: 'more' },
    { kind: 'finding', word: 'UNSET', line: 3, column: 7, end: 8, text: 'UNSET: nothing ..', counts: false, took: 2 }
  ];
  const output = rows.map(it => `${JSON.stringify(it)}\n`).join('');
  assert.deepEqual(findingsIn(output), [
    { word: 'OPERAND', line: 1, column: 17, text: 'OPERAND: no operand', length: 8, look: null },
    { word: 'UNSET', line: 3, column: 7, text: 'UNSET: nothing ..', length: 1, look: 'warning' }
  ]);
  assert.deepEqual(findingsIn('{"version":1,"command":"check"}\n'), []);
  assert.deepEqual(findingsIn(''), []);
});

test('arguments are quoted for a shell', () => {
  const words = ['who', "X'6000'", 'a b.vsm', '--low', '16', ''];
  assert.equal(shell(words), "who 'X'\\''6000'\\''' 'a b.vsm' --low 16 ''");
});
