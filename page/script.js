// The script, line by line, with the reply after each statement's last line. Lines are wrapped, so that nothing is cut;
// only those in sight are elements.
import { make } from './elements.js';
import { withoutRemarks } from './remarks.js';
import { kindOf } from './replies.js';
import { inColumns, shownLine } from './shown.js';

const BEYOND = 8, GAP = 2; // lines beyond those in sight; characters between a statement and its reply
const COLUMN_72 = 71, INDENT = 4; // the place of column 72; the columns before remarks in a row of their own

/** A text in rows of at most `wide` characters, but at least one, broken after a blank if there is one. */
export function wrapped(text, wide) {
  const rows = [], most = Math.max(1, wide);
  for (let from = 0; from < text.length || !rows.length;) {
    const blank = text.length - from > most ? text.lastIndexOf(' ', from + most - 1) : -1;
    const isIndent = blank < from || !text.slice(from, blank).trim();
    const end = isIndent ? Math.min(from + most, text.length) : blank + 1;
    rows.push(text.slice(from, end));
    from = end;
  }
  return rows;
}

/** A line in rows that fit: a statement's operands; its remarks, which begin at a place, or at 0 if it has none; and if
    the line is too long for one row, what it has from column 72 on, for the right of the first row. In a comment that
    may be a part of a word: then it isn't apart. */
export function lineRows(line, remarks, most, isComment = false) {
  if (line.length <= most) return { rows: [line], more: [], mark: '' };
  const isShort = 2 * (line.length - COLUMN_72) < most; // what has to fit next to the rest
  const isApart = isShort && (!isComment || line[COLUMN_72 - 1] === ' ');
  const text = isApart ? line.slice(0, COLUMN_72) : line;
  const mark = line.slice(text.length), width = most - (mark && mark.length + 1);
  const from = remarks && remarks < text.trimEnd().length ? remarks : text.length;
  const rowsOf = (part, wide) => {
    const end = part.trimEnd(), rows = wrapped(end, wide);
    rows.push(rows.pop() + part.slice(end.length)); // blanks at the end take no row
    return rows;
  };
  const isWhole = text.trimEnd().length <= width, more = isWhole ? '' : text.slice(from);
  const rows = rowsOf(isWhole ? text : text.slice(0, from), width);
  return { rows, more: more ? rowsOf(more, most - INDENT) : [], mark };
}

export function scriptPart(view) {
  const { run } = view, id = `${view.id}-line-`, ruler = document.createElement('canvas').getContext('2d');
  const digits = String(run.lines.length).length;
  let layout = { key: '', tops: [0], most: 80, row: 20 };
  const box = make('section', {
    class: 'script',
    tabindex: 0,
    role: 'listbox',
    'aria-label': 'Script',
    style: `--digits:${digits}`,
    onscroll: () => drawLines()
  });

  /** The reply at the step of a line, and its kind. */
  function replyOf(step) {
    if (step === undefined) return ['', ''];
    if (step > view.told) return ['?', 'asked'];
    const { reply } = run.statement(step);
    return [reply, kindOf(reply)];
  }
  /** By the last line of each statement, its step. */
  const endOf = new Map([...run.atLine.values()].map(step => [run.linesOf(step)[1], step]));
  /** Where a line's remarks begin; 0 if it has none, or is a comment. */
  function remarksOf(number, text) {
    const step = run.stepAt(number);
    if (step === undefined) return 0;
    const [first, last] = run.linesOf(step), lines = run.lines.slice(first - 1, last);
    const end = shownLine(withoutRemarks(lines)[number - first]).length;
    return end + /^ */.exec(text.slice(end))[0].length;
  }
  /** A line in rows, and its reply in rows; a reply may be next to the line's last row. */
  function rowsOf(number, most) {
    const [reply] = replyOf(endOf.get(number)), line = shownLine(view.textOfLine(number).trimEnd());
    const isLong = line.length > most, isComment = isLong && run.stepAt(number) === undefined;
    const text = lineRows(line, isLong && !isComment ? remarksOf(number, line) : 0, most, isComment);
    const replies = reply ? wrapped(reply, most) : [], count = text.rows.length + text.more.length;
    const last = (text.more.at(-1) ?? text.rows.at(-1)).trimEnd().length + (text.more.length && INDENT);
    const taken = count === 1 && text.mark ? most : last;
    const isBeside = replies.length === 1 && taken + GAP + reply.length <= most;
    return { ...text, replies, isBeside, count: count + (isBeside ? 0 : replies.length) };
  }
  /** The tops of the lines, in pixels; computed again if the width or the shown answers have changed. */
  function lay() {
    const style = getComputedStyle(box), row = Math.round(1.6 * parseFloat(style.fontSize));
    const key = [box.clientWidth, style.font, view.told, view.teaching].join();
    if (layout.key === key) return;
    ruler.font = style.font;
    const wide = ruler.measureText('0'.repeat(100)).width / 100;
    const most = Math.max(12, Math.floor((box.clientWidth - 28) / wide) - digits - 1), tops = [0];
    for (let number = 1; number <= run.lines.length; number++)
      tops.push(tops.at(-1) + rowsOf(number, most).count * row);
    layout = { key, tops, most, row };
  }
  /** The number of the line at a height. */
  function lineAt(height) {
    let low = 0, high = run.lines.length;
    while (low + 1 < high) {
      const mid = (low + high) >> 1;
      if (layout.tops[mid] <= height) low = mid;
      else high = mid;
    }
    return low + 1;
  }
  /** A row of a line; blanks at its end that don't fit aren't shown. */
  function rowElement(text, most, kind = 'row') {
    const over = text.length > most ? text.slice(most) : '';
    const rest = over && make('span', { hidden: true }, over);
    return make('span', { class: kind }, ...inColumns(text.slice(0, most)), rest);
  }
  function textElement(name, { rows, more, mark }) {
    const { most } = layout, width = most - (mark && mark.length + 1);
    return make(
      name, { class: 'text' }, ...rows.map(it => rowElement(it, width)),
      ...more.map(it => rowElement(it, most - INDENT, 'row remarks')),
      mark && make('span', { class: 'mark' }, ...inColumns(mark))
    );
  }
  function lineOf(number, from, to) {
    const step = run.stepAt(number), kind = replyOf(endOf.get(number))[1];
    const undone = view.moment.undone.has(run.atLine.get(number));
    const text = rowsOf(number, layout.most), { replies, isBeside } = text, { tops, row } = layout;
    const begins = step > 0;
    const marks = [
      'line', begins && 'begins', number >= from && number <= to && 'now',
      view.step && number > to && 'later', undone && 'undone', run.lines[number - 1][0] === '*' && 'comment',
      isBeside && 'beside', number === found && 'found'
    ];
    return make(
      'div', {
        class: marks.filter(Boolean).join(' '),
        style: `top:${tops[number - 1]}px;height:${tops[number] - tops[number - 1]}px;line-height:${row}px`,
        role: 'option',
        id: id + number,
        'aria-selected': String(number === from),
        'aria-posinset': number,
        'aria-setsize': run.lines.length,
        onclick: begins ? () => view.go(step) : null
      },
      make('span', { class: 'number' }, String(number)),
      undone ? make('span', { class: 'unseen' }, 'undone:') : null,
      textElement(undone ? 'del' : 'span', text),
      make('span', { class: `reply ${kind}` }, ...replies.map(it => make('span', { class: 'row' }, it)))
    );
  }
  function drawLines() {
    lay();
    const first = Math.max(1, lineAt(box.scrollTop) - BEYOND);
    const end = Math.min(run.lines.length, lineAt(box.scrollTop + box.clientHeight) + BEYOND);
    const [from, to] = view.step ? run.linesOf(view.step) : [0, 0];
    const numbers = new Set(Array.from({ length: end - first + 1 }, (_, k) => first + k));
    if (from) numbers.add(from); // it's the active one, in sight or not
    box.replaceChildren(
      make('div', { class: 'whole', role: 'presentation', style: `height:${layout.tops.at(-1)}px` }),
      ...[...numbers].map(it => lineOf(it, from, to))
    );
    if (from) box.setAttribute('aria-activedescendant', id + from);
    else box.removeAttribute('aria-activedescendant');
  }
  let found = 0; // the line that was looked up
  function reveal(line) {
    found = line;
    lay();
    box.scrollTop = Math.max(0, layout.tops[line - 1] - box.clientHeight / 3);
    drawLines();
  }
  function draw() {
    lay();
    const [from, to] = view.step ? run.linesOf(view.step) : [1, 1];
    const top = layout.tops[from - 1], bottom = layout.tops[to];
    if (!box.firstChild) drawLines();
    if (top < box.scrollTop || bottom > box.scrollTop + box.clientHeight)
      box.scrollTop = Math.max(0, top - box.clientHeight / 3);
    drawLines();
  }
  return { element: box, draw, reveal, resize: drawLines };
}
