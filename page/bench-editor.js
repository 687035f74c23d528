// The editor: a text field, with the numbers of its lines before it and their replies after it; the present statement
// and faults are marked.
import { make } from './elements.js';

const ABOVE = 10, LEFT = 8; // pixels above the first line and before each, as in bench.css
const LARGE = 10_000; // characters of a text that may make the script too long

function linesIn(text) {
  let count = 1;
  for (let at = text.indexOf('\n'); at >= 0; at = text.indexOf('\n', at + 1)) count++;
  return count;
}

/** `edited` is called at each edit, and calls `show`; `chosen` with the line whose reply is clicked; `refused` with
    what a large paste would make of the script: it says whether that's refused. */
export function editorOf(parts, edited, chosen, refused) {
  const { area, numbers, replies, now, caret, marks } = parts;
  const lineHeight = () => parseFloat(getComputedStyle(area).lineHeight);
  const none = () => undefined;
  let count = 1, told = none, present = [0, 0], faults = [];

  /** Draws what is next to the lines in sight, and no others. */
  function drawBeside() {
    const line = lineHeight();
    const first = Math.floor(area.scrollTop / line), seen = Math.ceil(area.clientHeight / line) + 1;
    const shown = Array.from({ length: Math.max(0, Math.min(seen, count - first)) }, (_, k) => first + k + 1);
    numbers.replaceChildren(...shown.map(it => make('div', {}, String(it))));
    replies.replaceChildren(...shown.map(it => {
      const { reply = ' ', kind = '' } = told(it) ?? {};
      const act = () => told(it) && chosen(it);
      return make('div', { class: kind, title: reply, 'data-line': it, onclick: act }, reply);
    }));
    const top = number => ABOVE + (number - 1) * line - area.scrollTop;
    marks.replaceChildren(...faults.filter(it => shown.includes(it.line)).map(it => make('div', {
      class: it.look,
      style: `top:${top(it.line)}px;left:calc(${LEFT - area.scrollLeft}px + ${it.column - 1}ch);width:${it.length}ch`
    })));
    for (const it of [numbers, replies]) it.style.transform = `translateY(${first * line - area.scrollTop}px)`;
    const [from, to] = present;
    now.hidden = !from || to > count;
    now.style.top = `${top(from)}px`;
    now.style.height = `${(to - from + 1) * line}px`;
  }
  function drawCaret() {
    const before = area.value.slice(0, area.selectionStart);
    caret.textContent = `line ${linesIn(before)}, column ${before.length - before.lastIndexOf('\n')}`;
  }
  area.addEventListener('input', () => {
    count = linesIn(area.value);
    edited();
    drawCaret();
  });
  /** A large text that is pasted or dropped is judged before the field has to hold it. */
  function judge(event, data) {
    const added = data?.getData('text/plain') ?? '', { value, selectionStart, selectionEnd } = area;
    if (added.length < LARGE) return;
    const text = value.slice(0, selectionStart) + added.replaceAll('\r\n', '\n') + value.slice(selectionEnd);
    if (refused(text)) event.preventDefault();
  }
  area.addEventListener('paste', event => judge(event, event.clipboardData));
  area.addEventListener('drop', event => judge(event, event.dataTransfer));
  area.addEventListener('scroll', drawBeside);
  document.addEventListener('selectionchange', () => document.activeElement === area && drawCaret());
  new ResizeObserver(drawBeside).observe(area);
  return {
    get text() {
      return area.value;
    },
    set text(text) {
      area.value = text;
      area.scrollTop = 0;
      area.setSelectionRange(0, 0);
      told = none;
      present = [0, 0];
      faults = [];
      count = linesIn(area.value);
      drawBeside();
      drawCaret();
    },
    /** Shows replies, by a function of the line, and marks faults and the lines of the present statement; these are
        scrolled to if they have moved. */
    show(replyAt, [from, to], found) {
      const isMoved = from !== present[0];
      told = replyAt;
      present = [from, to];
      faults = found;
      const line = lineHeight(), top = (from - 1) * line, bottom = to * line + 2 * ABOVE;
      if (from && isMoved && (top < area.scrollTop || bottom > area.scrollTop + area.clientHeight))
        area.scrollTop = Math.max(0, top - area.clientHeight / 3);
      drawBeside();
    },
    /** Scrolls to a line. */
    reveal(line) {
      area.scrollTop = Math.max(0, (line - 1) * lineHeight() - area.clientHeight / 3);
    },
    /** Selects what is at a place. */
    select({ line, column, length }) {
      const from = area.value.split('\n', line - 1).reduce((sum, it) => sum + it.length + 1, column - 1);
      area.focus();
      area.setSelectionRange(from, from + length);
      area.scrollTop = Math.max(0, (line - 1) * lineHeight() - area.clientHeight / 3);
    },
  };
}
