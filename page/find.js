// Finding a text in the script, and going to a line.
import { make } from './elements.js';

/** The next line after one, or before it, for which something holds; around the end if need be. */
export function nextLine(lines, from, by, holds) {
  for (let k = 1; k <= lines; k++) {
    const line = ((from - 1 + by * k) % lines + lines) % lines + 1;
    if (holds(line)) return line;
  }
  return undefined;
}

export function findPart(view) {
  const { run } = view;
  let last = 0;
  const field = make('input', {
    type: 'search', class: 'find', placeholder: 'find, or a line', 'aria-label': 'Find in the script, or go to a line',
    title: 'A text or the number of a line; Enter goes to the next, Shift+Enter to the one before (/)'
  });
  function find(by) {
    const asked = field.value.trim().toLowerCase(), number = /^\d+$/.test(asked) ? Number(asked) : 0;
    if (!asked) return;
    const holds = line => view.textOfLine(line).toLowerCase().includes(asked);
    const line = number >= 1 && number <= run.lines.length ? number : nextLine(run.lines.length, last, by, holds);
    field.setAttribute('aria-invalid', String(line === undefined));
    if (line === undefined) return;
    last = line;
    view.toLine(line);
  }
  field.oninput = () => {
    last = view.step ? run.linesOf(view.step)[0] - 1 : 0;
    field.removeAttribute('aria-invalid');
  };
  field.onkeydown = event => {
    if (event.key === 'Escape') field.blur();
    if (event.key !== 'Enter' || event.ctrlKey || event.metaKey) return;
    event.preventDefault();
    find(event.shiftKey ? -1 : 1);
  };
  return { element: field, focus: () => field.focus() };
}
