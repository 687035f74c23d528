// The keyboard.

const isOther = target => target.closest?.('textarea, select, [contenteditable], input:not([type=range])');

const SCROLLING = ['PageUp', 'PageDown', 'Home', 'End', ' '];

/** Whether the page or the view's container scrolls: then the scrolling keys are the browser's. */
const isScrolled = container =>
  [document.documentElement, container].some(it => it.scrollHeight > it.clientHeight + 1 &&
    (it === document.documentElement || getComputedStyle(it).overflowY !== 'visible'));

/** Handles a key if the focus is in the view, or nowhere. */
export function keysOf(view) {
  const inScript = event => event.target === view.script.element;
  function upDown(event, by) {
    if (inScript(event)) view.go(view.step + by);
    else if (event.target.classList?.contains('page')) view.regions.move(event.target, by);
    else return false;
    return true;
  }
  const acts = {
    ArrowLeft: event => view.go(view.step - (event.shiftKey ? 10 : 1)),
    ArrowRight: event => view.go(view.step + (event.shiftKey ? 10 : 1)),
    ArrowUp: event => upDown(event, -1),
    ArrowDown: event => upDown(event, 1),
    PageUp: () => view.go(view.step - 100),
    PageDown: () => view.go(view.step + 100),
    Home: () => view.go(0),
    End: () => view.go(view.run.steps),
    '[': () => view.seek(-1),
    ']': () => view.seek(1),
    ' ': event => event.target.closest?.('button') ? false : view.play(),
    Enter: event => event.target.closest?.('button') ? false : view.ask(),
    t: () => view.turnTeaching(),
    T: () => view.turnTeaching(),
    '?': () => view.help(),
    '/': () => view.find(),
  };
  return event => {
    const { target } = event;
    const here =
      target === document.body || target === document.documentElement || view.container.contains(target);
    // Some keyboards need AltGr for [ and ], and it's reported as Ctrl and Alt too.
    const isPlain = event.getModifierState('AltGraph') || !(event.ctrlKey || event.altKey || event.metaKey);
    if (!here || !isPlain || view.dialog.open || view.asking.open || view.saving.open || isOther(target)) return;
    if (SCROLLING.includes(event.key) && isScrolled(view.container) && target.type !== 'range') return;
    if (event.key.length === 1 && event.key !== ' ' && !view.hasLetters) return;
    if (acts[event.key] && acts[event.key](event) !== false) event.preventDefault();
  };
}
