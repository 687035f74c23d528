// What trials ask of a page: what is drawn, and how it looks. It's passed to the browser as it is.
const probe = {
  /** The boxes of a path: from and to, in doublewords, and the row. */
  boxes: path => [...path.getAttribute('d').matchAll(/M([\d.]+) (\d+)H([\d.]+)/g)]
    .map(it => [+it[1], +it[2], +it[3]]),

  /** The lines of a path: the doubleword before which each is, and the row. */
  edges: path => [...path.getAttribute('d').matchAll(/M([\d.]+) (\d+)v1/g)].map(it => [+it[1], +it[2]]),

  drawing: svg => ({
    ...Object.fromEntries(
      ['taken', 'free', 'cell', 'freecell'].map(it => [it, probe.boxes(svg.querySelector(`.${it}`))])
    ),
    edges: probe.edges(svg.querySelector('.edge')),
    ofcells: probe.edges(svg.querySelector('.ofcells')),
  }),

  /** The numbers of the script's lines that are elements, and have a class. */
  lines: kind => [...document.querySelectorAll(`.line${kind} .number`)].map(it => +it.textContent),

  shown() {
    const rows = [...document.querySelectorAll('.page')].filter(row => row.querySelector('svg'));
    const lens = document.querySelector('.lens');
    return {
      lines: probe.lines(''),
      undone: probe.lines('.undone'),
      history: document.querySelector('.history').textContent,
      said: document.querySelector('.said strong')?.textContent,
      totals: document.querySelector('.bytes').textContent,
      tasks: [...document.querySelectorAll('.task.changed button')].map(it => +it.dataset.task).sort((a, b) => a - b),
      pages: Object.fromEntries(rows.map(row => [row.dataset.page, probe.drawing(row.querySelector('svg'))])),
      outlines: [...document.querySelectorAll('svg .granted:not(.below)')]
        .map(it => [it.closest('.page')?.dataset.page ?? null, it.getAttribute('d').split('M').length - 1]),
      by: [...document.querySelectorAll('.lens li')]
        .filter(it => it.querySelector('.by') && !it.textContent.includes('cell'))
        .map(it => [parseInt(it.textContent.slice(0, 8), 16), +it.querySelector('.by').textContent.slice(8)]),
      dump: [...document.querySelectorAll('.dump tr')].filter(it => !it.textContent.startsWith('before'))
        .map(it => [parseInt(it.cells[0].textContent, 16), it.cells[1].textContent.replaceAll(' ', '')]),
      chosen: document.querySelector('.page[aria-pressed=true]')?.dataset.page ?? null,
      lens: lens.hidden ? null : probe.drawing(lens.querySelector('svg')),
    };
  },

  /** What is shown at each of some steps; the slider is moved as by hand. */
  async at(steps, look = probe.shown) {
    const slider = document.querySelector('.time input'), all = [], frame = window.requestAnimationFrame;
    window.requestAnimationFrame = act => { // what is asked for is drawn at once, and nothing is painted
      queueMicrotask(act);
      return null;
    };
    for (const step of steps) {
      slider.value = step;
      slider.dispatchEvent(new Event('input'));
      await new Promise(requestAnimationFrame); // the view asked for this frame earlier, and draws first
      all.push(look());
    }
    window.requestAnimationFrame = frame;
    return all;
  },

  /** The number of dots at a step, and what of the statement and its reply can't be read in the card. */
  card() {
    const box = document.querySelector('.said').getBoundingClientRect();
    const isCut = it => {
      const { top, bottom, left, right } = it.getBoundingClientRect();
      return it.scrollHeight > it.clientHeight + 1 || it.scrollWidth > it.clientWidth + 1 ||
        top < box.top || bottom > box.bottom || left < box.left || right > box.right;
    };
    const seen = it => it.checkVisibility() && it.getClientRects().length > 0;
    return {
      dots: [...document.querySelectorAll('.changed')].filter(seen).length,
      cut: [...document.querySelectorAll('.said :is(pre, strong)')].filter(isCut).map(it => it.textContent),
    };
  },

  /** The lines of the script that are cut, or differ from the script. */
  async script(lines) {
    const box = document.querySelector('.script'), bad = new Set();
    for (let at = 0; ; at += box.clientHeight) {
      box.scrollTop = at;
      box.dispatchEvent(new Event('scroll'));
      const { right } = box.getBoundingClientRect();
      for (const line of box.querySelectorAll('.line')) {
        const number = +line.querySelector('.number').textContent;
        if (line.querySelector('.text').textContent !== lines[number - 1]) bad.add(number);
        if (line.scrollHeight > line.clientHeight + 1) bad.add(number);
        const range = document.createRange();
        range.selectNodeContents(line);
        if ([...range.getClientRects()].some(it => it.right > right + 1)) bad.add(number);
        const [text, reply] = ['.text', '.reply'].map(it => [...line.querySelectorAll(`${it} .row`)].at(-1));
        if (reply && line.classList.contains('beside')) {
          const ends = [text, reply].map(it => {
            range.selectNodeContents(it);
            return range.getBoundingClientRect();
          });
          if (ends[0].right > ends[1].left) bad.add(number);
        }
      }
      if (at + box.clientHeight >= box.scrollHeight) return [...bad];
    }
  },

  /** All places where an answer could be shown. */
  told: () => ({
    replies: [...document.querySelectorAll('.line .reply')].map(it => it.textContent)
      .filter(it => it && it !== '?'),
    said: document.querySelector('.said').innerText,
    live: document.querySelector('[aria-live]').textContent,
    value: document.querySelector('.time input').getAttribute('aria-valuetext'),
    ticks: document.querySelectorAll('.ticks:not(.curves) path').length,
    rows: document.querySelectorAll('.page').length,
    totals: document.querySelector('.bytes').textContent,
  }),

  /** The contrast of colours, the lowest first, to a ground of such: the ratio of WCAG. */
  contrast(over, ground) {
    const canvas = document.createElement('canvas').getContext('2d', { willReadFrequently: true });
    const light = layers => {
      canvas.clearRect(0, 0, 1, 1);
      for (const it of layers) {
        canvas.fillStyle = it;
        canvas.fillRect(0, 0, 1, 1);
      }
      const shares = [...canvas.getImageData(0, 0, 1, 1).data].slice(0, 3).map(it => it / 255);
      const linear = shares.map(it => it <= .04045 ? it / 12.92 : ((it + .055) / 1.055) ** 2.4);
      return .2126 * linear[0] + .7152 * linear[1] + .0722 * linear[2];
    };
    const [low, high] = [light([...ground, ...over]), light(ground)].sort((a, b) => a - b);
    return (high + .05) / (low + .05);
  },

  /** The background colours of an element, the lowest first. */
  ground(element) {
    const layers = [];
    for (let at = element; at; at = at.parentElement) layers.unshift(getComputedStyle(at).backgroundColor);
    return layers;
  },

  /** Texts and icons in an element, and the frames of some controls, whose contrast is too low. */
  pale(root, framed) {
    const pale = [], known = new Map();
    const seen = it => it.getClientRects().length && it.checkVisibility() && !it.closest('.unseen');
    const judge = (it, colour, ground, least) => {
      const key = [colour, ...ground].join();
      if (!known.has(key)) known.set(key, probe.contrast([colour], ground));
      const has = known.get(key);
      if (has < least) pale.push([it.getAttribute('class'), it.textContent.slice(0, 30), has]);
    };
    const walk = document.createTreeWalker(root, NodeFilter.SHOW_TEXT);
    while (walk.nextNode()) {
      const it = walk.currentNode.parentElement;
      if (!walk.currentNode.data.trim() || !seen(it)) continue;
      judge(it, getComputedStyle(it).color, probe.ground(it), 4.5);
    }
    for (const it of root.querySelectorAll('.icon')) {
      judge(it, getComputedStyle(it).color, probe.ground(it.parentElement), 3);
    }
    for (const it of document.querySelectorAll(framed)) {
      if (seen(it)) judge(it, getComputedStyle(it).borderTopColor, probe.ground(it.parentElement), 3);
    }
    return pale;
  },

  /** A colour as the screen has it: red, green, blue. */
  screenColour(colour) {
    const canvas = document.createElement('canvas').getContext('2d', { willReadFrequently: true });
    canvas.fillStyle = colour;
    canvas.fillRect(0, 0, 1, 1);
    return [...canvas.getImageData(0, 0, 1, 1).data].slice(0, 3);
  },

  /** The box of a page's strip, which is brought into sight, and the colours of taken and of free; null if it can't be
      seen. */
  strip(number) {
    const it = document.querySelector(`.page[data-page="${number}"] svg.strip`);
    if (it && !probe.inSight(it)) it.scrollIntoView({ block: 'center' });
    if (!it?.checkVisibility() || !probe.inSight(it)) return null;
    const { left, top, width, height } = it.getBoundingClientRect();
    const colours = ['.taken', '.free'].map(kind => probe.screenColour(getComputedStyle(it.querySelector(kind)).fill));
    return [[left + scrollX, top + scrollY, width, height], ...colours];
  },

  /** Whether all of an element is in sight: in the window, and in each box that cuts it. */
  inSight(element) {
    const { left, top, right, bottom } = element.getBoundingClientRect();
    let [a, b, c, d] = [0, 0, innerWidth, innerHeight];
    for (let at = element.parentElement; at; at = at.parentElement) {
      if (getComputedStyle(at).overflow === 'visible') continue;
      const box = at.getBoundingClientRect();
      [a, b, c, d] = [Math.max(a, box.left), Math.max(b, box.top), Math.min(c, box.right), Math.min(d, box.bottom)];
    }
    return right > left && bottom > top && left >= a - 1 && top >= b - 1 && right <= c + 1 && bottom <= d + 1;
  },

  /** What of a step is in sight: the answer, the drawing of the chosen page (null if there is none), and what the
      statement changed, whose text this has too. */
  sight() {
    const of = part => {
      const it = document.querySelector(part);
      return it && it.checkVisibility() ? probe.inSight(it) : null;
    };
    return {
      answer: of('.said strong'), lens: of('.lens svg'), what: of('.said .what'),
      text: document.querySelector('.said .what')?.textContent ?? '',
    };
  },

  /** What is still taken, by line: texts and bytes. */
  taken: () => Object.fromEntries([...document.querySelectorAll('.by-line tr')].filter(it => it.querySelector('td'))
    .map(it => [it.cells[0].textContent, +it.cells[1].textContent.replaceAll(',', '')])),

  /** The cells of cell pools: in use, free, and next ones; and how many of their groups aren't in window.before, of how
      many. */
  cells() {
    const boxes = kind => [...document.querySelectorAll(`.extent path[class="${kind}"]`)]
      .reduce((sum, it) => sum + it.getAttribute('d').split('M').length - 1, 0);
    const groups = [...document.querySelectorAll('.extent g')];
    return [boxes('cell'), boxes('freecell'), boxes('freecell next'),
      groups.filter(it => !window.before?.has(it)).length, groups.length];
  },

  /** The curves: what each path reaches, as a share of the drawing's height, and the texts of what they reach. */
  curves: () => ({
    most: Object.fromEntries([...document.querySelectorAll('.curves path')].map(it =>
      [it.getAttribute('class'), 1 - Math.min(...[...it.getAttribute('d').matchAll(/(?:M[\d.]+ |V)([\d.]+)/g)]
        .map(one => +one[1]))])),
    texts: Object.fromEntries([...document.querySelectorAll('.reach span')].map(it => [it.className, it.textContent])),
  }),

  /** The colours of the course's picture at shares of its width, each from the first row to the last; alpha is last. */
  course(places) {
    const canvas = document.querySelector('.course canvas'), copy = canvas.cloneNode();
    const pen = copy.getContext('2d', { willReadFrequently: true });
    pen.drawImage(canvas, 0, 0);
    return places.map(it => {
      const x = Math.min(canvas.width - 1, Math.max(0, Math.round(it * canvas.width)));
      const { data } = pen.getImageData(x, 0, 1, canvas.height);
      return Array.from({ length: canvas.height }, (_, k) => [...data.slice(4 * k, 4 * k + 4)]);
    });
  },

  /** The colours of the subpools, by number, as the rows have them. */
  palette: () => [0, 1, 2, 3, 4, 5, 6, 7].map(k => {
    const it = document.querySelector('.run').appendChild(document.createElement('i'));
    it.style.color = `var(--c${k})`;
    const found = probe.screenColour(getComputedStyle(it).color);
    it.remove();
    return found;
  }),

  /** The pictures of control bytes in the script: the text of each, and its width in letters. */
  controls() {
    const range = document.createRange();
    return [...document.querySelectorAll('.line .control')].map(it => {
      range.selectNodeContents(it.closest('.line').querySelector('.number').firstChild);
      const letter = range.getBoundingClientRect().width / range.toString().length;
      return [it.textContent, Math.round(100 * it.getBoundingClientRect().width / letter) / 100];
    });
  },

  /** The lines of the script: number, rows of the text, its mark in column 72 and where that ends, and its reply. */
  async column() {
    const box = document.querySelector('.script'), found = new Map();
    for (let at = 0; ; at += box.clientHeight) {
      box.scrollTop = at;
      box.dispatchEvent(new Event('scroll'));
      for (const line of box.querySelectorAll('.line')) {
        const mark = line.querySelector('.mark'), rows = [...line.querySelectorAll('.text .row')];
        found.set(+line.querySelector('.number').textContent, [
          rows.map(it => it.textContent), mark?.textContent ?? '', mark?.getBoundingClientRect().right ?? 0,
          line.querySelector('.reply').textContent,
        ]);
      }
      if (at + box.clientHeight >= box.scrollHeight) return [...found].sort((a, b) => a[0] - b[0]);
    }
  },

  /** In forced colours: how the parts of a page are filled, and whether chosen things are framed. */
  forced() {
    const of = (part, what) => {
      const it = document.querySelector(part);
      return it && getComputedStyle(it)[what];
    };
    return {
      fills: ['taken', 'free', 'cell', 'freecell'].map(it => of(`.strip .${it}`, 'fill')),
      now: of('.now', 'outlineStyle'),
      page: of('.page[aria-pressed=true]', 'outlineStyle'),
    };
  },

  /** What moves by itself. */
  moving: () => [...document.querySelectorAll('.run *')]
    .filter(it => parseFloat(getComputedStyle(it).transitionDuration) > 0).length,

  /** Which of these are visible. */
  visible: parts => parts.filter(it => document.querySelector(it).checkVisibility()),

  /** The elements whose letters don't grow when the browser's own become twice as large. */
  letters() {
    const shown = [...document.body.querySelectorAll('*')]
      .filter(it => it.checkVisibility() && (it.textContent.trim() || it.matches('textarea, input[inputmode]')));
    const sizes = () => shown.map(it => parseFloat(getComputedStyle(it).fontSize)), before = sizes();
    document.documentElement.style.fontSize = '200%';
    const after = sizes();
    document.documentElement.style.fontSize = '';
    return [...new Set(shown.filter((_, k) => after[k] < 1.9 * before[k]).map(it => it.className || it.localName))];
  },

  /** The elements with more than they show, vertically. */
  cut: () => [...document.querySelectorAll('.columns, .storage, .side, .said, .regions')]
    .filter(it => it.scrollHeight > it.clientHeight + 2 && getComputedStyle(it).overflowY !== 'visible')
    .map(it => it.className),

  /** The elements that the end of a printed page may cut. */
  torn: () => [...document.querySelectorAll('.panel, .said, .lens, .region .page')]
    .filter(it => it.checkVisibility() && getComputedStyle(it).breakInside !== 'avoid').map(it => it.className),

  /** How wide the page is, and what can be scrolled sideways. */
  wide: () => [document.documentElement.scrollWidth, ...[...document.querySelectorAll('.storage, .side')]
    .filter(it => it.scrollWidth > it.clientWidth).map(it => it.className)],

  /** The number of the script's line that a screen reader reads out. */
  active() {
    const id = document.querySelector('.script').getAttribute('aria-activedescendant');
    return +document.getElementById(id).querySelector('.number').textContent;
  },
};
