// The head of the page: the run, the present statement, and how to move: ticks, slider and buttons.
import { bucketsOf, coursePart } from './course.js';
import { count, grouped, icon, make } from './elements.js';
import { findPart } from './find.js';
import { PAGE } from './map.js';
import { kindOf } from './replies.js';

const MOST_TICKS = 600, MOST_POINTS = 600;
// A tick's begin and length, by kind.
const SHAPES = { step: '0v.45', four: '.5v.5', finding: '.25v.5', refused: '0v1' };
const ICONS = {
  first: 'M4 3v10M12.5 3l-5 5 5 5',
  back: 'M10.5 3l-5 5 5 5',
  play: 'M4.5 2.5 13 8l-8.5 5.5z',
  stop: 'M4 3h3v10H4zM9.5 3h3v10h-3z',
  on: 'M5.5 3l5 5-5 5',
  last: 'M12 3v10M3.5 3l5 5-5 5',
};

/** Marks over the slider: refused, return code 4, steps, and what check found. In a long script a mark is for several
    statements, and is the paler the fewer of them are of its kind. */
function ticksOf({ run, told, findings, teaching }) {
  const svg = make('svg', {
    class: 'ticks',
    preserveAspectRatio: 'none',
    viewBox: `0 0 ${Math.max(1, run.steps)} 1`,
    'aria-hidden': 'true'
  });
  const each = Math.max(1, Math.ceil(run.steps / MOST_TICKS));
  for (let first = 1; first <= told; first += each) {
    const steps = Array.from({ length: Math.min(each, told + 1 - first) }, (_, k) => first + k);
    const kinds = steps.map(it => kindOf(run.statement(it).reply));
    if (!teaching) kinds.push(...steps.filter(it => findings.has(it)).map(() => 'finding'));
    for (const [kind, shape] of Object.entries(SHAPES)) {
      const found = kinds.filter(it => it === kind).length;
      if (found)
        svg.append(make('path', {
          class: kind,
          d: `M${first - .5 + (each - 1) / 2} ${shape}`,
          'stroke-opacity': Math.max(.25, found / steps.length).toFixed(2)
        }));
    }
  }
  return svg;
}

const HEIGHT = .94; // of the curves' greatest value, as a share of the drawing

/** A line in steps, each half a step before and after its statement: the greatest value of each bucket, and if they
    differ a spike to the least. */
function stepped(buckets, steps, whole) {
  const heightOf = value => +(1 - HEIGHT * value / whole).toFixed(5);
  return buckets.map(({ from, to, most, least }, k) => {
    const [begin, end] = [from, to].map(it => Math.max(0, Math.min(steps, it - .5))), mid = (begin + end) / 2;
    const spike = most === least ? '' : `H${mid}V${heightOf(least)}V${heightOf(most)}`;
    return `${k ? `V${heightOf(most)}` : `M${begin} ${heightOf(most)}`}${spike}H${to > steps ? steps : end}`;
  }).join('');
}

/** Of each bucket of the steps up to one, the greatest and the least value. */
function extremes(told, valueAt) {
  return bucketsOf(told, MOST_POINTS).map(([from, to]) => {
    let most = -Infinity, least = Infinity;
    for (let step = from; step < to; step++) {
      const value = valueAt(step);
      most = Math.max(most, value);
      least = Math.min(least, value);
    }
    return { from, to, most, least };
  });
}

const CURVES = ['taken', 'low', 'high', 'largest'];

/** Curves over the slider, as far as answers are shown, all on one scale, in bytes: those taken (filled), those of the
    pages below and above the 16 MB line, and, once it's known, the largest free area; and what each reaches. */
function curvesOf(run, told) {
  const svg = make('svg', {
    class: 'ticks curves', preserveAspectRatio: 'none', viewBox: `0 0 ${Math.max(1, run.steps)} 1`,
      'aria-hidden': 'true'
  });
  const kinds = CURVES.slice(0, run.largest.length > run.steps ? 4 : 3);
  const curves = new Map(kinds.map(kind =>
    [kind, extremes(told, step => kind === 'largest' ? run.largest[step] : run.totalsAt(step)[kind])]));
  const reached = Object.fromEntries(kinds.map(kind => [kind, Math.max(...curves.get(kind).map(it => it.most))]));
  const whole = Math.max(1, ...Object.values(reached));
  for (const kind of kinds) {
    const line = stepped(curves.get(kind), run.steps, whole);
    svg.append(make('path', { class: kind, d: kind === 'taken' ? `${line}V1H0Z` : line }));
  }
  return { svg, reached };
}

/** What the curves reach, which is also their legend. */
function reachOf({ taken, low, high, largest }) {
  const told = [['taken', `${count(taken, 'byte')} taken`], ['low', `${count(low / PAGE, 'page')} below`]];
  if (high) told.push(['high', `${count(high / PAGE, 'page')} above`]);
  if (largest !== undefined) told.push(['largest', `${grouped(largest)} free in one`]);
  const title = 'The most that each curve reaches: bytes taken (filled), pages below (line) and above the 16 MB line ' +
    '(dashes), bytes of the largest free area (dots)';
  return make('div', { class: 'reach', title }, ...told.map(([kind, text]) => make('span', { class: kind }, text)));
}

const button = (name, label, act, inner = icon(ICONS[name], name === 'play')) =>
  make('button', { type: 'button', class: name, 'aria-label': label, title: label, onclick: act }, inner);

export function transportPart(view) {
  const { run } = view;
  const where = make('output', { class: 'where' });
  const play = button('play', 'Play or stop (space)', view.play);
  const slider = make('input', {
    type: 'range',
    min: 0,
    max: run.steps,
    value: 0,
    'aria-label': 'Statement',
    oninput: () => view.go(+slider.value)
  });
  const teacher = make(
    'button', {
      type: 'button',
      role: 'switch',
      class: 'teacher',
      'aria-checked': 'false',
      title: 'Answers stay hidden until they’re asked for (T)',
      onclick: () => view.teach()
    },
    'Teacher’s mode'
  );
  let ticks = make('svg', { class: 'ticks' }), curves = make('svg', { class: 'ticks curves' }), drawn = [];
  let reach = make('div', { class: 'reach' });
  const course = coursePart(view, drawCurves), find = findPart(view);
  const element = make(
    'header', {},
    make(
      'div', { class: 'bar' }, make('h1', {}, run.name),
      make('span', { class: 'muted options' }, run.options.join(' ')), where,
      make(
        'span', { class: 'buttons' }, button('first', 'To the start (Home)', () => view.go(0)),
        button('back', 'Previous statement (left arrow)', () => view.go(view.step - 1)), play,
        button('on', 'Next statement (right arrow)', () => view.go(view.step + 1)),
        button('last', 'To the end (End)', () => view.go(run.steps))
      ),
      find.element, teacher, button('save', 'Pictures and handouts', () => view.saving.showModal(), 'Save…'),
      button('help', 'Help (?)', view.help, '?')
    ),
    make('div', { class: 'time' }, reach, curves, course.element, ticks, slider)
  );

  function drawCurves() {
    const { svg, reached } = curvesOf(run, view.told), told = reachOf(reached);
    curves.replaceWith(svg);
    reach.replaceWith(told);
    [curves, reach] = [svg, told];
  }

  function draw() {
    const statement = view.step && run.statement(view.step), told = view.told;
    where.textContent = statement
      ? `${grouped(view.step)} of ${grouped(run.steps)}, line ${grouped(statement.line)}`
      : `0 of ${grouped(run.steps)}`;
    slider.value = view.step;
    const answer = view.step <= told ? statement.reply : 'answer hidden';
    slider.setAttribute(
      'aria-valuetext',
      statement ? `statement ${view.step} of ${run.steps}: ${answer}` : 'before the first statement'
    );
    play.setAttribute('aria-pressed', String(view.playing));
    play.replaceChildren(icon(view.playing ? ICONS.stop : ICONS.play, true));
    teacher.setAttribute('aria-checked', String(view.teaching));
    course.draw();
    const key = [told, view.findings, view.teaching];
    if (key.every((it, k) => it === drawn[k])) return;
    drawn = key;
    const fresh = ticksOf(view);
    ticks.replaceWith(fresh);
    ticks = fresh;
    drawCurves();
  }
  return { element, draw, close: course.close, find: find.focus };
}
