'use strict';
(function () {
  const run = JSON.parse(document.getElementById('run').textContent);
  const { owners, edges, cells } = run.device;
  const steps = run.steps;
  const count = steps.length;
  const byId = (id) => document.getElementById(id);

  // Elements

  const drawing = byId('device').namespaceURI;

  function element(parent, name, members, text) {
    const made = document.createElement(name);
    return filled(parent, made, members, text);
  }

  function shape(parent, name, members, text) {
    const made = document.createElementNS(drawing, name);
    return filled(parent, made, members, text);
  }

  function filled(parent, made, members, text) {
    for (const [key, value] of Object.entries(members || {})) made.setAttribute(key, value);
    if (text !== undefined) made.textContent = text;
    if (parent) parent.appendChild(made);
    return made;
  }

  function emptied(parent) {
    while (parent.firstChild) parent.removeChild(parent.firstChild);
    return parent;
  }

  // The run after so many steps. A step only says what it changes, so going back begins at the start.

  let state = fresh();

  function fresh() {
    return {
      step: 0,
      held: owners.map(() => ({ job: 0, slot: null })),
      jobs: run.jobs.map((job) => ({ next: job.next, returns: Boolean(job.next_returns), call: null, slots: [] })),
      put: [],
      gone: [],
      changed: [],
    };
  }

  function advance(to) {
    const step = steps[to.step];
    const job = to.jobs[step.job - 1];
    to.step += 1;
    [to.put, to.gone, to.changed] = [[], [], []];
    for (const [location, owner, slot] of step.changes || []) {
      const before = to.held[location];
      if (!before.job && owner) to.put.push(location);
      if (before.job && !owner) to.gone.push({ location, job: before.job });
      to.held[location] = { job: owner, slot };
    }
    for (const [slot, holds] of step.slots || []) {
      job.slots[slot] = holds;
      to.changed.push(slot);
    }
    if ('next' in step) [job.next, job.returns] = [step.next, Boolean(step.next_returns)];
    if ('call' in step) job.call = step.call;
  }

  function go(wanted) {
    const to = Math.max(0, Math.min(count, wanted));
    if (to < state.step) state = fresh();
    while (state.step < to) advance(state);
    show();
  }

  // What is known of a step

  const current = () => steps[state.step - 1];
  const textOf = (job, line) => run.jobs[job - 1].lines[line - 1].trim();
  const routeOf = (step) => ('route' in step ? run.routes[step.route] : []);
  const isMerge = (step) => 'route' in step;
  const plural = (n, what) => `${n} ${what}${n === 1 ? '' : 's'}`;

  function statement(step) {
    if (step.told === 'finished') return '';
    return (step.returns ? 'return of ' : '') + textOf(step.job, step.line);
  }

  function happened(step, after) {
    const text = step.told === 'finished' ? '' : textOf(step.job, step.line);
    const [kind, first] = text.split(' ');
    const job = after.jobs[step.job - 1];
    if (step.told === 'finished') return 'nothing is left to do';
    if (step.told === 'stuck') return run.jobs[step.job - 1].stuck.found;
    if (step.returns) return `moved: back to line ${step.line}`;
    if (isMerge(step)) return `moved along ${joined(routeOf(step))} (${plural(step.edges, 'edge')})`;
    if (after.put.length) return `moved: a qubit is put down at location ${after.put[0]}`;
    if (after.gone.length) return `moved: location ${after.gone[0].location} is free again`;
    if ('at' in step) return `moved: the qubit at location ${step.at}`;
    if (kind === 'if') return `moved: slot ${first} is ${Number(step.guard)}, so the ${step.guard ? 'first' : 'second'} block`;
    if (kind === 'while') return `moved: slot ${first} holds ${Number(step.guard)}, so ${step.guard ? 'the block' : 'the loop is over'}`;
    if (kind === 'call' && job.call !== null) return `moved into function ${first}${parameters(run.calls[job.call])}`;
    return 'moved';
  }

  /** The locations of a route, without the middle of a long one. */
  function joined(route) {
    return route.length <= 40 ? route.join('-') : [...route.slice(0, 20), ' .. ', ...route.slice(-10)].join('-');
  }

  function parameters(call) {
    if (!call.locations.length) return '';
    return `: its parameters are locations ${call.locations.join(' ')}`;
  }

  /** A step in words, as [class, text]. */
  function words() {
    if (!state.step) {
      const follow = count ? `${plural(count, 'step')} to come.` : 'This run has no steps.';
      return { head: [['', 'The start']], more: [['', `${follow} Nothing is on the device.`]] };
    }
    const step = current();
    const head = [['', `Step ${state.step} of ${count}`], [`of${step.job}`, `${step.job === 1 ? '\u25cf' : '\u25c6'} job ${step.job}`]];
    const more = [];
    if (step.line) head.push(['', `line ${step.line}`], ['code', statement(step)]);
    if ('outcome' in step) head.push(['', `outcome ${step.outcome}`]);
    if (step.told === 'stuck') {
      const stuck = run.jobs[step.job - 1].stuck;
      more.push(['is-stuck', `stuck ${stuck.number}: ${stuck.words}. `]);
    }
    if (step.told === 'finished') more.push(['', `job ${step.job} has finished: `]);
    more.push(['', happened(step, state)]);
    return { head, more };
  }

  // The device

  const PITCH = 100;
  const near = ([a, b]) => Math.abs(cells[a][0] - cells[b][0]) + Math.abs(cells[a][1] - cells[b][1]) === 1;
  const isGrid = edges.every(near);
  // other edges than a grid's need room between the locations
  const HALF = isGrid ? 44 : 36;
  const DOWN = isGrid ? 10 : 8;
  const RADIUS = isGrid ? 26 : 21;
  const picture = byId('device');
  const byCell = new Map(cells.map((cell, location) => [String(cell), location]));
  const x = (location) => cells[location][1] * PITCH;
  const y = (location) => cells[location][0] * PITCH + DOWN;
  const layers = {};
  let qubits = [];

  /** The location whose square a point is in; none for the space between. */
  function squareAt([right, down]) {
    const [row, column] = [Math.round((down - DOWN) / PITCH), Math.round(right / PITCH)];
    const inside = Math.max(Math.abs(down - DOWN - row * PITCH), Math.abs(right - column * PITCH)) < HALF + 3;
    return inside ? byCell.get(`${row},${column}`) : undefined;
  }

  /** A point of the curve from one location over the tip of a bow to another. */
  function pointOn(a, b, tip, t) {
    return [x, y].map((of, i) => (1 - t) * (1 - t) * of(a) + 2 * t * (1 - t) * tip[i] + t * t * of(b));
  }

  function tipOf(a, b, bow) {
    const [dx, dy] = [x(b) - x(a), y(b) - y(a)];
    const length = Math.hypot(dx, dy);
    return [(x(a) + x(b)) / 2 - (dy / length) * bow, (y(a) + y(b)) / 2 + (dx / length) * bow];
  }

  /** How many points of a curve are in squares of other locations. */
  function hits(a, b, tip) {
    let found = 0;
    for (let t = 0.04; t < 1; t += 0.04) {
      const at = squareAt(pointOn(a, b, tip, t));
      if (at !== undefined && at !== a && at !== b) found += 1;
    }
    return found;
  }

  /** The tip of the flattest bow that runs over the fewest other locations; none for a straight line. */
  function bowed(a, b) {
    if (near([a, b])) return null;
    let best = null;
    for (const bow of [0, 0.5, -0.5, 0.9, -0.9, 1.3, -1.3, 1.8, -1.8, 2.4, -2.4]) {
      const tip = tipOf(a, b, bow * PITCH);
      const found = hits(a, b, tip);
      if (!best || found < best.found) best = { bow, tip, found };
      if (!found) break;
    }
    return best.bow ? best.tip : null;
  }

  const bows = new Map(edges.map(([a, b]) => [`${a},${b}`, bowed(a, b)]));

  /** The line from one location to the next. */
  function lineTo(from, to) {
    const tip = bows.get(`${Math.min(from, to)},${Math.max(from, to)}`);
    return tip ? `Q${tip[0].toFixed(1)} ${tip[1].toFixed(1)} ${x(to)} ${y(to)}` : `L${x(to)} ${y(to)}`;
  }

  function along(route) {
    return `M${x(route[0])} ${y(route[0])}` + route.slice(1).map((to, i) => lineTo(route[i], to)).join('');
  }

  function cellPath(owner, half) {
    const cut = owner === 2 ? half * 0.42 : 0;
    if (!cut) return `M${-half} ${-half}H${half}V${half}H${-half}Z`;
    const inner = half - cut;
    return `M${-inner} ${-half}H${inner}L${half} ${-inner}V${inner}L${inner} ${half}H${-inner}L${-half} ${inner}V${-inner}Z`;
  }

  function qubitPath(job, radius) {
    const wide = radius * 1.22;
    if (job === 2) return `M0 ${-wide}L${wide} 0L0 ${wide}L${-wide} 0Z`;
    return `M${-radius} 0a${radius} ${radius} 0 1 0 ${2 * radius} 0a${radius} ${radius} 0 1 0 ${-2 * radius} 0Z`;
  }

  /** The sides of the picture: the cells, and what is bowed round them. */
  function extent(rows, columns) {
    const sides = [-56, -56, (columns - 1) * PITCH + 56, (rows - 1) * PITCH + 56];
    for (const [a, b] of edges) {
      const tip = bows.get(`${a},${b}`);
      const [right, down] = tip ? pointOn(a, b, tip, 0.5) : [0, 0];
      [sides[0], sides[1]] = [Math.min(sides[0], right - 20), Math.min(sides[1], down - 20)];
      [sides[2], sides[3]] = [Math.max(sides[2], right + 20), Math.max(sides[3], down + 20)];
    }
    return sides;
  }

  function drawDevice() {
    const rows = Math.max(...cells.map((cell) => cell[0])) + 1;
    const columns = Math.max(...cells.map((cell) => cell[1])) + 1;
    const [left, top, right, bottom] = extent(rows, columns);
    picture.setAttribute('viewBox', `${left} ${top} ${right - left} ${bottom - top}`);
    picture.style.maxWidth = `${columns * 140}px`;
    const play = byId('play');
    play.style.setProperty('--wide', `${columns * 140 + 40}px`);
    play.style.setProperty('--tall', `calc(${columns / rows} * 72vh + 40px)`);
    // in a narrow window many rows would be too small beside anything else
    document.body.classList.toggle('scrolls', rows > 8);
    for (const name of ['edges', 'cells', 'under', 'qubits', 'over', 'places', 'top']) layers[name] = shape(picture, 'g');
    for (const [a, b] of edges) {
      const apart = owners[a] !== owners[b] || !owners[a];
      shape(layers.edges, 'path', { class: apart ? 'edge apart' : 'edge', d: along([a, b]) });
    }
    owners.forEach((owner, location) => {
      const at = `translate(${x(location)} ${y(location) - DOWN})`;
      shape(layers.cells, 'path', { class: `cell of${owner}`, transform: at, d: cellPath(owner, HALF) });
      shape(layers.places, 'text', { class: `place of${owner}`, transform: at, x: 5 - HALF + (owner === 2 ? 8 : 0), y: 24 - HALF }, String(location));
      shape(layers.cells, 'title', {}, `location ${location}`);
    });
    qubits = owners.map(() => null);
  }

  /** Draws the qubits that are others than before. */
  function showQubits() {
    state.held.forEach(({ job, slot }, location) => {
      const key = job ? `${job} ${slot}` : '';
      const shown = qubits[location];
      if ((shown ? shown.key : '') === key) return;
      if (shown) layers.qubits.removeChild(shown.group);
      qubits[location] = null;
      if (!job) return;
      const group = shape(layers.qubits, 'g', { transform: `translate(${x(location)} ${y(location)})` });
      shape(group, 'path', { class: `qubit of${job}`, d: qubitPath(job, RADIUS) });
      shape(group, 'text', { class: 'slot', y: 11 }, slot === null ? '?' : String(slot));
      qubits[location] = { key, group };
    });
  }

  function ring(kind, location, radius) {
    shape(layers.over, 'circle', { class: `ring ${kind}`, cx: x(location), cy: y(location), r: radius || RADIUS + 9 });
  }

  function showStep() {
    for (const name of ['under', 'over', 'top']) emptied(layers[name]);
    const step = current();
    if (!step) return;
    const route = routeOf(step);
    if (route.length) {
      shape(layers.under, 'path', { class: 'casing', d: along(route) });
      shape(layers.under, 'path', { class: 'route', d: along(route) });
      // a line may run over other locations where the edges are no grid's
      if (!isGrid) for (const location of route) shape(layers.under, 'circle', { class: 'stop', cx: x(location), cy: y(location), r: 6 });
      ring('end', route[0]);
      ring('end', route[route.length - 1]);
    }
    if ('at' in step) ring('at', step.at);
    state.put.forEach((location) => ring('put', location));
    state.gone.forEach(({ location }) => ring('gone', location, RADIUS));
    if (step.told === 'stuck') showStuck(run.jobs[step.job - 1].stuck);
  }

  function showStuck({ number, about, reached }) {
    for (const location of reached) shape(layers.under, 'circle', { class: 'reached', cx: x(location), cy: y(location), r: 11 });
    about.forEach((location) => ring('stuck', location));
    if (number !== 21 || about.length !== 2) return;
    const [a, b] = about;
    const tip = tipOf(a, b, -Math.min(120, Math.hypot(x(b) - x(a), y(b) - y(a)) / 3));
    shape(layers.under, 'path', { class: 'torn', d: `M${x(a)} ${y(a)}Q${tip[0]} ${tip[1]} ${x(b)} ${y(b)}` });
    const middle = [0, 1, -1, 2, -2, 3, -3, 4, -4, 5, -5, 6, -6, 7, -7, 8, -8].map((i) => pointOn(a, b, tip, 0.5 + i / 40));
    const [right, down] = roomiest(middle);
    const group = shape(layers.top, 'g', { transform: `translate(${right} ${down})` });
    shape(group, 'circle', { class: 'cross-back', r: 21 });
    shape(group, 'path', { class: 'cross', d: 'M-9 -9L9 9M-9 9L9 -9' });
  }

  /** The point that hides least: far from every qubit and from every number; the first of those that are far enough. */
  function roomiest(points) {
    const away = ([right, down]) => owners.reduce((least, _, location) => {
      const number = Math.hypot(x(location) - HALF + 20 - right, y(location) - DOWN - HALF + 15 - down) / 40;
      const qubit = state.held[location].job ? Math.hypot(x(location) - right, y(location) - down) / (RADIUS + 24) : 1;
      return Math.min(least, number, qubit);
    }, 1);
    return points.reduce((best, point) => (away(point) > away(best) ? point : best));
  }

  function described() {
    const at = (job) => state.held.map((held, location) => (held.job === job ? location : -1)).filter((location) => location >= 0);
    const parts = [1, 2].map((job) => `job ${job} ${at(job).length ? 'at ' + at(job).join(', ') : 'nowhere'}`);
    return `The device after step ${state.step}: ${parts.join('; ')}.`;
  }

  function drawLegend() {
    const legend = byId('legend');
    const item = (text, draw) => {
      const entry = element(legend, 'li');
      draw(shape(entry, 'svg', { viewBox: '-50 -50 100 100', 'aria-hidden': 'true' }));
      element(entry, 'span', {}, text);
    };
    const some = (owner) => owners.includes(owner);
    const uses = (job) => steps.some((step) => step.job === job && step.changes);
    for (const job of [1, 2]) {
      if (some(job)) item(`job ${job}'s`, (to) => shape(to, 'path', { class: `cell of${job}`, 'stroke-width': 6, d: cellPath(job, 40) }));
    }
    if (some(0)) item("nobody's", (to) => shape(to, 'path', { class: 'cell of0', d: cellPath(0, 40) }));
    for (const job of [1, 2]) {
      if (uses(job)) {
        item(`job ${job}'s qubit in slot 0`, (to) => {
          shape(to, 'path', { class: `qubit of${job}`, d: qubitPath(job, 38) });
          shape(to, 'text', { class: 'slot', y: 17 }, '0');
        });
      }
    }
    if (steps.some(isMerge)) item('route of the merge', (to) => shape(to, 'path', { class: 'route', d: 'M-40 0H40' }));
    if (run.jobs.some((job) => job.stuck)) {
      item('what a stuck step is about', (to) => shape(to, 'circle', { class: 'ring stuck', r: 38 }));
    }
    if (run.jobs.some((job) => job.stuck && job.stuck.reached.length)) {
      item('free and reached from the first end', (to) => shape(to, 'circle', { class: 'reached', r: 16 }));
    }
  }

  // The listings

  let panels = [];

  function drawJobs() {
    const jobs = byId('jobs');
    const empty = run.jobs.map((job) => job.lines.length <= 2);
    if (empty[0] || empty[1]) jobs.classList.add('one-empty', empty[1] ? 'second-empty' : 'first-empty');
    panels = run.jobs.map((job, i) => {
      const panel = element(jobs, 'article', { class: `job of${i + 1}${empty[i] ? ' empty' : ''}`, 'aria-label': `Job ${i + 1}` });
      const header = element(panel, 'header');
      const title = element(header, 'h2');
      shape(shape(title, 'svg', { viewBox: '-30 -30 60 60', 'aria-hidden': 'true' }), 'path', { class: `qubit of${i + 1}`, d: qubitPath(i + 1, 22) });
      element(title, 'span', {}, `Job ${i + 1}`);
      element(title, 'span', { class: 'name' }, job.name);
      const where = element(header, 'p', { class: 'where' });
      const scroller = element(panel, 'ol', { class: 'lines', tabindex: '0', 'aria-label': `Listing of job ${i + 1}` });
      const lines = job.lines.map((text, at) => {
        const line = element(scroller, 'li');
        element(line, 'span', { class: 'pill-place' });
        element(line, 'span', { class: 'number' }, String(at + 1));
        element(line, 'code', {}, text);
        return line;
      });
      return { where, scroller, lines, marked: [], slots: element(panel, 'div', { class: 'slots' }) };
    });
  }

  /** The marks of a listing's lines, what counts most last. */
  function marksOf(i) {
    const job = state.jobs[i];
    const step = current();
    const marks = new Map();
    for (let call = job.call; call !== null; call = run.calls[call].from) marks.set(run.calls[call].line, 'call');
    if (job.next !== null) marks.set(job.next, job.returns ? 'return' : 'next');
    if (step && step.job === i + 1 && step.line) marks.set(step.line, 'step');
    if (isStuck(i)) marks.set(job.next, 'stuck');
    return marks;
  }

  const isStuck = (i) => Boolean(run.jobs[i].stuck) && run.jobs[i].stuck.step <= state.step;

  function showJob(i) {
    const panel = panels[i];
    for (const line of panel.marked) {
      line.className = '';
      emptied(line.firstChild);
    }
    const marks = marksOf(i);
    panel.marked = [];
    for (const [number, mark] of marks) {
      const line = panel.lines[number - 1];
      line.className = mark;
      element(line.firstChild, 'b', { class: `pill ${mark}` }, mark);
      panel.marked.push(line);
    }
    const step = current();
    const own = step && step.job === i + 1 && step.line ? step.line : state.jobs[i].next;
    keepInView(panel.scroller, own === null ? null : panel.lines[own - 1]);
    showWhere(i);
    showSlots(i);
  }

  function keepInView(scroller, line) {
    if (!line) return;
    const [top, height] = [line.offsetTop, scroller.clientHeight];
    const margin = Math.min(60, height / 4);
    if (top < scroller.scrollTop + margin || top + line.offsetHeight > scroller.scrollTop + height - margin) scroller.scrollTop = top - height / 2;
  }

  function showWhere(i) {
    const { where } = panels[i];
    const job = state.jobs[i];
    where.classList.toggle('is-stuck', isStuck(i));
    if (isStuck(i)) {
      const { step, number, words: reason } = run.jobs[i].stuck;
      where.textContent = `stuck ${number} since step ${step}: ${reason}`;
    } else if (job.next === null) {
      where.textContent = 'finished';
    } else if (job.call === null) {
      where.textContent = 'in main';
    } else {
      const call = run.calls[job.call];
      where.textContent = `in function ${call.function}, called at line ${call.line}${parameters(call)}`;
    }
  }

  function showSlots(i) {
    const slots = emptied(panels[i].slots);
    const job = state.jobs[i];
    const step = current();
    const own = step && step.job === i + 1;
    const bound = job.slots.map((holds, slot) => [slot, holds]).filter(([, holds]) => holds);
    element(slots, 'span', { class: 'of' }, bound.length ? 'slots' : 'no slot is bound');
    for (const [slot, holds] of bound) {
      const chip = element(slots, 'span', { class: own && state.changed.includes(slot) ? 'chip changed' : 'chip' });
      element(chip, 'b', {}, String(slot));
      element(chip, 'span', {}, holds);
    }
  }

  // The player

  const THUMB = 18;
  const LANE = 15;
  const strip = byId('strip');
  const slider = byId('slider');
  let cursor = null;

  const room = () => Math.max(1, strip.clientWidth - THUMB);
  const placeOf = (number) => THUMB / 2 + (count ? number / count : 0) * room();

  function drawStrip() {
    const title = strip.querySelector('title');
    emptied(strip).appendChild(title);
    if (!count) return;
    const between = room() / Math.max(1, count);
    const wide = Math.min(THUMB, between * 0.82);
    for (const job of [1, 2]) {
      if (wide >= 6) drawSteps(job, wide);
      else drawTimes(job);
    }
    for (const job of [1, 2]) {
      shape(strip, 'path', { class: `of${job}`, transform: `translate(-9 ${laneOf(job)})`, d: qubitPath(job, 4.5) });
    }
    let apart = 1;
    for (const factor of [2, 2.5, 2, 2, 2.5, 2, 2, 2.5, 2, 2]) if (between * apart < 44) apart *= factor;
    for (let number = 0; number <= count; number += apart) shape(strip, 'text', { class: 'tick', x: placeOf(number), y: 46 }, String(number));
    cursor = shape(strip, 'rect', { class: 'cursor', y: 1, rx: 3, height: 2 * LANE + 4, width: Math.max(wide + 5, 5) });
    showCursor();
  }

  const laneOf = (job) => 3 + (job - 1) * LANE + LANE / 2;

  function bar(job, from, to, height) {
    return `M${from.toFixed(2)} ${laneOf(job) - height / 2}H${to.toFixed(2)}v${height}H${from.toFixed(2)}Z`;
  }

  function box(job, from, to) {
    shape(strip, 'path', { class: 'stuck', d: bar(job, from, to, 11) });
    const crosses = Math.max(1, Math.min(40, Math.floor((to - from) / 14)));
    let lines = '';
    for (let i = 0; i < crosses; i += 1) {
      const middle = from + ((to - from) / crosses) * (i + 0.5);
      lines += `M${middle - 3} ${laneOf(job) - 3}l6 6m0 -6l-6 6`;
    }
    shape(strip, 'path', { class: 'stuck', d: lines });
  }

  /** Every step by itself. */
  function drawSteps(job, wide) {
    let bars = '';
    steps.forEach((step, i) => {
      if (step.job !== job) return;
      const [from, to] = [placeOf(i + 1) - wide / 2, placeOf(i + 1) + wide / 2];
      if (step.told === 'stuck') box(job, from, to);
      else bars += bar(job, from, to, step.told === 'finished' ? 2 : isMerge(step) ? 13 : 7);
    });
    shape(strip, 'path', { class: `of${job}`, d: bars });
  }

  /** Too many steps to see: how long the job goes on, its merges, when it is stuck or finished. */
  function drawTimes(job) {
    const own = (step) => step.job === job;
    const first = steps.findIndex(own);
    const ended = steps.findIndex((step) => own(step) && step.told !== 'moved');
    if (first < 0) return;
    const last = ended < 0 ? count : ended;
    let bars = ended === first ? '' : bar(job, placeOf(first + 0.5), placeOf(last + 0.5), 7);
    let before = -9;
    steps.forEach((step, i) => {
      if (own(step) && isMerge(step) && placeOf(i + 1) >= before + 1.5) {
        before = placeOf(i + 1);
        bars += bar(job, before - 0.5, before + 0.5, 13);
      }
    });
    if (ended >= 0) {
      if (steps[ended].told === 'stuck') box(job, placeOf(ended + 0.5), placeOf(count + 0.5));
      else bars += bar(job, placeOf(ended + 0.5), placeOf(count + 0.5), 2);
    }
    shape(strip, 'path', { class: `of${job}`, d: bars });
  }

  function showCursor() {
    if (cursor) cursor.setAttribute('x', placeOf(state.step) - Number(cursor.getAttribute('width')) / 2);
  }

  function stepAt(event) {
    const inside = event.clientX - strip.getBoundingClientRect().left - THUMB / 2;
    return Math.max(0, Math.min(count, Math.round((inside / room()) * count)));
  }

  function tip(event) {
    const number = stepAt(event);
    const step = steps[number - 1];
    const text = step ? `step ${number}, job ${step.job}: ${statement(step)} ${step.told}`.replace('  ', ' ') : 'the start';
    strip.querySelector('title').textContent = text;
  }

  const SPEEDS = [0.5, 1, 2, 4, 8, 16, 32, 64];
  let speed = count <= 100 ? 2 : count <= 600 ? 4 : 6;
  let timer = null;

  function play() {
    if (!count) return;
    if (state.step === count) go(0);
    tick();
    showPlaying();
  }

  function tick() {
    timer = setTimeout(() => {
      go(state.step + 1);
      if (state.step < count) tick();
      else pause();
    }, 1000 / SPEEDS[speed]);
  }

  function pause() {
    clearTimeout(timer);
    timer = null;
    showPlaying();
    remember();
  }

  function showPlaying() {
    byId('toggle').classList.toggle('playing', timer !== null);
    byId('toggle').setAttribute('aria-label', timer === null ? 'Play' : 'Pause');
    byId('words').setAttribute('aria-live', timer === null ? 'polite' : 'off');
  }

  function faster(by) {
    speed = Math.max(0, Math.min(SPEEDS.length - 1, speed + by));
    byId('speed').textContent = `${SPEEDS[speed]} / s`;
  }

  /** Goes to a step because a person asked for it. */
  function jump(number) {
    if (timer !== null) pause();
    go(number);
    remember();
  }

  function nextStep(wanted) {
    const found = steps.findIndex((step, i) => i >= state.step && wanted(step, i));
    if (found >= 0) jump(found + 1);
  }

  /** Keeps the step in the address. */
  function remember() {
    try {
      history.replaceState(null, '', `#${state.step}`);
    } catch (refused) {
      // an address that may not be changed stays as it is
    }
  }

  function fromAddress() {
    const number = /^#(\d+)$/.exec(location.hash);
    return number ? Number(number[1]) : 0;
  }

  // All of it

  function show() {
    const { head, more } = words();
    const place = emptied(byId('words'));
    const [first, second] = [element(place, 'div', { class: 'head' }), element(place, 'div', { class: 'more' })];
    for (const [kind, text] of head) first.append(element(null, kind === 'code' ? 'code' : 'span', kind && kind !== 'code' ? { class: kind } : {}, text), ' ');
    for (const [kind, text] of more) element(second, 'span', kind ? { class: kind } : {}, text);
    slider.value = String(state.step);
    slider.setAttribute('aria-valuetext', [...head, ...more].map(([, text]) => text).join(', '));
    for (const id of ['first', 'back']) byId(id).disabled = state.step === 0;
    for (const id of ['forward', 'last']) byId(id).disabled = state.step === count;
    showQubits();
    showStep();
    picture.setAttribute('aria-label', described());
    showJob(0);
    showJob(1);
    showCursor();
  }

  function drawBecame() {
    const became = byId('became');
    run.jobs.forEach((job, i) => {
      const text = `Job ${i + 1} ${job.became[0]}`;
      if (job.stuck) element(became, 'a', { class: 'is-stuck', href: `#${job.stuck.step}` }, text);
      else element(became, 'span', {}, text);
    });
  }

  const help = byId('help');

  function toggleHelp() {
    if (help.open) help.close();
    else if (help.showModal) help.showModal();
    else help.setAttribute('open', '');
  }

  const KEYS = {
    ArrowLeft: () => jump(state.step - 1),
    ArrowRight: () => jump(state.step + 1),
    PageUp: () => jump(state.step - 10),
    PageDown: () => jump(state.step + 10),
    Home: () => jump(0),
    End: () => jump(count),
    ' ': () => (timer === null ? play() : pause()),
    '+': () => faster(1),
    '=': () => faster(1),
    '-': () => faster(-1),
    m: () => nextStep(isMerge),
    s: () => nextStep((step, i) => step.told === 'stuck' && run.jobs[step.job - 1].stuck.step === i + 1),
    '?': toggleHelp,
  };

  function pressed(event) {
    if (event.ctrlKey || event.altKey || event.metaKey) return;
    if (help.open && event.key !== '?') return;
    const on = event.target instanceof Element ? event.target : document.body;
    // a button or a link that has the focus takes its own key
    if (event.key === ' ' && on.closest('button, a')) return;
    const does = Object.prototype.hasOwnProperty.call(KEYS, event.key) ? KEYS[event.key] : null;
    if (!does) return;
    event.preventDefault();
    does();
  }

  function listen() {
    const clicks = { first: 'Home', back: 'ArrowLeft', toggle: ' ', forward: 'ArrowRight', last: 'End', slower: '-', faster: '+', keys: '?' };
    for (const [id, key] of Object.entries(clicks)) byId(id).addEventListener('click', KEYS[key]);
    document.addEventListener('keydown', pressed);
    slider.addEventListener('input', () => jump(Number(slider.value)));
    strip.addEventListener('pointerdown', (event) => {
      if (strip.setPointerCapture) strip.setPointerCapture(event.pointerId);
      jump(stepAt(event));
    });
    strip.addEventListener('pointermove', (event) => {
      tip(event);
      if (event.buttons & 1) jump(stepAt(event));
    });
    window.addEventListener('hashchange', () => jump(fromAddress()));
    window.addEventListener('resize', drawStrip);
  }

  byId('play').hidden = false;
  byId('keys').hidden = false;
  slider.max = String(count);
  slider.disabled = !count;
  byId('toggle').disabled = !count;
  drawBecame();
  drawDevice();
  drawLegend();
  drawJobs();
  faster(0);
  listen();
  go(fromAddress());
  drawStrip();
})();
