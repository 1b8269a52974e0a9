// ---- words for what the data say

/** The note of a move, or why it was refused. */
function noteOf(move) {
  if (!move.told.made) return `not enabled: ${move.state.obstacle}`;
  return Object.entries(move.told)
    .filter(([key]) => key !== 'move' && key !== 'made' && key === key.toLowerCase())
    .map(([key, value]) => (value === null ? 'none' : `${key} ${value}`)).join(' ');
}

function registersOf(move) {
  return Object.entries(move.told).filter(([key]) => key !== key.toLowerCase()).map(([key, value]) => `${key} ${value}`).join('  ');
}

function element(name, attributes, ...children) {
  const made = document.createElement(name);
  for (const [key, value] of Object.entries(attributes || {})) if (value !== null && value !== false) made.setAttribute(key, value);
  made.append(...children.filter((child) => child !== null));
  return made;
}

function drawn(name, attributes, text) {
  const made = document.createElementNS('http://www.w3.org/2000/svg', name);
  for (const [key, value] of Object.entries(attributes)) made.setAttribute(key, value);
  if (text !== undefined) made.textContent = text;
  return made;
}

// ---- the ring

function point(radius, turn) {
  const angle = turn * 2 * Math.PI - Math.PI / 2;
  return [radius * Math.cos(angle), radius * Math.sin(angle)];
}

function arc(from, to, outer, inner) {
  const large = to - from > 0.5 ? 1 : 0;
  const end = to - from >= 1 ? to - 1e-4 : to;
  const at = (radius, turn) => point(radius, turn).map((x) => x.toFixed(2)).join(' ');
  return `M${at(outer, from)}A${outer} ${outer} 0 ${large} 1 ${at(outer, end)}L${at(inner, end)}A${inner} ${inner} 0 ${large} 0 ${at(inner, from)}Z`;
}

/** The names at a place, two in a line. */
function labelOf(names, x, y) {
  const lines = [];
  for (let index = 0; index < names.length; index += 2) lines.push(names.slice(index, index + 2).join(' '));
  const anchor = Math.abs(x) < 12 ? 'middle' : x > 0 ? 'start' : 'end';
  const top = y > 30 ? y + 7 : y < -30 ? y - 9 * (lines.length - 1) : y + 3 - 4.5 * (lines.length - 1);
  const label = drawn('text', { 'text-anchor': anchor, class: 'mark' });
  lines.forEach((line, index) => label.append(drawn('tspan', { x, y: top + 9 * index }, line)));
  return label;
}

/** Runs of places with one owner; short rings have a run for each place. */
function runsOf(places) {
  const runs = [];
  for (const row of places) {
    const last = runs[runs.length - 1];
    if (places.length > ALL_PLACES && last && last.owner === row.owner) last.to = row.place + 1;
    else runs.push({ owner: row.owner, from: row.place, to: row.place + 1 });
  }
  return runs;
}

function marksOf(state) {
  const marks = new Map();
  for (const [part, name] of MARKS) {
    const place = state[part][name];
    marks.set(place, [...(marks.get(place) || []), name]);
  }
  return marks;
}

function ringOf(queue, places, state, at) {
  const size = queue.size;
  const counts = { drv: 0, ring: 0, ctl: 0 };
  for (const row of places) counts[row.owner]++;
  const label = `${queue.name}: ${counts.drv} places of the driver, ${counts.ring} in the ring, ${counts.ctl} of the controller`;
  const svg = drawn('svg', { viewBox: '-165 -118 330 232', role: 'img', 'aria-label': label });
  for (const run of runsOf(places)) {
    const path = drawn('path', { d: arc(run.from / size, run.to / size, 76, 50), class: `arc ${run.owner}` });
    if (at !== null && run.from <= at && at < run.to && size <= ALL_PLACES) path.classList.add('at');
    const range = run.to - run.from > 1 ? `places ${run.from} to ${run.to - 1}` : `place ${run.from}`;
    path.append(drawn('title', {}, `${range}: ${OWNERS[run.owner]}`));
    svg.append(path);
  }
  if (size <= 32) {
    for (let place = 0; place < size; place++) {
      const [x, y] = point(43, (place + 0.5) / size);
      svg.append(drawn('text', { x, y: y + 3, 'text-anchor': 'middle' }, place));
    }
  }
  for (const [place, names] of marksOf(state)) {
    const turn = (place + 0.5) / size;
    const [x, y] = point(78, turn), [u, v] = point(84, turn), [a, b] = point(88, turn);
    svg.append(drawn('line', { x1: x, y1: y, x2: u, y2: v }));
    svg.append(labelOf(names, a, b));
  }
  svg.append(drawn('text', { x: 0, y: 2, 'text-anchor': 'middle', class: 'name' }, queue.name));
  svg.append(drawn('text', { x: 0, y: 15, 'text-anchor': 'middle' }, CONTROLS[state.words.control]));
  return svg;
}

// ---- a queue

function knowledgeOf(state, before) {
  const box = element('div', { class: 'know' });
  for (const [part, title] of PARTS) {
    const list = element('dl', {});
    for (const [key, value] of Object.entries(state[part])) {
      const changed = before[part][key] !== value;
      list.append(element('dt', {}, NAMES[key] || key),
        element('dd', { 'data-key': `${part}.${key}`, class: changed ? 'changed' : null, title: key === 'control' || key === 'loaded' ? CONTROLS[value] : null }, value === null ? 'none' : String(value)));
    }
    box.append(element('section', { 'aria-label': title }, element('h3', {}, title), list));
  }
  return box;
}

function bitsOf(row) {
  if (row.owner === 'drv') return ['any'];
  return Object.entries(row.descriptor).map(([key, value]) => (FLAGS.has(key)
    ? element('span', { class: value ? 'bit set' : 'bit', title: `${key} ${value}` }, key, value ? null : element('span', { class: 'zero' }, ' 0'))
    : element('span', { class: 'field' }, `${key} ${value}`)));
}

function rowOf(row, marks, at) {
  const held = row.owner === 'ctl' && row.buffer === null;
  const classes = [row.owner, row.place === at ? 'at' : '', matchesPlace(row) ? 'hit' : ''].join(' ').trim();
  return element('tr', { class: classes, 'data-place': row.place, 'data-owner': row.owner },
    element('th', { scope: 'row' }, String(row.place)),
    element('td', { class: 'owner' }, OWNERS[row.owner]),
    element('td', { title: held ? 'the controller holds the buffer' : null }, row.buffer === null ? '–' : String(row.buffer)),
    element('td', { 'data-descriptor': JSON.stringify(row.descriptor) }, ...bitsOf(row)),
    element('td', {}, ...marks.map((name) => element('span', { class: 'pin' }, name))));
}

/** Whether a place of a long ring is shown. */
function isShown(row, size, marks, at) {
  return [row.place, (row.place + 1) % size, (row.place + size - 1) % size].some((place) => marks.has(place) || place === at)
    || matchesPlace(row);
}

function tableOf(queue, places, state, at) {
  const marks = marksOf(state);
  const body = element('tbody', {});
  let folded = false;
  for (const row of places) {
    if (queue.size <= ALL_PLACES || isShown(row, queue.size, marks, at)) {
      body.append(rowOf(row, marks.get(row.place) || [], at));
      folded = false;
    } else if (!folded) {
      body.append(element('tr', { class: 'fold' }, element('td', { colspan: 5 }, '···')));
      folded = true;
    }
  }
  const head = element('tr', {}, ...['place', 'owner', 'buffer', 'descriptor', 'marks'].map((name) => element('th', { scope: 'col' }, name)));
  return element('table', {}, element('caption', {}, 'Places'), element('thead', {}, head), body);
}

function queueOf(queue, number) {
  const move = number ? page.list.moves[number - 1] : null;
  const moved = move !== null && move.name === queue.name;
  const refused = moved && !move.told.made;
  const state = queue.after(number, page.list.moves);
  const before = number ? queue.after(number - 1, page.list.moves) : state;
  const places = queue.placesAfter(number, page.list.moves);
  const at = moved && move.state.at && (refused || noteOf(move) !== 'none') ? move.state.at.place : null;
  const title = queue.name[0] === 'r' ? 'Receive queue' : 'Transmit queue';
  return element('article', { class: ['queue', moved ? 'moved' : '', refused ? 'bad' : ''].join(' ').trim(), 'data-queue': queue.name, 'aria-label': `${title} ${queue.name}` },
    element('h2', {}, `${title} ${queue.name}`, element('small', {}, `${queue.size} descriptors`)),
    ringOf(queue, places, state, at), knowledgeOf(state, before), tableOf(queue, places, state, at));
}
