// ---- the page

const page = { lists: [], list: null, number: 0, pair: null, timer: null, rows: [], query: null, onlyRefused: false };

function show(number) {
  const last = page.list.moves.length;
  page.number = Math.max(0, Math.min(last, number));
  const move = page.number ? page.list.moves[page.number - 1] : null;
  if (move && page.list.queues.has(move.name)) choosePair(move.name.slice(1));
  $('slider').value = page.number;
  $('slider').setAttribute('aria-valuetext', `${page.number} of ${last}${move ? `: ${move.state.line}` : ''}`);
  $('position').textContent = `${page.number} / ${last}`;
  showMove(move);
  showQueues();
  reveal(page.number);
  const hash = `#${page.lists.length > 1 ? `${page.lists.indexOf(page.list) + 1}.` : ''}${page.number}`;
  if (location.hash !== hash) history.replaceState(null, '', hash);
}

function showMove(move) {
  const now = $('now');
  now.className = move && !move.told.made ? 'bad' : '';
  $('where').textContent = move ? `Move ${page.number}: ${KINDS[move.kind] || ''}` : 'Before the first move';
  $('said').replaceChildren(move ? move.state.line : '—', move ? ' → ' : '',
    move ? element('span', { class: move.told.made ? null : 'bad' }, noteOf(move)) : '');
  $('told').textContent = move ? registersOf(move) : 'The queues as they begin';
}

function showQueues() {
  const queues = [`r${page.pair}`, `t${page.pair}`].map((name) => page.list.queues.get(name)).filter(Boolean);
  $('queues').replaceChildren(...queues.map((queue) => queueOf(queue, page.number)));
}

function choosePair(pair) {
  page.pair = pair;
  $('pair').value = pair;
}

function chooseList(index) {
  page.list = page.lists[index];
  const pairs = [...page.list.queues.keys()].filter((name) => name[0] === 'r').map((name) => name.slice(1));
  $('pair').replaceChildren(...pairs.map((pair) => element('option', { value: pair }, pair)));
  $('pairs').hidden = pairs.length < 2;
  choosePair(pairs[0]);
  $('slider').max = page.list.moves.length;
  const { made, read } = page.list.count || { made: '?', read: page.list.moves.length };
  $('count').textContent = `${made} of ${read} moves made`;
  $('refusals').textContent = `${page.list.refused.length} refused`;
  chooseRows();
}

// ---- the list of moves, of which only the visible rows exist

function chooseRows() {
  page.rows = page.onlyRefused ? page.list.refused : null;
  $('rows').style.height = `${rowCount() * ROW}px`;
  $('rows').style.position = 'relative';
  showRows();
}

const rowCount = () => (page.rows ? page.rows.length : page.list.moves.length);
const numberAt = (index) => (page.rows ? page.rows[index] : index + 1);

/** The index of the row of a move, or of the last one before it. */
function indexOf(number) {
  if (!page.rows) return number - 1;
  let index = -1;
  let low = 0, high = page.rows.length;
  while (low < high) {
    const middle = (low + high) >> 1;
    if (page.rows[middle] <= number) { index = middle; low = middle + 1; } else high = middle;
  }
  return index;
}

function showRows() {
  const box = $('moves');
  const from = Math.max(0, Math.floor(box.scrollTop / ROW) - 4);
  const to = Math.min(rowCount(), Math.ceil((box.scrollTop + box.clientHeight) / ROW) + 4);
  const rows = [];
  for (let index = from; index < to; index++) rows.push(moveRow(index));
  $('rows').replaceChildren(...rows);
  if (page.number && $(`move-${page.number}`)) box.setAttribute('aria-activedescendant', `move-${page.number}`);
  else box.removeAttribute('aria-activedescendant');
}

function moveRow(index) {
  const number = numberAt(index);
  const move = page.list.moves[number - 1];
  const classes = ['row', move.told.made ? '' : 'bad', matches(move) ? 'hit' : ''].join(' ').trim();
  const row = element('div', {
    class: classes, id: `move-${number}`, role: 'option', 'aria-selected': String(number === page.number),
    'aria-setsize': rowCount(), 'aria-posinset': index + 1, 'data-number': number, title: noteOf(move),
  }, element('span', { class: 'k' }, String(number)), element('span', {}, move.state.line),
  element('span', { class: 'note' }, (move.told.made ? '' : '✕ ') + noteOf(move)));
  row.style.top = `${index * ROW}px`;
  return row;
}

/** Scrolls the list to the row of a move, and marks it. */
function reveal(number) {
  const box = $('moves');
  const top = indexOf(number) * ROW;
  if (top < box.scrollTop) box.scrollTop = Math.max(0, top - 2 * ROW);
  else if (top + ROW > box.scrollTop + box.clientHeight) box.scrollTop = top + 3 * ROW - box.clientHeight;
  showRows();
}

// ---- searching

function queryNow() {
  const text = $('query').value.trim().toLowerCase();
  if (!text) return null;
  if ($('kind').value === 'text') return { text };
  return /^\d+$/.test(text) ? { [$('kind').value]: Number(text) } : { text };
}

/** Whether a move is about the searched buffer or place, or has the text. */
function matches(move) {
  const query = page.query;
  if (!query) return false;
  if ('text' in query) return move.state.line.toLowerCase().includes(query.text) || noteOf(move).includes(query.text);
  const key = 'buffer' in query ? 'buffer' : 'place';
  const at = move.told.made && noteOf(move) !== 'none' ? move.state.at : null;
  return move.told[key] === query[key] || (at !== null && at !== undefined && at[key] === query[key]);
}

function matchesPlace(row) {
  const query = page.query;
  return query !== null && (('buffer' in query && row.buffer === query.buffer) || ('place' in query && row.place === query.place));
}

function searchAgain() {
  page.query = queryNow();
  const found = page.query ? page.list.moves.reduce((count, move) => count + (matches(move) ? 1 : 0), 0) : 0;
  $('matches').textContent = page.query ? `${found} moves` : '';
  showQueues();
  showRows();
}

/** Goes to the next or the previous match, around the end. */
function findFrom(step) {
  const count = page.list.moves.length;
  for (let passed = 1; page.query && passed <= count; passed++) {
    const number = ((page.number - 1 + step * passed) % count + count) % count + 1;
    if (matches(page.list.moves[number - 1])) return show(number);
  }
  return undefined;
}

function goRefused(step) {
  const refused = page.list.refused;
  const next = step > 0 ? refused.find((number) => number > page.number) : refused.filter((number) => number < page.number).pop();
  if (next !== undefined) show(next);
}

// ---- playing

function play(on) {
  clearInterval(page.timer);
  page.timer = on ? setInterval(() => {
    if (page.number >= page.list.moves.length) play(false); else show(page.number + 1);
  }, 1000 / Number($('speed').value)) : null;
  $('play').textContent = on ? 'Pause' : 'Play';
  $('play').setAttribute('aria-pressed', String(on));
}

function togglePlay() {
  if (page.timer === null && page.number >= page.list.moves.length) show(0);
  play(page.timer === null);
}

function toggleTheme() {
  const dark = getComputedStyle(document.documentElement).colorScheme === 'dark';
  document.documentElement.dataset.theme = dark ? 'light' : 'dark';
}

// ---- what the user does

const KEYS = {
  ArrowRight: () => show(page.number + 1), ArrowDown: () => show(page.number + 1),
  ArrowLeft: () => show(page.number - 1), ArrowUp: () => show(page.number - 1),
  PageDown: () => show(page.number + 10), PageUp: () => show(page.number - 10),
  Home: () => show(0), End: () => show(page.list.moves.length), ' ': togglePlay,
  n: () => goRefused(1), p: () => goRefused(-1), t: toggleTheme,
  '/': () => $('query').focus(), '?': () => $('keys').showModal(),
};

function onKey(event) {
  const { target } = event;
  if (event.ctrlKey || event.altKey || event.metaKey || $('keys').open) return;
  if (target === $('query')) {
    if (event.key === 'Escape') $('moves').focus();
    if (event.key === 'Enter' && event.shiftKey) { event.preventDefault(); findFrom(-1); }
    return;
  }
  if (target.tagName === 'SELECT' || (target.tagName === 'BUTTON' && (event.key === ' ' || event.key === 'Enter'))) return;
  const action = KEYS[event.key];
  if (!action) return;
  event.preventDefault();
  if (event.key !== ' ') play(false);
  action();
}

function listen() {
  const on = (id, event, action) => $(id).addEventListener(event, action);
  const go = (action) => () => { play(false); action(); };
  document.addEventListener('keydown', onKey);
  on('first', 'click', go(() => show(0)));
  on('back', 'click', go(() => show(page.number - 1)));
  on('on', 'click', go(() => show(page.number + 1)));
  on('last', 'click', go(() => show(page.list.moves.length)));
  on('play', 'click', togglePlay);
  on('speed', 'change', () => { if (page.timer !== null) play(true); });
  on('slider', 'input', go(() => show(Number($('slider').value))));
  on('theme', 'click', toggleTheme);
  on('help', 'click', () => $('keys').showModal());
  on('next-refused', 'click', go(() => goRefused(1)));
  on('previous-refused', 'click', go(() => goRefused(-1)));
  on('refused', 'click', () => {
    page.onlyRefused = !page.onlyRefused;
    $('refused').setAttribute('aria-pressed', String(page.onlyRefused));
    chooseRows();
    reveal(page.number);
  });
  on('search', 'submit', (event) => { event.preventDefault(); findFrom(1); });
  on('before', 'click', () => findFrom(-1));
  on('query', 'input', searchAgain);
  on('kind', 'change', searchAgain);
  on('pair', 'change', () => { choosePair($('pair').value); showQueues(); });
  on('list', 'change', go(() => { chooseList(Number($('list').value)); searchAgain(); show(0); }));
  on('moves', 'scroll', showRows);
  on('moves', 'click', (event) => {
    const row = event.target.closest('.row');
    if (row) { play(false); show(Number(row.dataset.number)); }
  });
  addEventListener('resize', showRows);
  addEventListener('hashchange', () => openAt(location.hash));
}

/** Opens the list and the move that `#list.move` or `#move` names. */
function openAt(hash) {
  const parts = hash.slice(1).split('.').map(Number).filter((part) => Number.isInteger(part) && part >= 0);
  const index = parts.length > 1 ? Math.min(parts[0], page.lists.length) - 1 : page.lists.indexOf(page.list);
  if (index >= 0 && page.lists[index] !== page.list) {
    $('list').value = index;
    chooseList(index);
  }
  show(parts.length ? parts[parts.length - 1] : 0);
}

function start() {
  page.lists = readLists($('data').textContent);
  $('data').textContent = '';
  $('list').replaceChildren(...page.lists.map((_, index) => element('option', { value: index }, String(index + 1))));
  $('lists').hidden = page.lists.length < 2;
  if (page.lists.length === 0) {
    $('now').textContent = 'There are no moves.';
    return;
  }
  listen();
  chooseList(0);
  openAt(location.hash);
  $('moves').focus({ preventScroll: true });
}

start();
