'use strict';

// The page shows the lines of its data and computes nothing of the machine. The data are, for each list of moves, a
// line for each queue (queue, size, state), and for each move the line of `replay --json --registers` and a line with
// the state of its queue after it; then the count of moves. `at` is the only place that the move can have changed.

const $ = (id) => document.getElementById(id);

const KINDS = {
  A1: 'Driver posts an empty buffer', A2: 'Driver stores RDT', A3: 'Controller loads RDT',
  A4: 'Controller fetches a descriptor and its buffer', A5: 'Controller writes the descriptor back with DD',
  A6: 'Driver loads the next descriptor; with DD, takes the segment', A7: 'Controller stores RDH',
  B1: 'Driver posts a segment', B2: 'Driver stores TDT', B3: 'Controller loads TDT',
  B4: 'Controller fetches a descriptor and its buffer', B5: 'Controller has sent the segment, stores TDH',
  B6: 'Controller reports', B7: 'Driver loads the oldest outstanding report', B8: 'Driver cleans the next descriptor',
  C1: 'Driver requests enabling', C2: 'Controller loads the control word', C3: 'Controller answers the control value',
  C4: 'Driver loads the control word', C5: 'Driver requests disabling', C6: 'Driver takes back the oldest buffer',
  C7: 'Controller says that it stores no more frames', C8: 'Driver loads the quiet word',
  C9: 'Driver clears the head', C10: 'Driver clears the tail', C11: 'Driver clears the quiet word',
  C12: 'Driver clears the head word',
};
const OWNERS = { drv: 'driver', ring: 'ring', ctl: 'controller' };
const CONTROLS = ['disabled', 'enabling asked', 'enabled', 'disabling asked'];
const FLAGS = new Set(['DD', 'EOP', 'RS', 'IFCS', 'DEXT']);
const MARKS = [['words', 'head'], ['words', 'tail'], ['driver', 'fill'], ['driver', 'next'], ['controller', 'use'], ['controller', 'known']];
const PARTS = [['words', 'Shared words'], ['driver', 'Driver'], ['controller', 'Controller']];
const NAMES = { mid_frame: 'in frame', head_word: 'head word', report_due: 'report due' };
const STEP = 1000; // moves of a queue between two stored states
const ROW = 28; // pixels
const ALL_PLACES = 64; // longer rings show the places with a mark and their neighbours

// ---- reading the data

/** A queue: its moves, their states, and each thousandth state of its places. */
class Queue {
  constructor(line) {
    this.name = line.queue;
    this.size = line.size;
    this.opening = line;
    this.moves = []; // numbers of the moves that name it, from 1
    this.stored = [this.empty()];
    this.places = this.empty();
    this.reached = 0;
  }

  empty() {
    return Array.from({ length: this.size }, (_, place) => ({ place, owner: 'drv', buffer: null, descriptor: null }));
  }

  add(number, state) {
    this.moves.push(number);
    put(this.places, state);
    this.reached = this.moves.length;
    if (this.moves.length % STEP === 0) this.stored.push(this.places.slice());
  }

  /** How many of its moves are among the first `number`. */
  count(number) {
    let low = 0, high = this.moves.length;
    while (low < high) {
      const middle = (low + high) >> 1;
      if (this.moves[middle] <= number) low = middle + 1; else high = middle;
    }
    return low;
  }

  /** The state of the queue after the first `number` moves. */
  after(number, moves) {
    const count = this.count(number);
    return count ? moves[this.moves[count - 1] - 1].state : this.opening;
  }

  /** The places after the first `number` moves, from the nearest state before. */
  placesAfter(number, moves) {
    const count = this.count(number);
    if (count < this.reached || count - this.reached > STEP) {
      const index = Math.floor(count / STEP);
      this.places = this.stored[index].slice();
      this.reached = index * STEP;
    }
    for (; this.reached < count; this.reached++) put(this.places, moves[this.moves[this.reached] - 1].state);
    return this.places;
  }
}

function put(places, state) {
  if (state.at) places[state.at.place] = state.at;
}

/** The lists of moves in a text. */
function readLists(text) {
  const lists = [];
  let list = null, told = null;
  for (const object of JSON.parse(`[${text.trim().split('\n').join(',')}]`)) {
    if (!list || list.count) {
      list = { queues: new Map(), moves: [], refused: [], count: null };
      lists.push(list);
    }
    if ('queue' in object) {
      list.queues.set(object.queue, new Queue(object));
    } else if ('move' in object) {
      told = object;
    } else if ('line' in object) {
      addMove(list, told, object);
    } else {
      list.count = object;
    }
  }
  return lists;
}

function addMove(list, told, state) {
  const [name, kind] = told.move.split(' ');
  list.moves.push({ told, state, name, kind });
  const number = list.moves.length;
  if (!told.made) list.refused.push(number);
  const queue = list.queues.get(name);
  if (queue) queue.add(number, state);
}
