// Simulates one fault, 32 tests at a time: for the values in the picture of a fault.

/** A map of signals to words that is cleared at once, and used many times. */
class Words {
  constructor(count) {
    this.words = new Int32Array(count);
    this.stamps = new Int32Array(count);
    this.stamp = 1;
  }

  clear() { this.stamp++; }
  has(s) { return this.stamps[s] === this.stamp; }
  get(s) { return this.stamps[s] === this.stamp ? this.words[s] : undefined; }
  add(s) { this.stamps[s] = this.stamp; }

  set(s, word) {
    this.stamps[s] = this.stamp;
    this.words[s] = word;
  }
}

/** The places of gates that wait, in the order of evaluation: a heap, each place once. */
class Waiting {
  /** `queued` is a set of places, without any. */
  constructor(queued = new Set()) { Object.assign(this, { heap: [], queued }); }
  get length() { return this.heap.length; }

  clear() {
    this.heap.length = 0;
    this.queued.clear();
  }

  push(place) {
    const { heap } = this;
    if (this.queued.has(place)) return;
    this.queued.add(place);
    let i = heap.push(place) - 1;
    for (let up = (i - 1) >> 1; i && heap[up] > heap[i]; i = up, up = (i - 1) >> 1) {
      [heap[up], heap[i]] = [heap[i], heap[up]];
    }
  }

  pop() {
    const { heap } = this, least = heap[0], last = heap.pop();
    if (!heap.length) return least;
    heap[0] = last;
    for (let i = 0, next = 1; next < heap.length; i = next, next = 2 * i + 1) {
      if (next + 1 < heap.length && heap[next + 1] < heap[next]) next++;
      if (heap[i] <= heap[next]) break;
      [heap[i], heap[next]] = [heap[next], heap[i]];
    }
    return least;
  }
}

/** Fault-free and faulty values. Bit k of a word of block b is of test 32 b + k. */
class Simulator {
  constructor(report, bits) {
    const { circuit, head } = report;
    Object.assign(this, { report, bits, circuit, tests: head.tests_kept, cache: new Map() });
    this.size = (this.circuit.sources.length + 7) >> 3;
    // the blocks that are kept: 64 MB of words
    this.room = Math.max(Math.floor(16e6 / this.circuit.count), 1);
  }

  /** The fault-free words of a block. */
  good(block) {
    let words = this.cache.get(block);
    if (words) return words;
    const { bits, size } = this, { sources, order, kinds, args, firsts, count } = this.circuit;
    words = new Int32Array(count);
    for (let k = 0; k < 32 && 32 * block + k < this.tests; k++) {
      const row = (32 * block + k) * size;
      for (let i = 0; i < sources.length; i++) {
        words[sources[i]] |= (bits[row + (i >> 3)] >> (7 - (i & 7)) & 1) << k;
      }
    }
    for (let at = 0; at < order.length; at++) {
      const s = order[at], kind = kinds[s];
      if (kind <= DFF) continue;
      const end = firsts[s + 1];
      let i = firsts[s], word = words[args[i]];
      if (kind <= NAND) while (++i < end) word &= words[args[i]];
      else if (kind <= NOR) while (++i < end) word |= words[args[i]];
      else while (++i < end) word ^= words[args[i]];
      words[s] = INVERTS[kind] ? ~word : word;
    }
    if (this.cache.size >= this.room) this.cache.clear();
    this.cache.set(block, words);
    return words;
  }

  /** The tests of a block that activate a fault: none after the last, and pairs by the model. */
  activated(f, block) {
    const { faults, model } = this.report, net = faults.net(f), words = this.good(block);
    const left = this.tests - 32 * block, there = left >= 32 ? -1 : (1 << left) - 1;
    const bit = f & 1 ? -1 : 0, active = (words[net] ^ bit) & there;
    if (model === "stuck") return active;
    const before = words[net] << 1 | (block ? this.good(block - 1)[net] >>> 31 : 0);
    const launched = ~(before ^ bit) & active & (block ? -1 : ~1);
    return model === "transition" ? launched : launched & 0xaaaaaaaa;
  }

  /**
   * A fault on a block: the tests that activate it (`active`) and detect it (`seen`), the number of
   * signals that it changes under each test (`reach`), and the faulty words of those (`words`).
   */
  fault(f, block) {
    const { circuit } = this, { faults } = this.report, line = f >> 1, kind = faults.kinds[line];
    const good = this.good(block), active = this.activated(f, block), words = new Map();
    const reach = new Int32Array(32), waiting = new Waiting();
    if (!active || kind === DATA || kind === OUT) return { active, seen: active, reach, words };
    let seen = 0;
    const change = (s, word) => {
      const differs = word ^ good[s];
      if (!differs) return;
      words.set(s, word);
      for (let k = 0; k < 32; k++) if (differs >>> k & 1) reach[k]++;
      if (circuit.isOutput(s)) seen |= differs;
      for (let i = circuit.readStarts[s]; i < circuit.readStarts[s + 1]; i++) {
        if (circuit.kinds[circuit.readers[i]] === DFF) seen |= differs;
        else waiting.push(circuit.places[circuit.readers[i]]);
      }
    };
    const owner = faults.owners[line], stuck = good[faults.nets[line]] ^ active;
    if (kind === STEM) change(owner, stuck);
    else change(owner, this.faulty(owner, good, words, faults.pins[line] - 1, stuck));
    while (waiting.length) {
      const s = circuit.order[waiting.pop()];
      change(s, this.faulty(s, good, words));
    }
    return { active, seen, reach, words };
  }

  /** The word of a gate whose pins have faulty words, if there are any; pin `own` has `other`. */
  faulty(s, good, words, own = -1, other = 0) {
    const { args, firsts, kinds } = this.circuit, from = firsts[s], end = firsts[s + 1];
    const kind = kinds[s];
    const at = (i) => (i === from + own ? other : words.get(args[i]) ?? good[args[i]]);
    let word = at(from);
    for (let i = from + 1; i < end; i++) {
      if (kind <= NAND) word &= at(i);
      else if (kind <= NOR) word |= at(i);
      else word ^= at(i);
    }
    return INVERTS[kind] ? ~word : word;
  }

  /**
   * Simulates a fault under further tests for some milliseconds: how many were tried (`tried`),
   * activate it (`active`) and detect it (`seen`), and the test under which it changes the most
   * signals (`best`, with `reach`).
   */
  scan(f, milliseconds, found = { tried: 0, active: 0, best: -1, reach: -1, seen: 0 }) {
    const until = performance.now() + milliseconds;
    while (found.tried < this.tests) {
      const from = found.tried, { active, seen, reach } = this.fault(f, from >> 5);
      found.tried = Math.min(from + 32, this.tests);
      for (let k = 0; k < 32; k++) {
        if (!(active >>> k & 1)) continue;
        found.active++;
        found.seen += seen >>> k & 1;
        if (reach[k] > found.reach) {
          found.reach = reach[k];
          found.best = from + k;
        }
      }
      if (performance.now() >= until) break;
    }
    return found;
  }
}
