// The pins that block the effects of undetected faults, and the faults that a pin blocks. Under a
// test a pin of a gate blocks the effect of a fault if some pin of the gate changes, the gate
// doesn't, and this pin has the controlling value, with the fault and without it.

/** The value of a pin that decides the value of its gate, or -1. */
const controlling = (kind) => ([AND, NAND].includes(kind) ? 0 : [OR, NOR].includes(kind) ? 1 : -1);

/** The pins, each the number of its place in the circuit's `args`. */
class BlockingPins {
  /** From the numbers of blocked faults, and of tests under which some is, of all pins. */
  constructor(circuit, { blocked, blocking }) {
    Object.assign(this, { circuit, faults: blocked, tests: blocking });
    const all = new Uint32Array(blocked.length);
    let count = 0;
    blocked.forEach((faults, place) => { if (faults) all[count++] = place; });
    const places = all.subarray(0, count);
    const byTests = sorted(places, (place) => blocking[place], true);
    // the most faults first, then the most tests, then the first in the bench file
    this.list = sorted(byTests, (place) => blocked[place], true);
    this.gates = new Int32Array(blocked.length);
    for (let s = 0; s < circuit.count; s++) {
      this.gates.fill(s, circuit.firsts[s], circuit.firsts[s + 1]);
    }
  }

  /** The number of a pin at its gate, from 1. */
  number(place) { return place - this.circuit.firsts[this.gates[place]] + 1; }

  kind(place) { return KINDS[this.circuit.kinds[this.gates[place]]]; }
  value(place) { return controlling(this.circuit.kinds[this.gates[place]]); }

  /** A pin as the line of its fault has it: gate and number. */
  text(place) { return `${this.circuit.names[this.gates[place]]} ${this.number(place)}`; }

  /** The pin of a text, if it blocks some fault. */
  find(text) {
    const [name, pin] = text.split(" "), s = this.circuit.find(name);
    const place = s < 0 ? -1 : this.circuit.firsts[s] + Number(pin) - 1;
    return this.faults[place] && this.text(place) === text ? place : undefined;
  }
}

/**
 * Finds the undetected faults that a pin blocks, by the tests that the page has. A fault changes
 * the gate only by signals of its fan-in cone, which are tried from the gate on. Of each signal
 * there are words of the tests under which the pin blocks its complement: those of a signal with
 * one reader in the cone follow from its reader's.
 */
class Blocked {
  constructor(simulator, pins, place) {
    const { circuit, report } = simulator, gate = pins.gates[place];
    Object.assign(this, { simulator, circuit, report, gate, place, found: new Map() });
    this.changed = new Words(circuit.count);   // for the effect of a signal
    this.woken = new Waiting(new Words(circuit.count));
    this.net = circuit.args[place];
    this.value = pins.value(place) ? -1 : 0;
    this.wanted = simulator.tests < report.head.sums.tests ? Infinity : pins.faults[place];
    this.next = 0;
    this.#begin();
  }

  /** Begins with the gate under the next blocks of tests: as many as the simulator keeps. */
  #begin() {
    const { simulator, net, value, gate } = this, from = this.from = this.next;
    this.next = Math.min(from + simulator.room, Math.ceil(simulator.tests / 32));
    this.none = new Int32Array(this.next - from);
    // the tests under which the pin has its value, a word of each block; so are all other words
    this.holds = this.none.map((_, b) => ~(simulator.good(from + b)[net] ^ value));
    this.words = new Map();                    // of each signal that was tried
    this.reads = new Map([[gate, []]]);        // of each signal the pins in the cone that read it
    this.waiting = new Waiting();              // the signals to try next, those read last first
    this.#addPins(gate);
  }

  /** Whether all are found: as many as faultsim counted, or all that the page's tests show. */
  get isDone() {
    const isLast = 32 * this.next >= this.simulator.tests;
    return this.found.size === this.wanted || (isLast && !this.waiting.length);
  }

  /** Adds what a gate reads to the cone. */
  #addPins(gate) {
    const { circuit, reads, waiting } = this;
    for (let at = circuit.firsts[gate]; at < circuit.firsts[gate + 1]; at++) {
      const s = circuit.args[at];
      if (!reads.has(s)) reads.set(s, []);
      reads.get(s).push([gate, at]);
      waiting.push(-circuit.places[s]);
    }
  }

  /** The tests of a block under which the complement of a pin alone changes its gate. */
  #passes(s, pin, good) {
    const { args, firsts, kinds } = this.circuit, value = controlling(kinds[s]);
    if (value < 0) return -1;
    let held = 0;
    for (let at = firsts[s]; at < firsts[s + 1]; at++) {
      if (at !== pin) held |= value ? good[args[at]] : ~good[args[at]];
    }
    return ~held;
  }

  /** The tests of a block under which this pin blocks the complement of another pin. */
  #through([reader, at], b) {
    if (reader === this.gate) return at === this.place ? 0 : this.holds[b];
    const word = this.words.get(reader)[b];
    return word && word & this.#passes(reader, at, this.simulator.good(this.from + b));
  }

  /** The same of a signal with several readers, whose effects may meet again. */
  #spread(s, b) {
    const { circuit, simulator, reads, gate, changed: words, woken: waiting } = this;
    const good = simulator.good(this.from + b), change = (it, word) => {
      words.set(it, word);
      for (const [reader] of reads.get(it)) waiting.push(circuit.places[reader]);
    };
    words.clear();
    waiting.clear();
    change(s, ~good[s]);
    while (waiting.length) {
      const it = circuit.order[waiting.pop()];
      if (it === gate) return this.#atGate(words, good) & this.holds[b];
      const word = simulator.faulty(it, good, words), differs = word ^ good[it];
      // where only one signal has the effect, the rest is known
      if (!waiting.length) return differs & this.words.get(it)[b];
      if (differs) change(it, word);
    }
    return 0;
  }

  /** The tests under which other pins of the gate change, and this one doesn't. */
  #atGate(words, good) {
    const { circuit, gate, net } = this, changes = (s) => (words.get(s) ?? good[s]) ^ good[s];
    return circuit.pins(gate).reduce((sum, s) => sum | changes(s), 0) & ~changes(net);
  }

  /** Notes those undetected faults of a line that are blocked; `words` are of its complement. */
  #note(line, words) {
    for (const f of [2 * line, 2 * line + 1]) {
      if (this.report.states[f] === DETECTED || this.found.has(f)) continue;
      const under = (word, b) => word && word & this.simulator.activated(f, this.from + b);
      const b = words.findIndex(under);
      if (b < 0) continue;
      const tests = under(words[b], b);
      this.found.set(f, 32 * (this.from + b) + 31 - Math.clz32(tests & -tests));
    }
  }

  /** Tries a signal, all of whose readers in the cone were tried: its stem and its branches. */
  #try(s) {
    const { faults } = this.report, { circuit, holds, none } = this, own = this.reads.get(s);
    const word = own.length > 1 ? (b) => this.#spread(s, b) : (b) => this.#through(own[0], b);
    const words = holds.map((hold, b) => hold && word(b));
    this.words.set(s, words.some(Boolean) ? words : none);
    if (circuit.kinds[s] > DFF) this.#addPins(s);
    const stem = faults.stemLines[s];
    this.#note(stem, words);
    for (let line = stem + 1; circuit.sinks(s) > 1 && faults.nets[line] === s; line++) {
      const reader = faults.owners[line], at = circuit.firsts[reader] + faults.pins[line] - 1;
      if (faults.kinds[line] !== PIN || !this.reads.has(reader)) continue;
      this.#note(line, holds.map((hold, b) => hold && this.#through([reader, at], b)));
    }
  }

  /** Tries further signals for some milliseconds. */
  scan(milliseconds) {
    const until = performance.now() + milliseconds;
    while (!this.isDone && performance.now() < until) {
      if (!this.waiting.length) this.#begin();
      this.#try(this.circuit.order[-this.waiting.pop()]);
    }
  }
}
