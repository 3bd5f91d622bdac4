"use strict";
// A circuit and its fault list, made from the columns of the page. docs/MODEL.md defines sinks,
// lines and faults; contrib/test-report compares them with what faultsim prints.

const KINDS = ["INPUT", "DFF", "AND", "NAND", "OR", "NOR", "XOR", "XNOR", "NOT", "BUFF"];
const [INPUT, DFF, AND, NAND, OR, NOR, XOR, XNOR, NOT, BUFF] = KINDS.keys();
const INVERTS = KINDS.map((_, kind) => [NAND, NOR, XNOR, NOT].includes(kind));
const STEM = 0, PIN = 1, DATA = 2, OUT = 3;
const LINE_KINDS = ["stem", "pin", "data", "out"];

/** A circuit. Signals have the numbers of their lines in the bench file; an INPUT has no pins. */
class Circuit {
  /** From names, kinds and numbers of pins of all signals, what pins read, what OUTPUTs observe. */
  constructor(names, { kinds, pins, args, outs }) {
    Object.assign(this, { names, kinds, args, outs });
    const count = this.count = names.length;
    // the pins of signal s are args[firsts[s]] up to args[firsts[s + 1] - 1]
    this.firsts = new Int32Array(count + 1);
    for (let s = 0; s < count; s++) this.firsts[s + 1] = this.firsts[s] + pins[s];
    this.#findReaders();
    this.#findOrder();
    // the inputs, and then the flip-flops, as the bits of a test
    this.sources = new Int32Array(kinds.reduce((sum, kind) => sum + (kind <= DFF), 0));
    let at = 0;
    for (const wanted of [INPUT, DFF]) {
      for (let s = 0; s < count; s++) if (kinds[s] === wanted) this.sources[at++] = s;
    }
  }

  /** The readers of each signal: gates and flip-flops by line and pin, then OUTPUT lines. */
  #findReaders() {
    const { count, args, firsts, outs } = this;
    const starts = this.readStarts = new Int32Array(count + 1);
    const outStarts = this.outStarts = new Int32Array(count + 1);
    for (const arg of args) starts[arg + 1]++;
    for (const out of outs) outStarts[out + 1]++;
    for (let s = 0; s < count; s++) {
      starts[s + 1] += starts[s];
      outStarts[s + 1] += outStarts[s];
    }
    const next = starts.slice(), nextOut = outStarts.slice();
    this.readers = new Int32Array(args.length);
    this.readerPins = new Int32Array(args.length);
    for (let s = 0; s < count; s++) {
      for (let at = firsts[s]; at < firsts[s + 1]; at++) {
        this.readers[next[args[at]]] = s;
        this.readerPins[next[args[at]]++] = at - firsts[s];
      }
    }
    this.outLines = new Int32Array(outs.length);
    outs.forEach((out, j) => { this.outLines[nextOut[out]++] = j; });
  }

  /** An order in which each gate comes after the signals that it reads, and the levels. */
  #findOrder() {
    const { count, kinds, firsts } = this;
    const waits = new Int32Array(count), order = new Int32Array(count);
    this.levels = new Int32Array(count);
    let made = 0;
    for (let s = 0; s < count; s++) {
      waits[s] = kinds[s] > DFF ? firsts[s + 1] - firsts[s] : 0;
      if (!waits[s]) order[made++] = s;
    }
    for (let at = 0; at < made; at++) {
      const s = order[at];
      for (let i = this.readStarts[s]; i < this.readStarts[s + 1]; i++) {
        const gate = this.readers[i];
        if (kinds[gate] === DFF) continue;
        this.levels[gate] = Math.max(this.levels[gate], this.levels[s] + 1);
        if (!--waits[gate]) order[made++] = gate;
      }
    }
    this.order = order;
    this.places = new Int32Array(count);
    order.forEach((s, place) => { this.places[s] = place; });
  }

  /** The number of a name, or -1. */
  find(name) { return name === undefined ? -1 : this.names.indexOf(name); }

  /** The signals that the pins of a signal's gate read. */
  pins(s) { return this.args.subarray(this.firsts[s], this.firsts[s + 1]); }

  /** Whether an OUTPUT line observes a signal. */
  isOutput(s) { return this.outStarts[s + 1] > this.outStarts[s]; }

  /** How many pins and OUTPUT lines read a signal. */
  sinks(s) {
    return this.readStarts[s + 1] - this.readStarts[s] + this.outStarts[s + 1] - this.outStarts[s];
  }
}

/**
 * The fault list. Fault f is line f >> 1 with bit f & 1. A line has its kind, its owner (the signal
 * whose gate, flip-flop or OUTPUT line has the sink), its pin from 1, and the net that it reads.
 */
class Faults {
  constructor(circuit, model) {
    this.circuit = circuit;
    this.defects = model === "stuck" ? ["sa0", "sa1"] : ["str", "stf"];
    let lines = circuit.count;
    for (let s = 0; s < circuit.count; s++) if (circuit.sinks(s) > 1) lines += circuit.sinks(s);
    this.lines = lines;
    this.count = 2 * lines;
    this.kinds = new Uint8Array(lines);
    this.owners = new Int32Array(lines);
    this.pins = new Int32Array(lines);
    this.nets = new Int32Array(lines);
    this.stemLines = new Int32Array(circuit.count);
    this.#fill();
  }

  #fill() {
    const { circuit } = this;
    let line = 0;
    const add = (kind, owner, pin, net) => {
      this.kinds[line] = kind;
      this.owners[line] = owner;
      this.pins[line] = pin;
      this.nets[line++] = net;
    };
    for (let s = 0; s < circuit.count; s++) {
      this.stemLines[s] = line;
      add(STEM, s, 0, s);
      if (circuit.sinks(s) < 2) continue;
      for (let i = circuit.readStarts[s]; i < circuit.readStarts[s + 1]; i++) {
        const reader = circuit.readers[i];
        if (circuit.kinds[reader] === DFF) add(DATA, reader, 0, s);
        else add(PIN, reader, circuit.readerPins[i] + 1, s);
      }
      for (let i = circuit.outStarts[s]; i < circuit.outStarts[s + 1]; i++) {
        add(OUT, s, circuit.outLines[i] + 1, s);
      }
    }
  }

  kind(f) { return this.kinds[f >> 1]; }
  owner(f) { return this.owners[f >> 1]; }
  net(f) { return this.nets[f >> 1]; }

  /** A line as faultsim reports it. */
  line(line) {
    const kind = this.kinds[line], name = this.circuit.names[this.owners[line]];
    if (kind === PIN) return `pin ${name} ${this.pins[line]}`;
    if (kind === OUT) return `out ${this.pins[line]}`;
    return `${LINE_KINDS[kind]} ${name}`;
  }

  text(f) { return `${this.line(f >> 1)} ${this.defects[f & 1]}`; }

  /** The fault of a text, or -1. */
  find(text) {
    const words = text.trim().split(/\s+/), bit = this.defects.indexOf(words.pop());
    const [word, name, pin] = words, kind = LINE_KINDS.indexOf(word);
    if (bit < 0 || kind < 0) return -1;
    const { circuit } = this, s = kind === OUT ? -1 : circuit.find(name);
    if (kind !== OUT && s < 0) return -1;
    // a branch comes after the stem of the net that it reads
    const net = kind === STEM ? s : kind === OUT ? circuit.outs[name - 1]
      : circuit.pins(s)[kind === PIN ? pin - 1 : 0];
    if (net === undefined) return -1;
    for (let line = this.stemLines[net]; this.nets[line] === net; line++) {
      if (this.line(line) === words.join(" ")) return 2 * line + bit;
    }
    return -1;
  }
}
