// The blocks of a circuit by the names of its signals, and the places of a treemap.

// The last part of a name that a synthesis tool gave: n12, _12_.
const UNNAMED = /^(?:n\d+_*|_\d+_)$/;
const INDEX = /(\[-?\d+\])+_*$/;
const DEEPEST = 64;

/**
 * The blocks, a tree of the parts of names. `cpu.alu.result[3]` is in `cpu`, in `cpu.alu` and in
 * the word `result` below it. A word is a name with an index, or the name of an input or of a
 * flip-flop; the gate `cpu.alu.carry` is directly in `cpu.alu`. A signal whose last part is UNNAMED
 * is in the block before that part. If there is none, and it isn't a source, its block is inferred:
 * the deepest one that has all that reads it.
 */
class Blocks {
  constructor(circuit, separator) {
    this.separator = separator;
    this.names = ["(top)"];
    this.parents = [-1];
    this.depths = [0];
    this.paths = [""];
    this.children = [new Map()];
    this.homes = new Int32Array(circuit.count);
    this.inferred = new Uint8Array(circuit.count);
    for (let s = 0; s < circuit.count; s++) this.#place(circuit, s);
    this.#infer(circuit);
    this.#number();
  }

  /** The block of a name below a block, made if it is new. */
  #below(node, name) {
    let child = this.children[node].get(name);
    if (child === undefined) {
      child = this.names.length;
      this.children[node].set(name, child);
      this.children.push(new Map());
      this.names.push(name);
      this.parents.push(node);
      this.depths.push(this.depths[node] + 1);
      this.paths.push(node ? this.paths[node] + this.separator + name : name);
    }
    return child;
  }

  /** The block of a signal by its name. */
  #place(circuit, s) {
    const name = circuit.names[s], isSource = circuit.kinds[s] <= DFF;
    const parts = this.separator ? name.split(this.separator, DEEPEST + 1) : [name];
    if (parts.length > DEEPEST) parts.length = DEEPEST;
    const last = parts.pop(), word = last.replace(INDEX, "");
    let node = 0;
    for (const part of parts) node = this.#below(node, part);
    if (!UNNAMED.test(word)) {
      if (word !== last || isSource) node = this.#below(node, word);
    } else if (!parts.length && !isSource) {
      this.inferred[s] = 1;
    }
    this.homes[s] = node;
  }

  /** The blocks of signals without a name of the design. */
  #infer(circuit) {
    const { homes } = this;
    // a signal comes before its readers in the order, so from the last to the first
    for (let at = circuit.count - 1; at >= 0; at--) {
      const s = circuit.order[at];
      if (!this.inferred[s]) continue;
      let home = circuit.isOutput(s) ? 0 : -1;
      for (let i = circuit.readStarts[s]; i < circuit.readStarts[s + 1]; i++) {
        const other = homes[circuit.readers[i]];
        home = home < 0 ? other : this.common(home, other);
      }
      homes[s] = Math.max(home, 0);
    }
  }

  /** The deepest block above both. */
  common(a, b) {
    while (a !== b) {
      if (this.depths[a] >= this.depths[b]) a = this.parents[a];
      else b = this.parents[b];
    }
    return a;
  }

  /** Numbers the blocks so that those below block n are n + 1 up to ends[n] - 1. */
  #number() {
    const count = this.count = this.names.length;
    const places = new Int32Array(count), ends = new Int32Array(count);
    let next = 0;
    const visit = (node) => {
      places[node] = next++;
      for (const child of this.children[node].values()) visit(child);
      ends[places[node]] = next;
    };
    visit(0);
    delete this.children;
    const moved = (list) => {
      const made = [];
      list.forEach((it, node) => { made[places[node]] = it; });
      return made;
    };
    this.names = moved(this.names);
    this.paths = moved(this.paths);
    this.depths = moved(this.depths);
    this.parents = moved(this.parents.map((node) => (node < 0 ? -1 : places[node])));
    this.homes = this.homes.map((node) => places[node]);
    this.ends = ends;
    this.below = this.names.map(() => []);
    for (let node = 1; node < count; node++) this.below[this.parents[node]].push(node);
  }

  /** The block of a path, or -1. */
  find(path) { return this.paths.indexOf(path); }
}

/** How many of the values, from one on, the next row of a treemap has, and how thick it is. */
function treemapRow(values, at, short, scale) {
  let row = 0, end = at, worst = Infinity;
  while (end < values.length) {
    const sum = row + values[end], side = sum * scale / short;
    const least = values[end] * scale / side, most = values[at] * scale / side;
    const ratio = Math.max(side / least, most / side);
    if (ratio > worst) break;
    worst = ratio;
    row = sum;
    end++;
  }
  return { end, sum: row, side: row * scale / short };
}

/** Rectangles for values, largest first: squarified (Bruls, Huizing, van Wijk, 2000). */
function treemap(values, x, y, width, height) {
  const made = [];
  let left = values.reduce((a, b) => a + b, 0), at = 0;
  while (at < values.length && left > 0) {
    const short = Math.min(width, height), wide = width >= height;
    const { end, sum, side } = treemapRow(values, at, short, width * height / left);
    let place = 0;
    for (; at < end; at++) {
      const length = values[at] / sum * short;
      made.push(wide ? [x, y + place, side, length] : [x + place, y, length, side]);
      place += length;
    }
    if (wide) { x += side; width -= side; } else { y += side; height -= side; }
    left -= sum;
  }
  return made;
}
