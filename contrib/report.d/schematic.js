// Draws the neighbourhood of a signal: two levels of what feeds it and of what reads it.

const GLYPHS = {
  [AND]: "M0 0h6a6 6 0 0 1 0 12h-6z",
  [OR]: "M0 0q9 0 13 6q-4 6-13 6q4-6 0-12z",
  [XOR]: "M2 0q9 0 12 6q-3 6-12 6q4-6 0-12zM-1 0q4 6 0 12",
  [BUFF]: "M0 0l11 6l-11 6z",
  [DFF]: "M0 0h12v12h-12zM0 8l4 2l-4 2",
  [INPUT]: "M0 2h8l4 4l-4 4h-8z",
};
const INVERTED = [[NAND, AND, 12], [NOR, OR, 13], [XNOR, XOR, 14], [NOT, BUFF, 11]];
for (const [inverted, kind, x] of INVERTED) {
  GLYPHS[inverted] = `${GLYPHS[kind]}M${x} 6a2 2 0 1 0 4 0a2 2 0 1 0-4 0`;
}
const LIMIT = 6;                               // boxes of a column
const PINS = 24;                               // pins of a box
const GAP = 64, PIN_HEIGHT = 15, HEAD = 20;
const MARK = "l7 6l-7 6z";                     // a triangle at the fault

const valueWords = ([good, faulty]) => (good === faulty ? String(good) : `${good}→${faulty}`);
const cut = (name, room) => (name.length <= room ? name : `…${name.slice(1 - room)}`);

/** The pins of a box: all, or the first of many, those that the fault changes before the others. */
function pinsShown(s, line, values) {
  const { circuit, faults } = report, all = [...circuit.pins(s).keys()];
  if (all.length <= PINS) return all;
  const isSite = (i) => faults.owners[line] === s && faults.pins[line] === i + 1;
  const rank = (i) => (isSite(i) || (values && isChanged(values.pin(s, i))) ? 0 : 1);
  return all.sort((a, b) => rank(a) - rank(b) || a - b).slice(0, PINS);
}

/** The boxes of five columns around a signal, and the wires between them. */
class Layout {
  constructor(centre, line, values) {
    Object.assign(this, { line, values, wires: [] });
    this.columns = [[], [], [], [], []];
    this.#box(2, centre);
    for (const c of [2, 1]) for (const it of this.columns[c]) this.#addDrivers(c, it);
    for (const c of [2, 3]) for (const it of this.columns[c]) this.#addReaders(c, it);
  }

  /** The box of a signal in a column, made if there is none; or null if the column is full. */
  #box(column, s) {
    const boxes = this.columns[column], found = boxes.find((it) => it.s === s && !it.out);
    if (found) return found;
    if (boxes.length >= LIMIT) {
      boxes.more = (boxes.more ?? 0) + 1;
      return null;
    }
    const it = { s, pins: pinsShown(s, this.line, this.values) };
    boxes.push(it);
    return it;
  }

  #addDrivers(column, it) {
    const { circuit } = report;
    if (column !== 2 && circuit.kinds[it.s] === DFF) return;
    for (const i of it.pins) {
      const from = this.#box(column - 1, circuit.pins(it.s)[i]);
      if (from) this.wires.push([from, it, i]);
    }
  }

  #addReaders(column, it) {
    const { circuit } = report, { values } = this, sinks = [];
    if (it.out || (column !== 2 && circuit.kinds[it.s] === DFF)) return;
    for (let i = circuit.readStarts[it.s]; i < circuit.readStarts[it.s + 1]; i++) {
      sinks.push([circuit.readers[i], circuit.readerPins[i]]);
    }
    // the readers that the fault changes come first
    const rank = ([gate]) => (values && isChanged(values.signal(gate)) ? 0 : 1);
    if (values) sinks.sort((a, b) => rank(a) - rank(b));
    for (const [gate, i] of sinks) {
      const to = this.#box(column + 1, gate);
      if (to && to.pins.includes(i)) this.wires.push([it, to, i]);
    }
    const boxes = this.columns[column + 1];
    for (let i = circuit.outStarts[it.s]; i < circuit.outStarts[it.s + 1]; i++) {
      const to = { s: it.s, out: circuit.outLines[i] + 1, pins: [] };
      if (boxes.length >= LIMIT + 2) return;
      boxes.push(to);
      this.wires.push([it, to, 0]);
    }
  }

  /** Gives each box its place and size. */
  place(room) {
    const { columns } = this, used = columns.filter((column) => column.length);
    const share = (room - (used.length - 1) * GAP) / used.length;
    const width = this.boxWidth = Math.min(Math.max(share, 150), 236);
    const height = ({ s, out, pins }) => {
      const isCut = !out && pins.length < report.circuit.pins(s).length;
      return HEAD + (out ? 0 : PIN_HEIGHT * (pins.length + isCut) + (pins.length ? 5 : 2));
    };
    const tall = used.map((column) => column.reduce((sum, it) => sum + height(it) + 12,
      column.more ? 18 : 0));
    this.height = Math.max(...tall) + 12;
    this.width = used.length * (width + GAP) - GAP + 24;
    used.forEach((column, c) => {
      let y = (this.height - tall[c]) / 2 + 6;
      column.x = 12 + c * (width + GAP);
      for (const it of column) {
        Object.assign(it, { x: column.x, y, h: height(it) });
        y += it.h + 12;
      }
      column.end = y + 6;
    });
  }

  /** The height at which a wire enters a pin of a box. */
  pinY(it, i) {
    return it.out ? it.y + HEAD / 2 : it.y + HEAD + PIN_HEIGHT * (it.pins.indexOf(i) + 0.5);
  }

  #wire([from, to, i]) {
    const { values } = this, x1 = from.x + this.boxWidth, y1 = from.y + HEAD / 2;
    const x2 = to.x, y2 = this.pinY(to, i), mid = (x1 + x2) / 2;
    const isOn = values && isChanged(values.signal(from.s))
      && (to.out || isChanged(values.pin(to.s, i)));
    return draw("path", { class: `wire${isOn ? " changed" : ""}`,
      d: `M${x1} ${y1}C${mid} ${y1} ${mid} ${y2} ${x2} ${y2}` });
  }

  /** The triangle at the line of the fault, if the box has it. */
  #mark(it) {
    const { kinds, owners, pins } = report.faults, { line } = this, kind = kinds[line];
    const own = owners[line] === it.s;
    let place = null;
    if (it.out) {
      if (kind === OUT && pins[line] === it.out) place = `M${it.x - 7} ${it.y + HEAD / 2 - 6}`;
    } else if (own && kind === STEM) {
      place = `M${it.x + this.boxWidth} ${it.y + HEAD / 2 - 6}`;
    } else if (own && (kind === PIN || kind === DATA)) {
      const i = kind === PIN ? pins[line] - 1 : 0;
      if (it.pins.includes(i)) place = `M${it.x - 7} ${this.pinY(it, i) - 6}`;
    }
    if (!place) return null;
    return draw("path", { class: "site", d: place + MARK }, draw("title", {}, "the fault"));
  }

  /** The texts of the pins of a box: their values and what they read. */
  #pinTexts(it) {
    const { circuit } = report, { values } = this, room = Math.floor((this.boxWidth - 44) / 6.7);
    const all = circuit.pins(it.s), texts = it.pins.flatMap((i) => {
      const at = values?.pin(it.s, i), y = this.pinY(it, i) + 4;
      return [
        draw("text", { class: at && isChanged(at) ? "changed" : "", x: it.x + 8, y },
          at ? valueWords(at) : ""),
        draw("text", { class: "quiet", x: it.x + (at ? 40 : 8), y },
          cut(circuit.names[all[i]], room))];
    });
    if (it.pins.length === all.length) return texts;
    const y = it.y + HEAD + PIN_HEIGHT * (it.pins.length + 0.5) + 4;
    const words = `and ${number(all.length - it.pins.length)} more`;
    return [...texts, draw("text", { class: "quiet", x: it.x + 8, y }, words)];
  }

  /** A box, which a click or Enter puts into the middle. */
  #group(it, centre) {
    const { circuit } = report, { values, boxWidth } = this, { s, out, x, y } = it;
    const name = circuit.names[s], kind = circuit.kinds[s], state = values?.signal(s);
    const words = out ? `output ${out}, ${name}` : `${KINDS[kind]} ${name}`;
    const isOn = state && isChanged(state);
    const room = Math.floor((boxWidth - (values ? 62 : 34)) / 6.7);
    const go = () => { view.centre = s; drawAround(); };
    const onkeydown = (event) => {
      if (event.key !== "Enter" && event.key !== " ") return;
      event.preventDefault();
      go();
    };
    return draw("g", { role: "button", tabindex: 0, onclick: go, onkeydown,
      class: `${s === centre && !out ? "centre" : ""}${isOn ? " changed" : ""}`,
      "aria-label": `${words}${state ? `, ${valueWords(state)}` : ""}` },
    draw("title", {}, `${words}, level ${circuit.levels[s]}`),
    draw("rect", { class: "box", x, y, width: boxWidth, height: it.h, rx: 4 }),
    out ? null : draw("path", { class: "glyph", d: GLYPHS[kind],
      transform: `translate(${x + 7} ${y + 4})` }),
    draw("text", { class: "kind", x: x + (out ? 7 : 29), y: y + 14 },
      out ? `OUTPUT ${out}` : cut(name, room)),
    state ? draw("text", { class: isOn ? "changed" : "", x: x + boxWidth - 6, y: y + 14,
      "text-anchor": "end" }, valueWords(state)) : null,
    ...(out ? [] : this.#pinTexts(it)), this.#mark(it));
  }

  /** The picture. */
  draw(centre) {
    const { width, height, columns } = this;
    const notes = columns.filter(({ more }) => more).map(({ x, end, more }) => draw("text",
      { class: "quiet", x, y: end }, `and ${number(more)} more`));
    return draw("svg", { width, height, viewBox: `0 0 ${width} ${height}`, role: "group",
      "aria-label": `Neighbourhood of ${report.circuit.names[centre]}` },
    ...this.wires.map((it) => this.#wire(it)), ...notes,
    ...columns.flat().map((it) => this.#group(it, centre)));
  }
}

/** The picture of a signal's neighbourhood, as wide as the page has room for. */
function neighbourhood(centre, line, values) {
  const layout = new Layout(centre, line, values);
  layout.place($("around").clientWidth - 30);
  return layout.draw(centre);
}
