// What all views share: elements, the choices of the reader, and the address that holds them:
// #fault=stem+z+sa0&block=cpu.alu&q=n12&state=all&kind=pin&sort=-first

const $ = (id) => document.getElementById(id);
const number = (n) => n.toLocaleString("en");
const plural = (n, word) => `${number(n)} ${word}${n === 1 ? "" : "s"}`;
const SIGNS = ["✕", "○", "◐", "●"];           // of the states
const CLASSES = ["path", "act", "obs", "det"];
const SHARED = "(shared logic)";

/** An element with attributes (on..: listeners) and children, which may be text. */
function make(tag, attributes = {}, ...children) {
  return filled(document.createElement(tag), attributes, children);
}

/** The same of SVG. */
function draw(tag, attributes = {}, ...children) {
  return filled(document.createElementNS("http://www.w3.org/2000/svg", tag), attributes, children);
}

function filled(element, attributes, children) {
  for (const [name, value] of Object.entries(attributes)) {
    if (name.startsWith("on")) element.addEventListener(name.slice(2), value);
    else if (value === true) element.setAttribute(name, "");
    else if (value !== false && value !== undefined) element.setAttribute(name, value);
  }
  element.append(...children.filter((it) => it !== null && it !== undefined));
  return element;
}

/** A button of plain words. */
const button = (words, onclick, more = {}) => make("button",
  { type: "button", onclick, ...more }, words);

/** Elements with a text between them. */
const joined = (list, between) => list.flatMap((it, i) => (i ? [between, it] : [it]));

let report, simulator;
const times = {};                              // in milliseconds, for measurements
const NONE = { fault: -1, block: 0, own: false, query: "", state: "undetected", kind: undefined,
  count: undefined, test: undefined, beside: undefined, pin: undefined, collapsed: false,
  sort: "list", descending: false };
const chosen = { ...NONE };
const FILTERS = Object.keys(NONE).filter((name) => name !== "fault");
const opened = new Set([0]);                   // blocks whose parts the tree shows

/** The part of the address after #. */
function address() {
  const it = new URLSearchParams(), { blocks, faults } = report;
  if (chosen.fault >= 0) it.set("fault", faults.text(chosen.fault));
  if (chosen.block || chosen.own) it.set("block", blocks.paths[chosen.block]);
  if (chosen.own) it.set("own", "1");
  if (chosen.query) it.set("q", chosen.query);
  if (chosen.state !== "undetected") it.set("state", STATES[chosen.state] ?? "all");
  if (chosen.kind !== undefined) it.set("kind", LINE_KINDS[chosen.kind]);
  for (const name of ["count", "test", "beside"]) {
    if (chosen[name] !== undefined) it.set(name, chosen[name]);
  }
  if (chosen.pin !== undefined) it.set("pin", report.pins.text(chosen.pin));
  if (chosen.collapsed) it.set("collapsed", "1");
  if (chosen.sort !== "list") it.set("sort", (chosen.descending ? "-" : "") + chosen.sort);
  const text = it.toString();
  return text ? `#${text}` : location.pathname.replace(/.*\//, "") || "#";
}

/** Chooses what the address has; words that it doesn't know are as if they weren't there. */
function readAddress() {
  if (location.hash && !location.hash.includes("=")) return;
  const it = new URLSearchParams(location.hash.slice(1)), { blocks, faults } = report;
  const asNumber = (name) => (/^\d+$/.test(it.get(name) ?? "") ? Number(it.get(name)) : undefined);
  const state = STATES.indexOf(it.get("state")), kind = LINE_KINDS.indexOf(it.get("kind"));
  const noState = it.get("state") === "all" ? undefined : NONE.state;
  const sort = (it.get("sort") ?? "").replace("-", "");
  const isColumn = COLUMNS.some(({ by }) => by === sort);
  Object.assign(chosen, NONE, {
    fault: it.has("fault") ? faults.find(it.get("fault")) : -1,
    block: Math.max(blocks.find(it.get("block") ?? ""), 0),
    own: it.has("own"),
    query: it.get("q") ?? "",
    state: state < 0 ? noState : state,
    kind: kind < 0 ? undefined : kind,
    count: asNumber("count"), test: asNumber("test"), beside: asNumber("beside"),
    pin: report.head.tests_kept ? report.pins?.find(it.get("pin") ?? "") : undefined,
    collapsed: it.has("collapsed"),
    sort: isColumn ? sort : NONE.sort,
    descending: isColumn && it.get("sort").startsWith("-"),
  });
  // the table has a fault that the address names
  const isHidden = chosen.fault >= 0 && report.states[chosen.fault] === DETECTED;
  if (isHidden && !it.has("state")) chosen.state = undefined;
  for (let node = chosen.block; node >= 0; node = blocks.parents[node]) opened.add(node);
}

/** Writes the address; a browser allows that only about ten times a second. */
const writeAddress = {
  timer: 0,
  now(step) {
    clearTimeout(this.timer);
    this.timer = 0;
    history[step ? "pushState" : "replaceState"](null, "", address());
  },
  soon() { this.timer ||= setTimeout(() => this.now(false), 120); },
};

/** Changes what is chosen, and draws what follows from it. Back undoes a step. */
function choose(changes, step) {
  const before = { ...chosen };
  const differs = (names) => names.some((name) => chosen[name] !== before[name]);
  if (step && writeAddress.timer) writeAddress.now(false);
  Object.assign(chosen, changes);
  if (!differs(Object.keys(NONE))) return;
  if (step) writeAddress.now(true);
  else writeAddress.soon();
  if (differs(["block", "own"])) drawBlocks();
  if (differs(["pin"])) drawPin();
  if (differs(FILTERS)) drawFaults();
  if (differs(["fault"])) {
    drawDetail();
    faultGrid.mark(chosen.fault);
  }
}

/** Filters only by some properties, and shows the table. */
function only(changes) {
  const { block, own, collapsed, sort, descending, fault } = chosen;
  const kept = { block, own, collapsed, sort, descending, fault };
  choose({ ...NONE, state: undefined, ...kept, ...changes }, true);
  $("faults").scrollIntoView();
}
