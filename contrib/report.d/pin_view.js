// Draws the pins that block effects of undetected faults, and finds the faults of the chosen one.

let pinGrid = null;                            // the table; a page without these pins has none
let pinOrder = { sort: "list", descending: false };
let allPins = false;                           // whether it shows all pins, or the first
let blocked = null;                            // what is found of the chosen pin

const FIRST_PINS = 50;

/** The name of a signal, with its kind at the mouse. */
function signalCell(s) {
  const { names, kinds } = report.circuit;
  return nameCell(names[s], `${KINDS[kinds[s]]} ${names[s]}`);
}

const PIN_COLUMNS = [
  { by: "gate", title: "Gate", cell: (it) => signalCell(report.pins.gates[it]) },
  { by: "kind", title: "Kind", cell: (it) => make("span", {}, report.pins.kind(it)) },
  { by: "block", title: "Block", cell: (it) => {
    const path = report.blocks.paths[report.blocks.homes[report.pins.gates[it]]] || "(top)";
    return nameCell(path, path);
  } },
  { by: "pin", title: "Pin", isNumber: true, cell: (it) => numberCell(report.pins.number(it)) },
  { by: "net", title: "Net", hint: "the signal that the pin reads",
    cell: (it) => signalCell(report.circuit.args[it]) },
  { by: "value", title: "Value", isNumber: true,
    hint: "the controlling value, which further tests should change",
    cell: (it) => numberCell(report.pins.value(it)) },
  { by: "faults", title: "Faults", isNumber: true, isCount: true,
    hint: "undetected faults whose effects the pin blocks, each under some test",
    cell: (it) => numberCell(number(report.pins.faults[it])) },
  { by: "tests", title: "Tests", isNumber: true, isCount: true,
    hint: "tests under which the pin blocks the effect of some undetected fault",
    cell: (it) => numberCell(number(report.pins.tests[it])) },
];
// the column of a page with a map, in place of the blocks
const PIN_PLACE = { by: "place", title: "Design", hint: "where the pin is in the design",
  cell: (it) => {
    const place = report.place(2 * report.lineOfPin(it));
    return make("span", { class: "place", title: place }, place);
  } };

/** Filters by the faults that a pin blocks; a page without tests shows its gate instead. */
function pickPin(pin) {
  if (report.head.tests_kept) {
    only({ pin });
    return;
  }
  choose({ fault: 2 * report.faults.stemLines[report.pins.gates[pin]], state: undefined }, true);
  $("faults").scrollIntoView();
}

/** Makes the table, once the data is there. */
function makePinGrid() {
  for (const it of [$("blocking"), $("to-blocking")]) it.hidden = !report.pins;
  if (!report.pins) return;
  const reorder = (order) => {
    pinOrder = { ...pinOrder, ...order };
    drawPins();
  };
  const isBlock = ({ by }) => by === "block" && report.placeOf;
  const columns = PIN_COLUMNS.map((it) => (isBlock(it) ? PIN_PLACE : it));
  pinGrid = new Grid($("pin-grid"), { columns, items: report.circuit.args.length,
    none: "No pin blocks the effect of an undetected fault.", order: () => pinOrder, reorder,
    move: (pin) => pinGrid.mark(pin), pick: pickPin });
}

function drawPins() {
  if (!pinGrid) return;
  const list = report.sortedPins(pinOrder.sort, pinOrder.descending);
  const isCut = !allPins && list.length > FIRST_PINS;
  pinGrid.show(isCut ? list.subarray(0, FIRST_PINS) : list);
  const all = plural(list.length, "pin");
  $("pins-found").textContent = isCut ? `The first ${FIRST_PINS} of ${all}` : all;
  $("pins-all").hidden = !isCut;
  $("pins-all").textContent = `Show all ${all}`;
}

function showAllPins() {
  allPins = true;
  drawPins();
  $("pin-grid").focus();
}

/** Finds the faults of the chosen pin: at once for a while, then the others. */
function drawPin() {
  if (!pinGrid) return;
  const { pin } = chosen;
  if (pin !== blocked?.place) {
    blocked = pin === undefined ? null : new Blocked(simulator, report.pins, pin);
    blocked?.scan(100);
    findOn();
  }
  pinGrid.mark(pin ?? -1);
}

/** Finds the faults that are left, a while each time; shows what is found after ever longer. */
function findOn(began = performance.now(), next = 250) {
  const own = blocked;
  if (!own || own.isDone) return;
  setTimeout(() => {
    if (blocked !== own) return;
    own.scan(50);
    const isDue = own.isDone || performance.now() > began + next;
    if (isDue) drawFaults();
    findOn(began, isDue ? 2 * next : next);
  });
}

/** The faults of the chosen pin, each with the first test under which the pin blocks it. */
const blockedFaults = () => blocked?.found;

/** The filter by a pin in words. */
function pinWords(pin) {
  const { tests_kept: kept, sums } = report.head, { pins, circuit } = report;
  const under = kept < sums.tests ? ` under the first ${plural(kept, "test")}` : "";
  const busy = blocked.isDone ? "" : `, ${plural(blocked.found.size, "fault")} so far ..`;
  return `blocked by pin ${pins.number(pin)} of ${circuit.names[pins.gates[pin]]}${under}${busy}`;
}
