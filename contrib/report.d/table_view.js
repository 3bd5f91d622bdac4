// Draws the table of faults: its columns, its filters, and what they show.

let faultGrid;                                 // the table

const isMost = (f) => report.counts[f] === report.head.detections;
const countWords = (f) => (isMost(f) ? "≥ " : "") + report.counts[f];

const COLUMNS = [
  { by: "name", title: "Fault", cell: (f) => nameCell(report.faults.text(f), lineWords(f)) },
  { by: "block", title: "Block", cell: (f) => {
    const path = report.blocks.paths[report.home(f)] || "(top)";
    return nameCell(path, report.place(f) || path);
  } },
  { by: "state", title: "State", cell: (f) => make("span", {},
    make("span", { class: "sign", "aria-hidden": "true" }, SIGNS[report.states[f]]),
    STATES[report.states[f]]) },
  { by: "first", title: "First", hint: "the first test that detects the fault", isNumber: true,
    cell: (f) => numberCell(report.first[f] ? number(report.first[f] - 1) : "–") },
  { by: "count", title: "Tests", hint: "the number of tests that detect the fault",
    isNumber: true, isCount: true,
    cell: (f) => numberCell(countWords(f)) },
  { by: "size", title: "Class", hint: "the number of faults in its equivalence class",
    isNumber: true, isCount: true,
    cell: (f) => numberCell(report.sizes[report.classes[f]]) },
];
// the column of a page with a map
const PLACE = { by: "place", title: "Design", hint: "where the line is in the design",
  cell: (f) => make("span", { class: "place", title: report.place(f) }, report.place(f)) };

/** The line of a fault, in words. */
function lineWords(f) {
  const { faults, circuit } = report, line = f >> 1, net = circuit.names[faults.nets[line]];
  const owner = circuit.names[faults.owners[line]], pin = faults.pins[line];
  switch (faults.kinds[line]) {
    case PIN: return `pin ${pin} of the gate that drives ${owner}; it reads ${net}`;
    case DATA: return `data pin of the flip-flop ${owner}; it reads ${net}`;
    case OUT: return `output ${pin}, which observes ${net}`;
    default: return `signal ${net}, with all pins that read it`;
  }
}

/** What is filtered by other parts of the page, each with a button that ends it. */
function drawChips() {
  const chips = [], { block, own, count, test, beside } = chosen, { head, blocks } = report;
  const chip = (text, changes) => chips.push(make("span", { class: "chip" }, text,
    button("×", () => choose(changes), { "aria-label": `End the filter: ${text}` })));
  if (block || own) {
    const path = blocks.paths[block] || "(top)";
    chip(`block ${path}${own ? ", shared logic" : ""}`, { block: 0, own: false });
  }
  if (count !== undefined) {
    const more = count === head.detections ? " or more" : "";
    chip(`detected by ${count}${more} tests`, { count: undefined });
  }
  if (test !== undefined) chip(`first detected by test ${test}`, { test: undefined });
  if (beside !== undefined && report.other) {
    chip(`${BESIDE[beside] ?? "?"}, beside ${head.beside}`, { beside: undefined });
  }
  if (blocked) chip(pinWords(chosen.pin), { pin: undefined });
  $("chips").replaceChildren(...chips);
}

function drawFilters() {
  if ($("query").value !== chosen.query) $("query").value = chosen.query;
  $("state").value = chosen.state === undefined ? "" : chosen.state;
  $("kind").value = chosen.kind ?? "";
  $("collapsed").checked = chosen.collapsed;
  drawChips();
}

function drawFaults() {
  const began = performance.now();
  const list = report.filter({ ...chosen, blocked: blockedFaults() });
  if (chosen.sort !== "list") report.sort(list, chosen.sort, chosen.descending);
  drawFilters();
  faultGrid.on = chosen.fault;
  faultGrid.show(list);
  $("found").textContent = `${number(list.length)} of ${plural(report.faults.count, "fault")}`;
  times.filter = performance.now() - began;
}

/** Makes the table, once the data is there. */
function makeFaultGrid() {
  if (report.placeOf) {
    COLUMNS.push(PLACE);
    document.body.classList.add("placed");
  }
  faultGrid = new Grid($("grid"), { columns: COLUMNS, items: report.faults.count,
    none: "No fault fits.", order: () => chosen, reorder: choose,
    move: (fault) => choose({ fault }), pick: (fault) => choose({ fault }, true) });
}
