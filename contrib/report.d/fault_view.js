// Draws the chosen fault: its facts, what the tests do with it, and where its effect stops.

// The test of the values, the signal in the middle of the picture, what scan found, and the test
// under which the chosen pin blocks the fault.
const view = { fault: -1, test: -1, centre: -1, scan: null, held: undefined };

/** Other faults of the class of a fault, up to some. */
function classMates(f, most) {
  const { classes, leads, sizes, faults } = report, mates = [], own = classes[f];
  let left = sizes[own] - 1;
  for (let it = leads[own]; left && mates.length < most && it < faults.count; it++) {
    if (classes[it] !== own || it === f) continue;
    left--;
    mates.push(it);
  }
  return mates;
}

/** The state of a fault in words, and which of two lists of tests detect it. */
function stateWords(f) {
  const { states, first, counts, head, other } = report, state = states[f], parts = [STATES[state]];
  if (state === DETECTED) {
    const most = counts[f] === head.detections ? "at least " : "";
    const verb = counts[f] === 1 ? "test detects" : "tests detect";
    parts.push(`first by test ${number(first[f] - 1)}; ${most}${counts[f]} ${verb} it`);
  }
  if (other) {
    const by = other[f] ? `first by its test ${number(other[f] - 1)}` : "undetected";
    parts.push(`beside ${head.beside}: ${by}`);
  }
  return `${SIGNS[state]} ${parts.join(", ")}`;
}

/** The facts of a fault: names, and texts or elements. */
function factsOf(f) {
  const { faults, circuit, blocks, depth } = report, home = report.home(f);
  const jump = (it) => button(faults.text(it), () => choose({ fault: it }, true));
  const mates = classMates(f, 12), others = report.sizes[report.classes[f]] - 1;
  const more = others > mates.length ? `, and ${others - mates.length} more` : "";
  const goHome = () => choose({ block: home, own: false }, true);
  const isInferred = blocks.inferred[faults.owner(f)];
  const place = report.place(f);
  return [
    ["line", lineWords(f)],
    ...(place ? [["design", place]] : []),
    ["block", make("span", {}, button(blocks.paths[home] || "(top)", goHome),
      isInferred ? " (by what reads it)" : "")],
    ["level", `${circuit.levels[faults.net(f)]} of at most ${depth}`],
    ["state", stateWords(f)],
    ["equivalent", others ? make("span", {}, ...joined(mates.map(jump), ", "), more) : "none"],
  ];
}

/**
 * Simulates a fault for a moment, and chooses the test of its values: if the chosen pin blocks it,
 * one under which it does, with the gate of the pin in the middle.
 */
function begin(f) {
  const kept = report.head.tests_kept, first = report.first[f] - 1;
  const scan = kept ? simulator.scan(f, 60) : null, held = blocked?.found.get(f);
  const best = scan && scan.best >= 0 ? scan.best : 0;
  const test = !kept ? -1 : first >= 0 && first < kept ? first : held ?? best;
  const centre = held === undefined ? -1 : blocked.gate;
  Object.assign(view, { fault: f, scan, centre, test, held });
}

function drawDetail() {
  const f = chosen.fault, box = $("detail");
  document.body.classList.toggle("picked", f >= 0);
  if (f < 0) {
    view.fault = -1;
    box.replaceChildren();
    $("around").replaceChildren();
    return;
  }
  if (view.fault !== f) begin(f);
  const facts = factsOf(f);
  box.replaceChildren(make("h3", {}, report.faults.text(f)),
    make("dl", {}, ...facts.flatMap(([name, it]) => [make("dt", {}, name), make("dd", {}, it)])),
    make("p", { id: "tests-of" }), make("p", { class: "links", id: "stops-of" }),
    make("p", { class: "tools" }, button("Copy link", (event) => copyLink(event.target)),
      button("Close", () => choose({ fault: -1 }, true))));
  const most = report.head.tests_kept - 1;
  const values = view.test < 0 ? [] : [make("label", {}, "Values under test ", make("input", {
    type: "number", id: "values", min: 0, max: most, value: view.test,
    onchange: ({ target }) => showTest(Math.floor(Number(target.value)) || 0) }))];
  const goBack = () => { view.centre = -1; drawAround(); };
  $("around").replaceChildren(make("div", { class: "tools" }, ...values,
    button("Back to the fault", goBack, { id: "back" }),
    make("span", { class: "quiet" }, "A box is a signal with its gate. 1→0: the fault changes the "
      + "value. A click on a box puts it into the middle.")),
  make("div", { id: "picture", tabindex: 0, role: "region",
    "aria-label": "Neighbourhood of the fault" }));
  drawAround();
  scanOn();
}

function showTest(test) {
  view.test = Math.min(Math.max(test, 0), report.head.tests_kept - 1);
  drawAround();
}

/** Simulates the fault under the tests that are left, a while each time. */
function scanOn() {
  const { fault, scan } = view;
  if (!scan || scan.tried >= report.head.tests_kept) return;
  setTimeout(() => {
    if (view.fault !== fault || chosen.fault !== fault) return;
    const before = Math.max(scan.best, 0);
    simulator.scan(fault, 40, scan);
    const isOpen = !report.first[fault] && view.held === undefined;
    const isBetter = isOpen && scan.best > before && view.test === before;
    if (isBetter) showTest(scan.best);
    else drawTestsOf();
    scanOn();
  });
}

async function copyLink(button) {
  if (writeAddress.timer) writeAddress.now(false);
  try {
    await navigator.clipboard.writeText(location.href);
    button.textContent = "Copied";
  } catch {
    prompt("The link:", location.href);
  }
}

/** Fault-free and faulty values of signals and pins under a test. */
function valuesUnder(f, test) {
  if (test < 0) return null;
  const { faults, circuit } = report, block = test >> 5, k = test & 31, line = f >> 1;
  const good = simulator.good(block), { active, seen, reach, words } = simulator.fault(f, block);
  const isActive = active >>> k & 1, kind = faults.kinds[line];
  const signal = (s) => [good[s] >>> k & 1, (words.get(s) ?? good[s]) >>> k & 1];
  const pin = (s, i) => {
    const [good, faulty] = signal(circuit.pins(s)[i]);
    const isPin = kind === DATA || (kind === PIN && faults.pins[line] === i + 1);
    return [good, isPin && faults.owners[line] === s && isActive ? 1 - good : faulty];
  };
  return { signal, pin, active: isActive, seen: seen >>> k & 1, reach: reach[k], words };
}

const isChanged = ([good, faulty]) => good !== faulty;

/** Draws the picture of the fault, and the words that belong to its test. */
function drawAround() {
  const { faults, circuit } = report, f = chosen.fault, line = f >> 1;
  const values = valuesUnder(f, view.test), isOut = faults.kinds[line] === OUT;
  const own = isOut ? faults.nets[line] : faults.owners[line];
  const centre = view.centre < 0 ? own : view.centre;
  $("back").hidden = centre === own;
  if ($("values")) $("values").value = view.test;
  $("picture").replaceChildren(neighbourhood(centre, line, values));
  const middle = $("picture").querySelector(".centre rect");
  const x = Number(middle.getAttribute("x")) + Number(middle.getAttribute("width")) / 2;
  $("picture").scrollLeft = x - $("picture").clientWidth / 2;
  drawTestsOf(values);
  const stops = values && !values.seen ? stopsOf(f, values) : [];
  const parts = joined(stops.slice(0, 6).map(([gate, held]) => {
    const pins = [...new Set(held)].map((s) => `${circuit.names[s]} = ${values.signal(s)[0]}`);
    const how = pins.length ? ` with ${pins.join(", ")}` : ": its changes cancel out";
    const go = () => { view.centre = gate; drawAround(); };
    const kind = KINDS[circuit.kinds[gate]];
    return make("span", {}, button(circuit.names[gate], go), ` (${kind}${how})`);
  }), ", ");
  const more = stops.length > 6 ? `, and ${stops.length - 6} more` : "";
  $("stops-of").replaceChildren(...(parts.length ? ["The effect stops at: ", ...parts, more] : []));
}

function drawTestsOf(values = valuesUnder(chosen.fault, view.test)) {
  $("tests-of").textContent = values ? testWords(values)
    : "The page has no bits of the tests (--values).";
}

/** What the tests do with the fault. */
function testWords(values) {
  const { scan, test } = view, tests = report.head.sums.tests;
  const here = values.seen ? "detects the fault" : !values.active ? "doesn't activate the fault"
    : values.reach ? `activates the fault and changes ${plural(values.reach, "signal")}, none of `
      + "them observed" : "activates the fault and changes no signal";
  const isAll = scan.tried === tests;
  const of = `${isAll ? "all" : "the first"} ${plural(scan.tried, "test")}`;
  const { active, seen } = scan, verb = (n, word) => (n > 1 ? word : `${word}s`);
  const all = !active ? `None of ${of} activates it.`
    : `Of ${of}, ${number(active)} ${verb(active, "activate")} it and `
      + `${seen ? number(seen) : "none"} ${verb(seen, "detect")} it.`;
  const best = !seen && active > 1
    ? ` Under test ${scan.best} it changes the most signals: ${number(scan.reach)}.` : "";
  return `${all}${best} Test ${test} ${here}.`;
}

/** Gates with a changed pin that don't change, each with the pins that block the effect. */
function stopsOf(f, { words, signal, pin }) {
  const { circuit, faults } = report, stops = new Map();
  const look = (gate) => {
    if (circuit.kinds[gate] === DFF || stops.has(gate) || isChanged(signal(gate))) return;
    const pins = [...circuit.pins(gate).keys()], value = controlling(circuit.kinds[gate]);
    if (!pins.some((i) => isChanged(pin(gate, i)))) return;
    const held = pins.filter((i) => pin(gate, i).every((it) => it === value));
    stops.set(gate, held.map((i) => circuit.pins(gate)[i]));
  };
  if (faults.kind(f) === PIN) look(faults.owner(f));
  for (const s of words.keys()) {
    if (!isChanged(signal(s))) continue;
    for (let i = circuit.readStarts[s]; i < circuit.readStarts[s + 1]; i++) {
      look(circuit.readers[i]);
    }
  }
  // the gate of the chosen pin comes first
  return [...stops].sort(([a], [b]) => (b === blocked?.gate) - (a === blocked?.gate));
}
