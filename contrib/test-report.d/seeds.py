"""Errors that are put into a copy of contrib/report: the test must find each of them.

A row has a part of the test, a file, a text of it that stands there once, and what replaces it. The
part must fail. How the test was tried: all rows below, each by 'contrib/test-report --seeded'.
"""

import os
import shutil
import subprocess
import sys
import tempfile

SEEDS = [
    # the circuit and its fault list
    ("lists", "circuit.js", "if (circuit.sinks(s) < 2) continue;",
     "if (circuit.sinks(s) < 1) continue;"),
    ("lists", "circuit.js", "add(PIN, reader, circuit.readerPins[i] + 1, s)",
     "add(PIN, reader, circuit.readerPins[i], s)"),
    ("lists", "circuit.js", 'model === "stuck" ? ["sa0", "sa1"] : ["str", "stf"]',
     'model === "stuck" ? ["sa0", "sa1"] : ["stf", "str"]'),
    ("lists", "circuit.js", "return 2 * line + bit;", "return 2 * line;"),
    ("lists", "columns.py", "found[1], found[2].upper(), found[3]",
     "found[1], found[2].strip(), found[3]"),
    # what faultsim reported
    ("lists", "results.py", 'int(first) + 1 if first else 0', 'int(first) if first else 0'),
    ("lists", "result.js", "Math.floor(10000 * part / whole)", "Math.round(10000 * part / whole)"),
    ("lists", "result.js", "columns.reason[at++]", "columns.reason[f]"),
    ("lists", "result.js", "for (const it of list) most = Math.max(most, key(it));",
     "most = count;"),
    ("lists", "result.js", "keys.sort();", "keys.sort().reverse();"),
    ("lists", "columns.py", "data[at::width] for at in range(width)",
     "data[at::width] for at in reversed(range(width))"),
    # the simulator
    ("lists", "simulator.js", "if (circuit.isOutput(s)) seen |= differs;", ""),
    ("lists", "simulator.js", "& active & (block ? -1 : ~1)", "& active"),
    ("lists", "simulator.js", "this.good(block - 1)[net] >>> 31", "this.good(block - 1)[net] & 1"),
    ("lists", "simulator.js", "launched & 0xaaaaaaaa", "launched & 0x55555555"),
    ("lists", "simulator.js", "left >= 32 ? -1 : (1 << left) - 1", "-1"),
    ("sample", "simulator.js", "if (heap[i] <= heap[next]) break;", "break;"),
    # blocks
    ("lists", "blocks.js", "circuit.isOutput(s) ? 0 : -1", "-1"),
    ("lists", "blocks.js", "if (parts.length > DEEPEST) parts.length = DEEPEST;", ""),
    ("lists", "result.js", "this.all[8 * parents[node] + i] += this.all[8 * node + i]",
     "this.all[8 * parents[node] + i] += this.own[8 * node + i]"),
    ("use", "blocks.js", "wide = width >= height;", "wide = true;"),
    # places and another list of tests
    ("places", "results.py", 'pin if kind == "out" else name', "name"),
    ("places", "result.js", "if (isOwn(line)) return line;", ";"),
    ("beside", "result.js", "(this.first[f] ? 2 : 0) + (this.other[f] ? 1 : 0)",
     "(this.first[f] ? 1 : 0) + (this.other[f] ? 2 : 0)"),
    # where effects stop
    ("stops", "columns.py", "blocked[place], blocking[place] = int(faults), int(tests)",
     "blocked[place], blocking[place] = int(tests), int(faults)"),
    ("stops", "columns.py", "starts[gate] + int(pin) - 1", "starts[gate] + int(pin) - 2"),
    ("stops", "results.py", "if failure.status != WRONG_CALL:", "if failure.status != 3:"),
    ("stops", "page.py", "<td{kind}>{html.escape(it)}</td>", "<td{kind}>{it}</td>"),
    ("stops", "page.py", "PLAIN_PINS = 20", "PLAIN_PINS = 19"),
    ("stops", "pins.js", "sorted(byTests, (place) => blocked[place], true)", "byTests"),
    ("stops", "pins.js", "sorted(places, (place) => blocking[place], true)", "places"),
    ("stops", "pins.js", "[OR, NOR].includes(kind) ? 1", "[OR, NOR, XOR].includes(kind) ? 1"),
    ("stops", "pins.js", "at === this.place ? 0 : this.holds[b]", "this.holds[b]"),
    ("stops", "pins.js", "& ~changes(net);", ";"),
    ("stops", "pins.js", "return differs & this.words.get(it)[b];",
     "return this.words.get(it)[b];"),
    ("stops", "pins.js", "if (!waiting.length) return", "if (waiting.length < 2) return"),
    ("stops", "pins.js", "value ? good[args[at]] : ~good[args[at]]",
     "value ? ~good[args[at]] : good[args[at]]"),
    ("stops", "pins.js", "this.report.states[f] === DETECTED || this.found.has(f)",
     "this.found.has(f)"),
    ("stops", "pins.js", "word && word & this.simulator.activated(f, this.from + b)", "word"),
    ("stops", "pins.js", "this.found.size === this.wanted ||", "this.found.size ||"),
    ("stops", "pins.js", "isLast && !this.waiting.length", "!this.waiting.length"),
    ("stops", "pins.js", "this.found.set(f, 32 * (this.from + b)", "this.found.set(f, 32 * (b)"),
    ("stops", "simulator.js", "clear() { this.stamp++; }", "clear() {}"),
    ("stops", "pin_view.js", "if (isDue) drawFaults();", ""),
    ("stops", "result.js", "if (blocked && !blocked.has(f)) continue;", ""),
    ("stops", "elements.js", 'if (differs(["pin"])) drawPin();', ""),
    ("stops", "elements.js", 'it.set("pin", report.pins.text(chosen.pin));', ";"),
    ("stops", "grid.js", 'event.key === "Enter" && at >= 0', "false"),
    ("stops", "pin_view.js", "isCut ? list.subarray(0, FIRST_PINS) : list", "list"),
    ("stops", "pin_view.js", "if (report.head.tests_kept) {", "if (report.pins) {"),
    ("stops", "main.js", 'pinGrid.printed(50, "pin")', 'pinGrid.printed(5, "pin")'),
    ("stops", "fault_view.js", "if (faults.kind(f) === PIN) look(faults.owner(f));", ""),
    ("stops", "fault_view.js", "first : held ?? best;", "first : best;"),
    ("stops", "fault_view.js", "(b === blocked?.gate) - (a === blocked?.gate)", "0"),
    # mouse and keys
    ("use", "grid.js", "view.scrollTop = (at * ROW - room) / this.#stretch()",
     "view.scrollTop = (at * ROW - room - 9) / this.#stretch()"),
    ("use", "grid.js", "Math.ceil(view.clientHeight / ROW) + 5",
     "Math.ceil(view.clientHeight / ROW) - 5"),
    ("use", "grid.js", "Math.max(first - 4, 0)", "first + 1"),
    ("use", "elements.js", 'if (chosen.query) it.set("q", chosen.query);', ""),
    ("use", "elements.js", 'history[step ? "pushState" : "replaceState"]',
     'history["replaceState"]'),
    ("use", "grid.js", "Math.max(to, 0)", "to"),
    ("use", "result.js", "if (collapsed && this.leads[this.classes[f]] !== f) continue;", ""),
    ("use", "test_view.js", "most ** part - 1", "most * part - 1"),
    # a chosen fault
    ("fault", "pins.js", "[AND, NAND].includes(kind) ? 0 :", "[AND, NAND].includes(kind) ? 1 :"),
    ("fault", "schematic.js", "sort((a, b) => rank(a) - rank(b) || a - b)",
     "sort((a, b) => a - b)"),
    ("fault", "schematic.js", "for (const c of [2, 3]) for", "for (const c of [2]) for"),
    # what it looks like
    ("looks", "page.css", "--quiet: #55616e;", "--quiet: #a5b1be;"),
    ("looks", "page.css", "#grid .row > :is(:nth-child(2), :nth-child(n + 4))", "#none"),
    ("looks", "page.css", "#pin-grid .row { grid-template-columns: minmax(0, 1fr) minmax(0, 1fr)",
     "#pin-grid .row { grid-template-columns: minmax(0, 1fr) 20rem"),
    ("looks", "page.css",
     "repeating-linear-gradient(90deg, transparent 0 3px, #fff6 3px 4px) ", ""),
    ("looks", "page.html", '<div id="printed" class="printed"></div>',
     '<div id="printed" class="printed"></div><i id="found"></i>'),
    ("looks", "page.html", '<label>State <select id="state">', '<label><select id="state">'),
    ("looks", "page.py", "html.escape(head[\"title\"])", "head[\"title\"]"),
    ("looks", "page.html", "default-src 'none'; ", "default-src 'none'; img-src https: ; "),
    ("looks", "main.js", "faultGrid.printed(200,", "faultGrid.printed(20,"),
    ("firefox", "page.css", "  scrollbar-gutter: stable;", ""),
    # errors
    ("errors", "report", "os.unlink(beside)", "pass"),
    ("errors", "report", 'with open(beside, "x", encoding="utf-8") as file:',
     'open(path, "w").close()\n    with open(beside, "x", encoding="utf-8") as file:'),
    ("errors", "results.py", "ran.returncode if ran.returncode > 0 else 3", "1"),
]


def seeded(room, folder, seed):
    """A copy of contrib/report with an error."""
    _, name, old, new = seed
    for it in ("report.d", "netlist.d"):
        shutil.copytree(f"{folder}/{it}", f"{room}/{it}")
    for it in ("report", "where"):
        shutil.copy(f"{folder}/{it}", room)
    path = f"{room}/{name}" if name == "report" else f"{room}/report.d/{name}"
    with open(path, encoding="utf-8") as file:
        text = file.read()
    if text.count(old) != 1:
        sys.exit(f"test-report: {name} has {text.count(old)} times: {old}")
    with open(path, "w", encoding="utf-8") as file:
        file.write(text.replace(old, new))
    return f"{room}/report"


def run(given, test):
    """Tries each row; ends with status 1 if the test doesn't find an error."""
    missed = 0
    seeds = [seed for seed in SEEDS if given.only in (None, seed[0])]
    for seed in seeds:
        part, name, old, _ = seed
        with tempfile.TemporaryDirectory(prefix="seeded-") as room:
            report = seeded(room, os.path.dirname(given.report), seed)
            words = [sys.executable, test, "--only", part, "--report", report, given.faultsim]
            ran = subprocess.run(words, capture_output=True, text=True, check=False)
        is_found = ran.returncode == 1 and not ran.stderr.startswith("Traceback")
        missed += not is_found
        said = ran.stderr.strip().split("\n")[-1].removeprefix("test-report: ")[:70]
        print(f"{'found' if is_found else 'MISSED'} {name}: {old[:44]!r} by {said}", flush=True)
    print(f"{len(seeds) - missed} of {len(seeds)} errors found")
    sys.exit(1 if missed else 0)
