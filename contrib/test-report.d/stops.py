"""Tries where effects stop: the pins that block them, and the faults of a pin."""

import csv
import os
import re
import time

from blocking import blocking_pins
from circuits import LISTED, MANY_PINS, MODELS, Case, put, same, texts

ROWS = """report.pins.list.reduce((made, it) => [...made, [
  report.circuit.names[report.pins.gates[it]], report.pins.number(it),
  report.circuit.names[report.circuit.args[it]], report.pins.value(it), report.pins.faults[it],
  report.pins.tests[it]].map(String)], [])"""
# of each pin the faults that it blocks, as the page finds them; and those that the picture of the
# fault doesn't show to be blocked by this pin under the test that the page chooses
FOUND = """[...report.pins.list].map((it) => {
  const own = new Blocked(simulator, report.pins, it), { pins, circuit, faults } = report;
  own.scan(1e9);
  const isShown = ([f, test]) => stopsOf(f, valuesUnder(f, test)).some(([gate, held]) =>
    gate === pins.gates[it] && held.includes(circuit.args[it]));
  return [[...own.found.keys()].map((f) => faults.text(f)).sort(),
    [...own.found].filter((pair) => !isShown(pair))];
})"""
# the same by a search that doesn't end as soon as there are as many as faultsim counted
ALL_FOUND = FOUND.replace("own.scan", "own.wanted = Infinity; own.scan")
PIN_ROWS = """[...document.querySelectorAll("#pin-rows [role=row]")].map((row) =>
  [...row.children].map((it) => it.textContent))"""
SHOWN = "document.querySelector('#pins-found').textContent"
CHIPS = "document.querySelector('#chips').textContent"
# A circuit by hand. Under test 0 (a = 1, b = 0, c = 0) y = OR(a, b) = 1 and z = AND(y, c) = 0.
# Undetected: a stuck at 0 stops at pin 2 of z, so does y stuck at 0; b stuck at 1 stops at pin 1
# of y. That c is stuck at 1 is detected. The other faults aren't activated.
# (c has a name that HTML can take for something else.)
SMALL = "INPUT(a)\nINPUT(b)\nINPUT(<b>c)\nOUTPUT(z)\ny = OR(a, b)\nz = AND(y, <b>c)\n"
BY_HAND = [["z", "2", "<b>c", "0", "2", "1"], ["y", "1", "a", "1", "1", "1"]]
# What an older faultsim does that doesn't know the option.
OLDER = """#!/bin/sh
for word in "$@"; do
  if [ "$word" = --blocking ]; then echo "there is no --blocking" >&2; exit 2; fi
done
exec '%s' "$@"
"""
# What fails in any other way.
FAILING = OLDER.replace("there is no --blocking", "faultsim: out of memory").replace("exit 2",
                                                                                     "exit 3")


def program_rows(case):
    """What faultsim prints."""
    return list(csv.reader(case.lines("run", "--blocking", "--format", "csv")))[1:]


def fault_text(line, stuck, model):
    """A fault of blocking.py as faultsim reports it."""
    where = f"stem {line}" if isinstance(line, str) else f"pin {line[0]} {line[1] + 1}"
    return f"{where} {(('sa0', 'sa1') if model == 'stuck' else ('str', 'stf'))[stuck]}"


def compare(page, tools, name, model):
    """Compares the rows of the page and of faultsim, and the faults of each pin, with the second
    program. Returns the number of pins."""
    with open(f"{name}.bench", encoding="utf-8") as bench, open(f"{name}.tests") as tests:
        rows, faults = blocking_pins(bench.read(), tests.read(), model)
    case = Case(tools, name, model)
    page.open(case.page)
    wanted = [[str(it) for it in row] for row in rows]
    same(program_rows(case), wanted, f"{case.name}: pins of faultsim")
    same(page.run(ROWS), wanted, f"{case.name}: pins")
    # (then block by block, as the page goes if there is no room for the words of all)
    for room, script in (("simulator.room", FOUND), ("1", ALL_FOUND)):
        page.run(f"simulator.room = {room}")
        for row, (found, hidden) in zip(rows, page.run(script)):
            held = sorted(fault_text(*it, model) for it in faults[row[0], row[1] - 1])
            same(found, held, f"{case.name}: faults of pin {row[1]} of {row[0]}")
            same(hidden, [], f"{case.name}: where the effects at {row[0]} stop")
    same(page.complaints(), [], f"{case.name}: complaints")
    return len(rows)


def natural(name):
    """A name by which names sort with n9 before n10."""
    return re.sub(r"\d+", lambda it: it[0].zfill(9), name)


def compare_uart(page, case, rows):
    """A design: the rows as faultsim has them, as many faults of each pin, and columns in order."""
    page.open(case.page)
    same(page.run(ROWS), rows, "simpleuart: pins")
    found = page.run(f"{ALL_FOUND}.map(([found, hidden]) => [found.length, hidden.length])")
    same(found, [[int(row[4]), 0] for row in rows], "simpleuart: numbers of faults")
    for by, at, key in (("gate", 0, natural), ("pin", 1, int), ("net", 2, natural),
                        ("value", 3, int), ("faults", 4, int), ("tests", 5, int)):
        for descending in (False, True):
            list_of = f"report.sortedPins('{by}', {str(descending).lower()})"
            shown = page.run(ROWS.replace("report.pins.list", list_of))
            wanted = sorted(rows, key=lambda row: key(row[at]), reverse=descending)
            same(shown, wanted, f"simpleuart: pins by {by}")


def by_hand(page, tools):
    """Small circuits whose pins are worked out by hand."""
    for name, bench, tests, wanted in (
            ("small", SMALL, "100\n", BY_HAND),
            ("pins", MANY_PINS, "0" + "1" * 59 + "\n", [["all", "1", "w[0]", "0", "59", "1"]])):
        case = Case.of(tools, name, bench, tests)
        page.open(case.page)
        same(page.run(ROWS), wanted, f"{name}: pins by hand")
        same(page.run(SHOWN), "2 pins" if name == "small" else "1 pin", f"{name}: the words")
    with open("small-stuck.html", encoding="utf-8") as file:
        same("<td>&lt;b&gt;c</td>" in file.read(), True, "small: a name in plain HTML")


class Stops:
    """The part of the page of simpleuart, by mouse and keys."""

    def __init__(self, page, case, rows):
        self.page, self.case, self.rows = page, case, rows
        page.window(1400, 900)
        page.open(case.page)

    def filters(self, row, what):
        """The table of faults has those of a pin, and a chip says so."""
        page, (gate, pin, *_, faults, _) = self.page, row
        page.wait(f"blocked?.isDone && faultGrid.list.length === {faults}")
        same(page.run(CHIPS), f"blocked by pin {pin} of {gate}×", what)
        same(page.run("[...faultGrid.list].every((f) => report.states[f] === 2)"), True, what)

    def mouse(self):
        """The first rows; a click filters, and the address, Back and Forward have it."""
        page, rows = self.page, self.rows
        shown = [[row[0], *row[3:]] for row in page.run(PIN_ROWS)]
        wanted = [[*row[:4], f"{int(row[4]):,}", f"{int(row[5]):,}"] for row in rows]
        same(shown[:11], wanted[:11], "the first pins")
        same(page.run(SHOWN), f"The first 50 of {len(rows)} pins", "the words of the pins")
        page.click("#pin-rows .row:nth-child(3)")
        self.filters(rows[2], "a click on a pin")
        page.wait("location.hash.includes('pin=')")
        page.run("history.back()")
        page.wait("chosen.pin === undefined")
        page.run("history.forward()")
        page.wait("chosen.pin !== undefined")
        self.filters(rows[2], "Forward to a pin")
        page.open(self.case.page, page.run("location.hash"))
        self.filters(rows[2], "a link to a pin")
        same(page.run("document.querySelector('#pin-rows .on').firstChild.textContent"), rows[2][0],
             "the row of the pin")
        page.click("#chips button")
        page.wait("chosen.pin === undefined")
        same(page.run("document.querySelector('#pin-rows .on')"), None, "no row after the filter")
        page.open(self.case.page, "#pin=nothing+1")
        same(page.run("[chosen.pin, blocked]"), [None, None], "a link to no pin")

    def keys(self):
        """Arrows walk, Enter filters, Escape ends it."""
        page, rows = self.page, self.rows
        page.run("document.querySelector('#pin-grid').focus()")
        for _ in range(2):
            page.key("ArrowDown")
        active = page.run("document.getElementById(document.querySelector('#pin-grid')"
                          ".getAttribute('aria-activedescendant')).firstChild.textContent")
        same((active, page.run("chosen.pin")), (rows[1][0], None), "the second pin by arrows")
        page.key("Enter")
        self.filters(rows[1], "Enter at a pin")
        page.key("End")
        same(page.run("pinGrid.list.indexOf(pinGrid.on)"), 49, "the last of the first pins")
        page.key("Escape")
        page.wait("chosen.pin === undefined && !blocked")

    def fault(self):
        """A fault of the filtered table: a test under which the pin blocks it, and the gate."""
        page, (gate, _, net, value, _, _) = self.page, self.rows[0]
        page.open(self.case.page)
        page.click("#pin-rows .row:nth-child(1)")
        self.filters(self.rows[0], "the first pin")
        page.click("#rows .row:nth-child(2)")
        same(page.run("view.test === blocked.found.get(chosen.fault)"), True, "the test of a pin")
        label = page.run("document.querySelector('#picture .centre').getAttribute('aria-label')")
        same(label.split(",")[0].split()[1], gate, "the gate of the pin in the middle")
        words = page.run("document.querySelector('#stops-of').textContent")
        same(re.match(r"The effect stops at: (\S+) \(\w+ with (.*?)\)", words)[1], gate, words)
        same(f"{net} = {value}" in words.split(")")[0], True, words)
        page.key("Escape")

    def slowly(self):
        """A search that takes long shows what is found so far, and all at last."""
        page = self.page
        page.open(self.case.page)
        page.run("""(() => {
          const { scan } = Blocked.prototype;
          Blocked.prototype.scan = function () { scan.call(this, 0.1); };
        })()""")
        words = page.run("(pickPin(report.pins.list[0]), document.querySelector('#chips')"
                         ".textContent)")
        same(words.endswith(" so far ..×"), True, f"a search that takes long: {words}")
        self.filters(self.rows[0], "a search that takes long")
        page.open(self.case.page)

    def all(self):
        """The button shows all pins; heads sort them."""
        page, rows = self.page, self.rows
        page.click("#pins-all")
        same(page.run(SHOWN), f"{len(rows)} pins", "all pins")
        same(page.run("document.querySelector('#pin-grid').getAttribute('aria-rowcount')"),
             str(len(rows) + 1), "rows of all pins")
        page.key("End")
        same(page.run(PIN_ROWS)[-1][0], rows[-1][0], "the last pin")
        way = "document.querySelector('#pin-grid [role=columnheader]:nth-child(8)').ariaSort"
        ways = []
        for _ in range(3):
            page.click("#pin-grid [role=columnheader]:nth-child(8) button")
            ways.append((page.run(way), page.run("report.pins.tests[pinGrid.list[0]]")))
        tests = [int(row[5]) for row in rows]
        same(ways, [("descending", max(tests)), ("ascending", min(tests)), ("none", tests[0])],
             "pins by tests")

    def paper(self):
        """Paper has the first pins."""
        page = self.page
        page.open(self.case.page)
        page.run("dispatchEvent(new Event('beforeprint'))")
        shown = page.run("[...document.querySelectorAll('#pins-printed tbody tr')].map((row) =>"
                         "[0, 3, 4].map((at) => row.children[at].textContent))")
        same(shown, [row[:3] for row in self.rows[:50]], "pins on paper")
        page.run("dispatchEvent(new Event('afterprint'))")


def without_script(page, case, rows):
    """Without JavaScript the first pins are there, and no empty part."""
    page.send("Emulation.setScriptExecutionDisabled", value=True)
    page.send("Page.navigate", url=f"file://{os.path.realpath(case.page)}")
    until = time.monotonic() + 10
    cells = []
    while len(cells) != 120:
        same(time.monotonic() < until, True, f"pins without JavaScript: {len(cells)} cells")
        time.sleep(0.1)
        nodes = page.send("Accessibility.getFullAXTree")["nodes"]
        seen = [(it["role"]["value"], it.get("name", {}).get("value")) for it in nodes
                if not it.get("ignored")]
        cells = [name for role, name in seen if role in ("cell", "gridcell")]
    same([cells[at:at + 6] for at in range(0, 120, 6)], rows[:20], "pins without JavaScript")
    same([name for role, name in seen if role == "heading"],
         [case.page.split("-")[0], "Summary", "Where effects stop"], "parts without JavaScript")
    page.send("Emulation.setScriptExecutionDisabled", value=False)


def with_less(page, case, rows):
    """Pages with the bits of two tests or of none."""
    page.open(case.page)
    early = page.run("""(() => {
      const own = new Blocked(simulator, report.pins, report.pins.list[0]);
      own.scan(1e9);
      return [...own.found].filter(([, test]) => test < 2)
        .map(([f]) => report.faults.text(f)).sort();
    })()""")
    # (a test of 203 bits takes 26 bytes, so 60 bytes have room for two)
    case.make("few.html", "--values", "0.00006")
    page.open("few.html")
    page.click("#pin-rows .row")
    page.wait("blocked?.isDone")
    same(sorted(page.run(LISTED)), early, "faults of a pin under two tests")
    same(page.run(CHIPS).endswith(" under the first 2 tests×"), True, page.run(CHIPS))
    case.make("bare.html", "--values", "0")
    page.open("bare.html")
    page.click("#pin-rows .row")
    same(page.run("[report.faults.text(chosen.fault), chosen.pin]"),
         [f"stem {rows[0][0]} sa0", None], "the gate of a pin without values")
    page.open("bare.html", f"#pin={rows[0][0]}+{rows[0][1]}")
    same(page.run("[chosen.pin, blocked]"), [None, None], "a link to a pin without values")


def with_others(page, tools, case):
    """A faultsim that doesn't have the option, and one that fails."""
    for name, text in (("older", OLDER), ("failing", FAILING)):
        put(name, text % tools.faultsim)
        os.chmod(name, 0o755)
    case.make("older.html", "--faultsim", "./older")
    page.open("older.html", "#pin=n1+1")
    shown = page.run("['#blocking', '#to-blocking'].map((it) =>"
                     "document.querySelector(it).getClientRects().length)")
    same(shown, [0, 0], "the part of an older faultsim")
    with open("older.html", encoding="utf-8") as file:
        same("<h2>Where effects stop</h2>" in file.read(), False, "an older faultsim: pins")
    ran = case.make("failing.html", "--faultsim", "./failing")
    same((ran.returncode, ran.stderr), (3, "faultsim: out of memory\n"), "a faultsim that fails")


def try_stops(page, tools):
    """Pins by a second program, by faultsim, by hand, by mouse and by keys."""
    circuits, pins = texts(), 0
    uart = circuits.pop("simpleuart")
    for name, (bench, tests) in circuits.items():
        put(f"{name}.bench", bench)
        put(f"{name}.tests", tests)
        for model in MODELS:
            pins += compare(page, tools, name, model)
    by_hand(page, tools)
    case = Case.of(tools, "simpleuart", *uart)
    rows = program_rows(case)
    compare_uart(page, case, rows)
    use = Stops(page, case, rows)
    for part in (use.mouse, use.keys, use.fault, use.slowly, use.all, use.paper):
        part()
    with_less(page, case, rows)
    with_others(page, tools, case)
    same(page.complaints(), [], "stops: complaints")
    without_script(page, case, rows)
    return f"{pins + len(rows)} pins that block effects"
