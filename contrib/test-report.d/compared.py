"""Compares what the scripts of a page make with what faultsim prints."""

import os
import re
import subprocess
import sys
from collections import Counter
from concurrent.futures import ThreadPoolExecutor

from circuits import (ALL_MODELS, LISTED, MODELS, MOST, Case, design, put, same, statements,
                      tests_of, texts)

MADE = """(() => {
  const { faults, states, first, counts, classes, curve, histogram, head, circuit } = report;
  const all = [...states.keys()], text = (f) => faults.text(f), { tests_kept: kept } = head;
  const flops = [...circuit.kinds.keys()].filter((s) => circuit.kinds[s] === DFF);
  return {
    list: all.map((f) => `${text(f)} ${first[f] ? first[f] - 1 : "none"}`),
    why: all.filter((f) => states[f] !== DETECTED)
      .map((f) => `${text(f)} none ${REASONS[states[f]]}`),
    curve: curve.map(([test, sum]) => `${test} ${sum} ${percent(sum, faults.count)}`),
    histogram: [...histogram].map((n, count) => `${count} ${n}`),
    classes: all.map((f) => `${text(f)} class ${classes[f]}`),
    found: all.every((f) => faults.find(text(f)) === f),
    csv: report.csv(all).split("\\n").slice(0, -1)
      .map((row) => row.split(",").slice(0, 6).join(",")),
    sorted: ["first", "count", "size", "state", "block", "name"].flatMap((by) =>
      [false, true].map((descending) => {
        const keys = { first: (f) => first[f] || 99999, count: (f) => counts[f],
          size: (f) => report.sizes[classes[f]], state: (f) => states[f],
          block: (f) => report.home(f), name: (f) => report.ranks()[faults.owner(f)] };
        const key = keys[by], wanted = [...all].sort((a, b) =>
          (descending ? key(b) - key(a) : key(a) - key(b)) || a - b);
        const made = [...report.sort(Uint32Array.from(all), by, descending)];
        return made.join() === wanted.join() ? "" : by;
      })),
    responses: Array.from({ length: kept }, (_, t) => {
      const words = simulator.good(t >> 5), at = (s) => words[s] >>> (t & 31) & 1;
      return [...circuit.outs].map(at).join("") + flops.map((s) => at(circuit.pins(s)[0])).join("");
    }),
  };
})()"""
# The first test, the number of tests that detect a fault, whether one activates it, and what the
# page has of faultsim.
SIMULATED = """((step) => {
  const { states, first, counts, head } = report, made = [];
  for (let f = 0; f < states.length; f += step) {
    const { tried, active, seen } = simulator.scan(f, 1e9);
    let at = -1;
    for (let b = 0; at < 0 && 32 * b < head.tests_kept; b++) {
      const { seen } = simulator.fault(f, b);
      if (seen) at = 32 * b + 31 - Math.clz32(seen & -seen);
    }
    made.push([[at + 1, Math.min(seen, head.detections), active > 0, tried],
      [first[f], counts[f], states[f]]]);
  }
  return made;
})"""
LANES = """[...report.states.keys()].map((f) => Array.from({ length: report.head.tests_kept },
  (_, t) => simulator.fault(f, t >> 5).seen >>> (t & 31) & 1).join(""))"""


def compare(page, case):
    """Compares all that the page's scripts made with what faultsim prints."""
    page.open(case.page)
    made, name = page.run(MADE), case.name
    same(made["list"], case.lines("run", "--list")[:-1], f"{name}: list")
    same(made["why"], case.lines("run", "--undetected", "--why")[:-2], f"{name}: reasons")
    same(made["curve"], case.lines("curve")[:-1], f"{name}: curve")
    histogram = case.lines("run", "--detections", MOST, "--histogram")[1:]
    same(made["histogram"], histogram, f"{name}: histogram")
    same(made["classes"], case.lines("faults", tests=False)[:-1], f"{name}: classes")
    same(made["csv"], case.lines("run", "--format", "csv"), f"{name}: table")
    same(made["responses"], case.lines("responses", model=False), f"{name}: responses")
    same(made["found"], True, f"{name}: links to faults")
    same([it for it in made["sorted"] if it], [], f"{name}: sorted")
    compare_simulated(page, name, 1 if len(made["list"]) < 2000 else 11)
    same(page.complaints(), [], f"{name}: complaints")
    return len(made["list"])


def compare_simulated(page, name, step):
    """Compares the page's own simulator with faultsim for each fault, or for each few."""
    made = page.run(f"{SIMULATED}({step})")
    tests = page.run("report.head.sums.tests")
    for (first, count, active, tried), (wanted, counted, state) in made:
        same([first, count, tried], [wanted, counted, tests], f"{name}: simulated")
        # (a fault without a path may be activated or not)
        same(state == 0 or active == (state > 1), True, f"{name}: activated")
    return len(made)


def compare_lanes(page, case):
    """Compares, for each fault and each test, whether the test detects it."""
    page.open(case.page)
    with open(case.tests, encoding="ascii") as file:
        rows = [line.partition("#")[0].strip() for line in file]
    wanted = [""] * page.run("report.faults.count")
    known = {}
    for row in rows:
        if row not in known:
            put("one.row", f"{row}\n")
            listed = case.lines("run", "--list", tests="one.row")[:-1]
            known[row] = ["0" if line.endswith("none") else "1" for line in listed]
        wanted = [lanes + bit for lanes, bit in zip(wanted, known[row])]
    same(page.run(LANES), wanted, f"{case.name}: lanes")


def blocks_of(bench):
    """The block of each signal by the words of blocks.js, in another way: as a tuple of parts."""
    inputs, outs, drivers = statements(bench)
    readers, memo = {}, {}
    for name, (_, pins) in drivers.items():
        for pin in pins:
            readers.setdefault(pin, []).append(name)

    def home(name):
        if name in memo:
            return memo[name]
        *parts, last = name.split(".")[:64]
        is_source = drivers.get(name, ("DFF", 0))[0] == "DFF"
        word = re.sub(r"(\[\d+\])+_*$", "", last)
        if not re.fullmatch(r"n\d+_*|_\d+_", word):
            parts += [word] * (is_source or word != last)
        elif not parts and not is_source:
            # (an unnamed signal that is an output, or that nothing reads, is at the top)
            near = [home(it) for it in readers.get(name, [])]
            parts = os.path.commonprefix(near) if near and name not in outs else []
        memo[name] = tuple(parts)
        return memo[name]

    sys.setrecursionlimit(100000)
    return {name: home(name) for name in (*inputs, *drivers)}


def compare_blocks(page, case, bench):
    """Compares the blocks and their sums with blocks_of and the report."""
    page.open(case.page)
    homes = {name: ".".join(parts) for name, parts in blocks_of(bench).items()}
    shown = page.run("""Object.fromEntries(report.circuit.names.map((name, s) =>
      [name, report.blocks.paths[report.blocks.homes[s]]]))""")
    same(shown, homes, f"{case.name}: blocks")
    totals, missed = Counter(), Counter()
    outs = re.findall(r"(?mi)^\s*OUTPUT\(([^)]*)\)", bench)
    for line in case.lines("run", "--list")[:-1]:
        kind, name, *_ = line.split()
        home = homes[outs[int(name) - 1] if kind == "out" else name]
        parts = home.split(".") if home else []
        for depth in range(len(parts) + 1):
            totals[".".join(parts[:depth])] += 1
            missed[".".join(parts[:depth])] += line.endswith(" none")
    sums = page.run("""report.blocks.paths.map((path, node) =>
      [path, report.of(node).total, report.of(node).undetected])""")
    same({path: n for path, n, _ in sums if n}, dict(totals), f"{case.name}: sums")
    wanted = {path: n for path, n in missed.items() if n}
    same({path: n for path, _, n in sums if n}, wanted, f"{case.name}: undetected")


def try_lists(page, tools):
    """All circuits under all models; returns what was compared, in words."""
    circuits, faults = texts(), 0
    for name, (circuit, tests) in circuits.items():
        put(f"{name}.bench", circuit)
        put(f"{name}.tests", tests)
    wanted = [(name, model) for name in circuits for model in MODELS
              if model == "stuck" or name in ALL_MODELS]
    with ThreadPoolExecutor(4) as pool:
        cases = list(pool.map(lambda it: Case(tools, *it), wanted))
    for (name, model), case in zip(wanted, cases):
        faults += compare(page, case)
        if name == "c17" and model == "stuck":
            compare_lanes(page, case)
        if model == "stuck" and name in ("odd", "random", "simpleuart"):
            compare_blocks(page, case, circuits[name][0])
    return f"{faults} faults as faultsim lists them"


def try_sample(page, tools):
    """Each 200th fault of picorv32 by the page's own simulator."""
    circuit = design("picorv32")
    case = Case.of(tools, "picorv32", circuit, tests_of("picorv32", circuit, 256))
    page.open(case.page)
    sample = compare_simulated(page, case.name, 201)
    return f"{sample} faults of picorv32 as faultsim simulates them"


# ---- places and comparisons

# (signals with the names of numbers, one of them an output with a branch)
RTL_MAP = """# made by hand
output\t10\t10
output\tu1.z\tu1.z
output\t2\t2
line\tu1.a\tu1\ttop.v:3\town
line\tn1\tu1\ttop.v:7\tu1.z
line\tu1.z\tu1\ttop.v:7\town
line\t2\t-\ttop.v:9\town
line\t10\t-\t-\town
"""
RTL = """INPUT(u1.a)
OUTPUT(10)
OUTPUT(u1.z)
OUTPUT(2)
n1 = NOT(u1.a)
u1.z = AND(n1, u1.a)
2 = NOT(u1.z)
10 = NOT(2)
"""
CELLS_MAP = """output\tz\tz
pin\t\ta\tin\tfault\tstem a\t\t\t
pin\tu/g1\tA\tin\tfault\tpin n1 1\t\tINV\tx.v:5
pin\tu/g1\tY\tout\tfault\tstem n1\t\tINV\tx.v:5
pin\tu/g2\tA\tin\tfault\tpin z 1\t\tAND\tx.v:6
pin\tu/g2\tB\tin\tfault\tstem n1\t\tAND\tx.v:6
inside\tstem z\tu/g2
"""
CELLS = "INPUT(a)\nOUTPUT(z)\nn1 = NOT(a)\nz = AND(a, n1)\n"


def try_place_column(page):
    """The column of places, sorted, in a wide and in a narrow window."""
    rows = "[...document.querySelectorAll('#rows .row')].map((it) => it.lastChild.textContent)"
    page.run("choose({ state: undefined, sort: 'place' })")
    shown = page.run(rows)
    same(shown, sorted(shown), "rtl: faults sorted by place")
    same(shown[-1], "top, top.v:9", "rtl: the column of places")
    for width in (390, 1400):
        page.window(width, 900)
        same(page.run("document.documentElement.scrollWidth <= innerWidth"), True,
             f"nothing is wider than {width}, with places")


def try_places(page, tools):
    """Places of maps, as contrib/where prints them; and a map of another circuit."""
    for name, bench, rows, tests in (("rtl", RTL, RTL_MAP, "0\n1\n"),
                                     ("cells", CELLS, CELLS_MAP, "0\n")):
        put(f"{name}.map", rows)
        case = Case.of(tools, name, bench, tests)
        page.open(case.page)
        faults = case.lines("run", "--list")[:-1]
        script = f"{os.path.dirname(tools.report)}/where"
        where = subprocess.run([script, f"{name}.map"], check=True, input="\n".join(faults),
                               stdout=subprocess.PIPE, text=True).stdout
        wanted = [line.split(": ", 1)[1] for line in where.splitlines()]
        same(page.run("[...report.states.keys()].map((f) => report.place(f))"), wanted,
             f"{name}: places")
    # (by hand: a fault inside, the search by a line of the Verilog, and the saved table)
    facts = page.run("factsOf(report.faults.find('stem n1 sa0')).slice(0, 2)")
    same(facts[1], ["design", "u/g1/Y (INV x.v:5), u/g2/B (AND x.v:6)"], "cells: a place")
    page.open("cells-stuck.html", "#q=u/g2/a&state=all")
    same(page.run(LISTED), ["pin z 1 sa0", "pin z 1 sa1"], "cells: faults of a pin")
    same(page.run("report.csv(faultGrid.list).split('\\n')[1].split(',').at(-1)"),
         "u/g2/A (AND x.v:6)", "cells: the saved place")
    # (a = 0, n1 = 1: pin n1 1 stuck at 1 changes n1, and a holds z)
    page.open("cells-stuck.html")
    pins = page.run("[...document.querySelectorAll('#pin-rows .row')].map((row) =>"
                    "[0, 2, 3].map((at) => row.children[at].textContent))")
    same(pins, [["z", "u/g2/A (AND x.v:6)", "1"]], "cells: the place of a pin")
    page.open("rtl-stuck.html")
    place = "report.place(report.faults.find('%s'))"
    for fault, wanted in (("stem n1 sa0", "block u1, top.v:7, feeds u1.z"),
                          ("out 3 sa0", "top, top.v:9"), ("out 2 sa1", "block u1, top.v:7")):
        same(page.run(place % fault), wanted, f"rtl: the place of {fault}")
    try_place_column(page)
    for options, status, words in ((["--map", "rtl.map"], 1, "no place of 3 lines, 'stem a' is"),
                                   (["--map", "none.map"], 3, "none.map"),
                                   (["--map", ""], 0, "")):
        ran = case.make("other.html", *options)
        same((ran.returncode, words in ran.stderr), (status, True), f"{options}: {ran.stderr}")
    page.open("other.html")
    same(page.run("report.place(0)"), "", "a page without a map")
    return "places as contrib/where prints them"


def differences(case, other):
    """The faults that only the tests of a case detect, only other tests, both, and neither."""
    mine = case.lines("run", "--list")[:-1]
    theirs = case.lines("run", "--list", tests=other)[:-1]
    made = {}
    for a, b in zip(mine, theirs):
        key = not a.endswith(" none"), not b.endswith(" none")
        made.setdefault(key, []).append(a.rsplit(" ", 1)[0])
    return [made[key] for key in ((True, False), (False, True), (True, True), (False, False))]


def try_beside(page, tools):
    """Two lists of tests: sums, the table and the blocks."""
    uart = design("simpleuart")
    both = tests_of("simpleuart", uart, 400).splitlines(keepends=True)
    put("old.tests", "".join(both[:250]))
    case = Case.of(tools, "simpleuart", uart, "".join(both[150:]), ["--beside", "old.tests"])
    page.open(case.page)
    wanted = differences(case, "old.tests")
    gained, lost, _, _ = wanted
    same(len(gained) > 5 and len(lost) > 5, True, "beside: the tests")
    rows = page.run("[...document.querySelectorAll('#beside-table td')]"
                    ".map((it) => it.textContent)")
    same(rows, [f"{len(it):,}" for it in wanted], "beside: sums")
    card = page.run("document.querySelector('.card:last-child b').textContent")
    same(card, f"+{len(gained):,} −{len(lost):,}", "beside: the card")
    for row, names in ((1, gained), (2, lost)):
        page.click(f"#beside-table tbody tr:nth-child({row}) button")
        page.wait(f"faultGrid.list.length === {len(names)}")
        same(page.run(LISTED), names, "beside: faults")
    blocks = page.run("""report.blocks.paths.map((path, node) => {
      const { gained, lost } = report.of(node, true);
      return [path, gained, lost];
    })""")
    homes = {name: ".".join(parts) for name, parts in blocks_of(uart).items()}
    outs = re.findall(r"(?m)^OUTPUT\(([^)]*)\)", uart)
    counts = Counter()
    for names, column in ((gained, 1), (lost, 2)):
        for fault in names:
            kind, name, *_ = fault.split()
            counts[homes[outs[int(name) - 1] if kind == "out" else name], column] += 1
    same({(path, at): row[at] for row in blocks for at in (1, 2) for path in row[:1] if row[at]},
         dict(counts), "beside: blocks")
    heads = "[...document.querySelectorAll('#tree th')].filter((it) => !it.hidden).length"
    same(page.run(heads), 7, "beside: columns of the tree")
    wide = "(({ scrollWidth, clientWidth }) => scrollWidth <= clientWidth)"
    same(page.run(f"{wide}(document.querySelector('#tree-scroll'))"), True, "beside: the tree fits")
    text = page.run("stateWords(report.faults.find(%r))" % gained[0])
    same(text.endswith("beside old.tests: undetected"), True, f"beside: {text}")
    same(page.complaints(), [], "beside: complaints")
    return f"{len(gained)} and {len(lost)} faults of two lists of tests"


# ---- report-diff, by hand

OLD = """stem u.a sa0 3
stem u.a sa1 none
pin u.v.n1 2 sa0 none
data q sa0 0
out 1 sa1 none
stem x sa0 none
2 of 6 (33.33%)
"""
NEW = """stem u.a sa0 none
stem u.a sa1 7
pin u.v.n1 2 sa0 0
data q sa0 5
out 1 sa1 4
stem x sa0 none
4 of 6 (66.66%)
2 of 3 classes (66.66%)
"""
DIFFERENCE = """only old 1, only new 3, both 1, neither 1
block - only old 1, only new 3
block u only old 1, only new 2
block u.v only old 0, only new 1
only old: stem u.a sa0 3
only new: stem u.a sa1 7
only new: pin u.v.n1 2 sa0 0
only new: out 1 sa1 4
"""


def try_diff(_, tools):
    """The differences of two lists, and files that don't fit."""
    put("old", OLD)
    put("new", NEW)
    put("other", NEW.replace("stem x", "stem y"))
    put("short", NEW.replace("stem x sa0 none\n", ""))
    put("counts", OLD.replace("none", "0"))
    for words, status, printed, said in (
            (["old", "new"], 0, DIFFERENCE, ""), (["--blocks", "old", "new"], 0, "".join(
                DIFFERENCE.splitlines(keepends=True)[:4]), ""),
            (["old", "other"], 1, "", "line 6: 'stem x sa0' and 'stem y sa0': another circuit"),
            (["old", "short"], 1, "", "short: not a whole report of run --list"),
            (["old", "counts"], 1, "", "counts: not a whole report of run --list"),
            (["old", os.devnull], 1, "", "not a whole report"), (["old", "none"], 1, "", "none"),
            (["old"], 2, "", "two files are needed")):
        script = f"{os.path.dirname(tools.report)}/report-diff"
        ran = subprocess.run([script, *words], capture_output=True, text=True, check=False)
        same((ran.returncode, ran.stdout), (status, printed), f"report-diff {words}")
        same(said in ran.stderr, True, f"report-diff {words}: {ran.stderr}")
    return "two lists by report-diff"
