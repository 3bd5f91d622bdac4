"""Works on a page as a user does, with mouse and keys, and looks at it with other eyes."""

import json
import os
import re
import time
from concurrent.futures import ThreadPoolExecutor

from circuits import (MANY_PINS, Case, design, generated, put, random_tests, same, tests_of,
                      texts)
from compared import compare
from stops import Stops, program_rows

ROWS = """[...document.querySelectorAll("#rows [role=row]")]
  .map((it) => it.firstChild.textContent)"""
FOUND = "document.querySelector('#found').textContent"
OWNERS = "[...faultGrid.list].map((f) => report.circuit.names[report.faults.owner(f)])"
CHOSEN = "report.faults.text(chosen.fault)"
INSIDE = """(() => {
  const a = document.querySelector("#rows .on").getBoundingClientRect();
  const b = document.querySelector("#rows").getBoundingClientRect();
  return a.top >= b.top - 1 && a.bottom <= b.bottom + 1;
})()"""
ACTIVE = """document.getElementById(document.querySelector("#grid")
  .getAttribute("aria-activedescendant")).firstChild.textContent"""
CONTRAST = """(() => {
  const parse = (text) => {
    const [r, g, b, a = 1] = text.match(/[\\d.]+/g).map(Number);
    return [r, g, b, a];
  };
  const linear = (v) => (v <= 0.03928 ? v / 12.92 : ((v + 0.055) / 1.055) ** 2.4);
  const light = ([r, g, b]) => 0.2126 * linear(r / 255) + 0.7152 * linear(g / 255)
    + 0.0722 * linear(b / 255);
  const isText = (node) => node.nodeType === 3 && node.data.trim();
  const hasText = (it) => [...it.childNodes].some(isText);
  const low = [];
  for (const it of document.querySelectorAll("body *:not(script, style, noscript)")) {
    if (!hasText(it) || !it.getClientRects().length) continue;
    if (it.closest("svg, .hidden, .skip, :disabled")) continue;
    let back = it, ground = [0, 0, 0, 0];
    while (back && !ground[3]) {
      ground = parse(getComputedStyle(back).backgroundColor);
      back = back.parentElement;
    }
    const [a, b] = [light(parse(getComputedStyle(it).color)), light(ground)].sort((x, y) => y - x);
    if ((a + 0.05) / (b + 0.05) < 4.5) low.push(`${it.tagName} ${it.textContent.slice(0, 20)}`);
  }
  return low;
})()"""
# cells of the tables that are outside of their rows or have too little room: a name has 80 pixels
CELLS = """[...document.querySelectorAll("#rows .row > *, #pin-rows .row > *")].filter((it) => {
  const isName = it.firstElementChild?.tagName === "BDI", end = it.getBoundingClientRect().bottom;
  return it.getClientRects().length && (end > it.parentNode.getBoundingClientRect().bottom + 1
    || (isName ? it.clientWidth < 80 : it.scrollWidth > it.clientWidth));
}).map((it) => it.textContent)"""
# heads that don't stand above their column; a scroll bar takes room only from the rows
APART = """["#grid", "#pin-grid"].flatMap((grid) => {
  const places = (row) => [...document.querySelector(`${grid} ${row}`).children].map((it) =>
    Math.round(it.getBoundingClientRect().left));
  const rows = places(".rows .row");
  return places(".head").filter((it, at) => Math.abs(it - rows[at]) > 1);
})"""
# what the policy of the page forbids
ASK = """(() => {
  globalThis.asked = [];
  addEventListener("securitypolicyviolation", (event) => asked.push(event.effectiveDirective));
  new Image().src = "https://example.invalid/x.png";
  fetch("https://example.invalid/").catch(() => {});
})()"""
NAMED = {"button", "link", "textbox", "searchbox", "combobox", "checkbox", "slider", "grid", "img",
         "treegrid", "spinbutton", "region", "navigation", "table"}


class Use:
    """A page of simpleuart in the browser, and what faultsim prints."""

    def __init__(self, page, tools):
        uart = design("simpleuart")
        self.page = page
        self.case = Case.of(tools, "simpleuart", uart, tests_of("simpleuart", uart, 1000))
        listed = self.case.lines("run", "--undetected")[:-1]
        self.undetected = [line.removesuffix(" none") for line in listed]
        self.why = self.case.lines("run", "--undetected", "--why")
        page.window(1400, 900)
        page.open(self.case.page)

    def shows(self, count, what):
        """The number of faults in the table, after a wait for it."""
        self.page.wait(f"{FOUND}.startsWith('{count:,} of ')")
        rows = "document.querySelector('#grid').getAttribute('aria-rowcount')"
        same(int(self.page.run(rows)) - 1, count, what)

    def search(self):
        """The first rows; / goes to the search, letters filter, Escape clears."""
        page = self.page
        self.shows(len(self.undetected), "rows at first")
        same(page.run(ROWS)[:10], self.undetected[:10], "first rows")
        table = self.case.lines("run", "--undetected", "--format", "csv")
        table = [row.split(",") for row in table[1:]]
        for text, form in (("recv_DIV", "recv_div"), ("*_div*[1*", r".*_div.*\[1.*$")):
            page.key(None, "/")
            page.type(text)
            wanted = [row for row in table if re.search(form, row[1]) or re.search(form, row[5])]
            self.shows(len(wanted), f"rows of the search {text}")
            same(page.run(OWNERS), [row[1] for row in wanted], f"faults of the search {text}")
            page.wait("location.hash.includes('q=')")
            page.key("Escape")
            self.shows(len(self.undetected), "rows after Escape")
            page.run("document.activeElement.blur()")

    def arrows(self):
        """Arrows choose a fault, and its row stays in view."""
        page, undetected = self.page, self.undetected
        page.run("document.querySelector('#grid').focus()")
        for at in range(30):
            page.key("ArrowDown")
            same(page.run(INSIDE), True, f"row {at} is in view")
        same(page.run(CHOSEN), undetected[29], "the 30th row by arrows")
        same(page.run("document.querySelector('#rows .on').firstChild.textContent"), undetected[29],
             "the 30th row")
        page.key("End")
        same(page.run(CHOSEN), undetected[-1], "the last row")
        same(page.run(INSIDE), True, "the last row is in view")
        same(page.run(ACTIVE), undetected[-1], "the row for a screen reader")
        same(page.run("document.querySelector('#detail h3').textContent"), undetected[-1],
             "the fault beside the table")
        same(page.run("document.querySelectorAll('#picture .centre').length"), 1, "the middle")
        page.key("PageUp")
        page.key("PageDown")
        same(page.run(CHOSEN), undetected[-1], "a page up and down")
        page.key("Home")
        page.key("ArrowUp")
        same(page.run(CHOSEN), undetected[0], "the first row")
        page.key("End")

    def links(self):
        """A link opens what is chosen, and Back undoes a click."""
        page, last = self.page, self.undetected[-1]
        written = "decodeURIComponent(location.hash).replaceAll('+', ' ')"
        page.wait(f"{written}.includes({json.dumps(last)})")
        fragment = page.run("location.hash")
        page.open(self.case.page, fragment)
        same(page.run(CHOSEN), last, "the fault of a link")
        page.click("#rows .row:has(+ .on)")
        same(page.run(CHOSEN), self.undetected[-2], "a click chooses")
        page.run("history.back()")
        page.wait(f"{CHOSEN} === {json.dumps(last)}")
        page.run("history.forward()")
        page.wait(f"{CHOSEN} === {json.dumps(self.undetected[-2])}")
        page.run("location.hash = '#kind=out&state=all'")
        outs = [it for it in self.case.lines("run", "--list") if it.startswith("out ")]
        self.shows(len(outs), "an address that is typed")
        same(page.run("document.querySelector('#kind').value"), "3", "the filter of an address")
        nothing = "#fault=stem+nothing+sa0&block=none&kind=x&sort=y&state=z&count=w"
        page.open(self.case.page, nothing)
        self.shows(len(self.undetected), "a link of nothing")

    def heads(self):
        """Columns sort: a first click, the other way, and the order of the list again."""
        page, head = self.page, "#columns [role=columnheader]:nth-child(%d) button"
        page.click(head % 6)
        sizes = "[...faultGrid.list].map((f) => report.sizes[report.classes[f]])"
        same(page.run(sizes), page.run(f"{sizes}.sort((a, b) => b - a)"), "sorted by classes")
        page.click(head % 1)
        names = page.run(OWNERS)
        natural = [re.sub(r"\d+", lambda it: it[0].zfill(9), name) for name in names]
        same(natural, sorted(natural), "sorted by names")
        way = "document.querySelector('#columns [role=columnheader]').getAttribute('aria-sort')"
        ways = [page.run(way)]
        for _ in range(2):
            page.click(head % 1)
            ways.append(page.run(way))
        same(ways, ["ascending", "descending", "none"], "the clicks on a head")
        same(page.run(ROWS)[:10], self.undetected[:10], "the order of the list again")

    def numbers(self):
        """Numbers filter: kinds, tests, detections; one of each class."""
        page = self.page
        page.open(self.case.page)
        page.click("#matrix tbody tr:nth-child(1) td:nth-child(3) button")
        is_wanted = [it.startswith("stem") and it.endswith("not observed") for it in self.why]
        self.shows(sum(is_wanted), "stems that aren't observed")
        page.click("#best tbody tr:nth-child(1) button")
        test = page.run("document.querySelector('#best tbody button').textContent")
        listed = self.case.lines("run", "--list")[:-1]
        self.shows(sum(it.endswith(f" {test}") for it in listed), "faults of a test")
        page.click("#histogram tbody tr:nth-child(2) button")
        histogram = self.case.lines("run", "--detections", "4", "--histogram")
        self.shows(int(histogram[2].split()[1]), "faults of one detection")
        page.click("#chips button")
        self.shows(len(listed), "a filter that is ended")
        page.click("#clear")
        page.click("#collapsed")
        listed = self.case.lines("faults", tests=False)[:-1]
        classes = dict(it.rsplit(" class ", 1) for it in listed)
        self.shows(len({classes[it] for it in self.undetected}), "one of each class")
        page.click("#clear")

    def blocks(self):
        """A tile and a row of the tree filter; arrows walk in the tree."""
        page, focus = self.page, "document.activeElement"
        page.run("document.querySelector('#tree tbody tr').focus()")
        for key in ("ArrowDown", "ArrowDown", "Enter", "ArrowLeft"):
            page.key(key)
        same(page.run(f"{focus}.dataset.node"), "0", "the row above")
        for key, state in (("ArrowLeft", "false"), ("ArrowRight", "true")):
            page.key(key)
            same(page.run(f"{focus}.getAttribute('aria-expanded')"), state, "a row closes, opens")
        page.run("document.querySelector('#tree tr.on').focus()")
        same(bool(page.run("report.blocks.paths[chosen.block]")), True, "a block is chosen")
        same(page.run(f"{focus}.dataset.node === String(chosen.block)"), True, "its row")
        self.shows(page.run("report.of(chosen.block).undetected"), "faults of a block")
        page.click("#crumbs button")
        self.shows(len(self.undetected), "faults of all blocks")
        for by, place in (("name", 1), ("total", 3), ("share", 4), ("undetected", 2)):
            page.click(f"#tree th:nth-child({place}) button")
            values = page.run("partsOf(0, treeSort)")
            # (a browser sorts signs before letters)
            key = {"name": lambda it: it["name"].translate({40: "\0", 95: "\1"}),
                   "total": lambda it: -it["total"],
                   "share": lambda it: it["detected"] / it["total"],
                   "undetected": lambda it: -it["undetected"]}[by]
            shown = page.run("[...document.querySelectorAll('#tree tr[aria-level=\"2\"]')]"
                             ".map((it) => [Number(it.dataset.node), it.dataset.own === '1'])")
            same(shown, [[it["node"], it["own"]] for it in values][:len(shown)], f"tree by {by}")
            keys = [key(it) for it in values]
            same(keys, sorted(keys), f"the tree sorted by {by}")
        page.click("#map button")
        self.shows(page.run("report.of(chosen.block, chosen.own).undetected"), "faults of a tile")
        areas = page.run("""[...document.querySelectorAll('#map button')].map((it) =>
          [it.offsetWidth * it.offsetHeight,
            Number(it.title.match(/of ([\\d,]+) /)[1].replace(',', ''))])""")
        total = sum(faults for _, faults in areas)
        whole = sum(area for area, _ in areas)
        wrong = [it for it in areas if abs(it[0] / whole - it[1] / total) > 0.01]
        same(wrong, [], "areas of tiles")

    def curve(self):
        """The curve by the mouse and by keys."""
        page, words = self.page, "document.querySelector('#curve-words').textContent"
        page.open(self.case.page)
        page.move("#curve svg", 0.5)
        curve = [line.split() for line in self.case.lines("curve")[:-1]]
        test = page.run("curveAt")
        same(300 < test < 700, True, "the curve under the mouse")
        _, detected, share = [it for it in curve if int(it[0]) <= test][-1]
        wanted = f"Up to test {test}: {share} % ({int(detected):,} faults)"
        same(page.run(words).startswith(wanted), True, "the words of the curve")
        page.run("document.querySelector('#curve svg').focus()")
        page.key("Home")
        same(page.run(words).startswith("Up to test 0:"), True, "the begin of the curve")
        page.key("ArrowRight")
        now = "document.querySelector('#curve svg').getAttribute('aria-valuenow')"
        same(page.run(now), "1", "the curve by keys")
        page.click("#curve-log")
        page.move("#curve svg", 0.5)
        same(15 < page.run("curveAt") < 60, True, "the logarithmic curve under the mouse")
        best = sorted(curve_steps(curve), key=lambda it: (-it[1], it[0]))[:10]
        shown = page.run("""[...document.querySelectorAll('#best tbody tr')].map((it) =>
          [...it.querySelectorAll('.num')].slice(0, 2).map((td) => td.textContent))""")
        same(shown, [[f"{test:,}", f"{fresh:,}"] for test, fresh in best], "the best tests")

    def save(self):
        """Save makes a file of what the table has."""
        page, path = self.page, "simpleuart-faults.csv"
        page.send("Browser.setDownloadBehavior", behavior="allow", downloadPath=os.getcwd())
        page.click("#save")
        until = time.monotonic() + 20
        while not os.path.exists(path) or not os.path.getsize(path):
            same(time.monotonic() < until, True, "a file is saved")
            time.sleep(0.05)
        with open(path, encoding="ascii") as file:
            saved = file.read().splitlines()
        wanted = self.case.lines("run", "--undetected", "--why", "--format", "csv")
        same([",".join(row.split(",")[:7]) for row in saved], wanted, "the saved table")


def curve_steps(curve):
    """The tests of a curve, each with the number of faults that it is the first to detect."""
    before = 0
    for test, detected, _ in curve:
        yield int(test), int(detected) - before
        before = int(detected)


def try_use(page, tools):
    """Mouse and keys."""
    use = Use(page, tools)
    for part in (use.search, use.arrows, use.links, use.heads, use.numbers, use.blocks, use.curve,
                 use.save):
        part()
    same(page.complaints(), [], "complaints")
    return "a page by mouse and keys"


def try_firefox(page, tools):
    """In Firefox: what the scripts make of some circuits, and a page by mouse and keys."""
    circuits, faults = texts(), 0
    for name in ("c17", "odd", "random"):
        faults += compare(page, Case.of(tools, name, *circuits[name]))
    use = Use(page, tools)
    for part in (use.search, use.arrows, use.links, use.heads, use.numbers, use.blocks, use.curve):
        part()
    stops = Stops(page, use.case, program_rows(use.case))
    for part in (stops.mouse, stops.keys, stops.fault, stops.slowly, stops.all, stops.paper):
        part()
    for width in (390, 1400):
        page.window(width, 900)
        same(page.run("document.documentElement.scrollWidth <= innerWidth"), True,
             f"nothing is wider than {width} in Firefox")
        same(page.run(APART), [], f"heads above their columns, width {width}")
    same(page.complaints(), [], "complaints in Firefox")
    return f"{faults} faults and a page by mouse and keys in Firefox"


def try_fault(page, tools):
    """A chosen fault, by hand: c17 of the documents, and a gate of sixty pins."""
    Case.of(tools, "c17", generated("c17"), "01011\n11111\n")
    page.window(1400, 900)
    page.open("c17-stuck.html", "#fault=stem+G6+sa0&state=all")
    text = "document.querySelector('%s').textContent"
    # under test 1 (all inputs 1): G10 = G11 = 0, G16 = 1, G19 = 1, G22 = 1, G23 = 0. With G6 stuck
    # at 0 G11 = 1, G16 = 0, G19 = 0 and G23 = 1.
    page.run("showTest(1)")
    boxes = page.run("[...document.querySelectorAll('#picture g')].map((it) =>"
                     "it.getAttribute('aria-label')).sort()")
    same(boxes, ["INPUT G6, 1→0", "NAND G11, 0→1", "NAND G16, 1→0", "NAND G19, 1→0"],
         "the boxes of G6")
    page.run("document.querySelector('#picture g[aria-label^=\"NAND G11\"]').dispatchEvent("
             "new Event('click'))")
    boxes = page.run("[...document.querySelectorAll('#picture g.changed')].map((it) =>"
                     "it.getAttribute('aria-label')).sort()")
    same(boxes, ["INPUT G6, 1→0", "NAND G11, 0→1", "NAND G16, 1→0", "NAND G19, 1→0",
                 "NAND G23, 0→1"], "the boxes of G11")
    same(page.run("document.querySelector('#back').hidden"), False, "the way back")
    page.click("#back")
    same(page.run("document.querySelector('#picture .centre').getAttribute('aria-label')"),
         "INPUT G6, 1→0", "back at the fault")
    same(page.run(text % "#tests-of").endswith("Test 1 detects the fault."), True,
         f"the words: {page.run(text % '#tests-of')}")
    # an AND whose pin w[0] is 0 under the only test: the effect of w[40] stuck at 0 stops there
    Case.of(tools, "pins", MANY_PINS, "0" + "1" * 59 + "\n")
    page.open("pins-stuck.html", "#fault=stem+w[40]+sa0")
    same(page.run(text % "#stops-of"), "The effect stops at: all (AND with w[0] = 0)", "the stops")
    same(page.run(text % "#tests-of"), "Of all 1 test, 1 activates it and none detects it. Test 0 "
         "activates the fault and changes 1 signal, none of them observed.", "the words of a test")
    page.run("document.querySelector('#picture g[aria-label^=\"AND all\"]').dispatchEvent("
             "new Event('click'))")
    pins = page.run("[...document.querySelectorAll('#picture .centre text')].map((it) =>"
                    "it.textContent)")
    same(pins[2:4], ["1→0", "w[40]"], "the changed pin first")
    same(pins[-1], "and 36 more", "pins that are left out")
    same(page.complaints(), [], "complaints of a fault")
    return "a fault and its neighbourhood by hand"


def look(page, case, fault):
    """Contrast in both themes, and nothing wider than the window."""
    for width, dark in ((1400, False), (1400, True), (390, False), (390, True)):
        page.window(width, 900, dark)
        page.open(case.page, f"#fault={fault.replace(' ', '+')}")
        theme = page.run("document.documentElement.dataset.theme")
        same(theme, "dark" if dark else "light", "the theme of the system")
        same(page.run(CONTRAST), [], f"contrast, width {width}, dark {dark}")
        same(page.run("document.documentElement.scrollWidth <= innerWidth"), True,
             f"nothing is wider than {width}")
        seen = "document.querySelector('#rows .on').firstChild.getClientRects().length"
        same(page.run(seen), 1, f"the row of the fault, width {width}")
        same(page.run(CELLS), [], f"cells of tables, width {width}")


def try_looks(page, tools):
    """Themes, a narrow window, paper, colours, names for a screen reader; no JavaScript."""
    use = Use(page, tools)
    case, wanted = use.case, "not observed"
    fault = next(it for it in use.why if it.startswith("pin") and it.endswith(wanted))
    look(page, case, fault.removesuffix(f" none {wanted}"))
    page.window(1400, 900)
    themes = []
    for _ in range(3):
        page.click("#theme")
        themes.append(page.run("document.documentElement.dataset.theme"))
    same(themes, ["light", "dark", "light"], "themes by the button")
    backs = page.run("['det', 'obs', 'act', 'path'].map((it) => {"
                     "const style = getComputedStyle(document.querySelector(`.key.${it}`));"
                     "return style.backgroundImage; })")
    same(len(set(backs)), 4, "each state has its own pattern")
    signs = page.run("[...document.querySelectorAll('#rows .sign')].map((it) =>"
                     "it.textContent + it.parentNode.textContent.slice(1))")
    same(all(it[0] in "✕○◐●" and it[1:].startswith("n") for it in signs), True, "signs and words")
    names(page)
    paper(page, use)
    same(page.complaints(), [], "complaints")
    without_script(page, case)
    without_values(page, use)
    return "themes, widths, paper, names, no JavaScript"


def names(page):
    """Each part that can be used has a name for a screen reader, and ids are unique."""
    page.send("Accessibility.enable")
    nodes = page.send("Accessibility.getFullAXTree")["nodes"]
    page.send("Accessibility.disable")
    bare = [it["role"]["value"] for it in nodes if not it.get("ignored")
            and it["role"]["value"] in NAMED and not it.get("name", {}).get("value")]
    same(bare, [], "names for a screen reader")
    ids = page.run("[...document.querySelectorAll('[id]')].map((it) => it.id)")
    same(len(ids), len(set(ids)), "unique ids")


def paper(page, use):
    """Paper has the first rows of the table, and no controls."""
    page.window(1400, 900, dark=True, media="print")
    page.wait("document.documentElement.dataset.theme === 'dark'")
    page.run("dispatchEvent(new Event('beforeprint'))")
    rows = page.run("[...document.querySelectorAll('#printed tbody tr')].map((it) =>"
                    "it.firstChild.textContent)")
    same(rows, use.undetected[:200], "rows on paper")
    left = page.run("['#grid', '#filters', '#theme'].filter((it) =>"
                    "document.querySelector(it).getClientRects().length)")
    same(left, [], "controls on paper")
    same(page.run("document.documentElement.dataset.theme"), "light", "paper is light")
    page.run("dispatchEvent(new Event('afterprint'))")
    same(page.run("document.documentElement.dataset.theme"), "dark", "the theme after paper")
    page.window(1400, 900)
    same(page.paper()[:5], b"%PDF-", "paper")


def without_script(page, case):
    """Without JavaScript the figures are there."""
    page.send("Emulation.setScriptExecutionDisabled", value=True)
    page.send("Page.navigate", url=f"file://{os.path.realpath(case.page)}")
    coverage = re.search(r"\((.*)%\)", case.lines("run")[-1])[1]
    until = time.monotonic() + 10
    while True:
        try:
            root = page.send("DOM.getDocument", depth=-1)["root"]["nodeId"]
            text = page.send("DOM.getOuterHTML", nodeId=root)["outerHTML"]
        except RuntimeError:
            text = ""   # (the page before went meanwhile)
        if f"<b>{coverage} %</b>" in text and "needs JavaScript" in text:
            break
        same(time.monotonic() < until, True, "figures without JavaScript")
        time.sleep(0.1)
    page.send("Emulation.setScriptExecutionDisabled", value=False)


def without_values(page, use):
    """A page without the bits of the tests has all but values; a title is only text."""
    options = ["--values", "0", "--detections", "1", "--title", "<b>'&"]
    ran = use.case.make("bare.html", *options)
    same(ran.returncode, 0, "status without values")
    page.open("bare.html", "#fault=stem+ser_tx+sa0")
    same(page.run("document.querySelector('#detail h3').textContent"), "stem ser_tx sa0",
         "a fault without values")
    same(page.run("document.querySelectorAll('#picture .centre').length"), 1,
         "a picture without values")
    same(page.run("document.querySelector('h1').textContent"), "<b>'&", "a title")
    counts = page.run("[...report.histogram].map((n, count) => `${count} ${n}`)")
    same(counts, use.case.lines("run", "--detections", "1", "--histogram")[1:], "counts up to 1")
    # a test of 203 bits takes 26 bytes, so 60 bytes have room for two
    use.case.make("few.html", "--values", "0.00006")
    page.open("few.html", "#fault=stem+ser_tx+sa0")
    same(page.run("report.head.tests_kept"), 2, "tests that there is room for")
    words = page.run("document.querySelector('#tests-of').textContent")
    same(words.startswith("Of the first 2 tests, "), True, f"words of few tests: {words}")
    same(page.complaints(), [], "complaints without values")
    page.run(ASK)
    page.wait("asked.length > 1", 5)
    same(page.run("asked.sort()"), ["connect-src", "img-src"], "the policy forbids the network")
    page.events.clear()


def try_errors(_, tools):
    """Wrong calls and errors of faultsim end with words and a status, and no page."""
    case = Case.of(tools, "s27", generated("s27"), random_tests(7, 9))
    put("wrong.bench", "INPUT(a)\nz = ANDD(a)\n")
    at = "faultsim: "
    wanted = (
        (["-b", "none.bench"], 3, f"{at}cannot read none.bench"),
        (["-b", "wrong.bench"], 1, f"{at}bench line 2: syntax"),
        (["-t", "wrong.bench"], 1, f"{at}tests line 1: not 0 or 1"),
        (["-m", "bridging"], 2, "bridging"), (["-w", "x"], 2, "x"),
        (["--detections", "0"], 2, "--detections is 1 to 255"),
        (["--beside", "wrong.bench"], 1, f"{at}tests line 1: not 0 or 1"),
        (["--values", "-1"], 2, "--values is 0 to 1000"), (["-t", "-"], 2, "standard input"),
        (["--faultsim", "./none"], 3, "there is no program ./none"),
        (["--map", "s27.bench"], 1, "no place of"), (["--what"], 2, "--what"))

    def attempt(options):
        page = f"kept{abs(hash(tuple(options)))}.html"
        put(page, "before")
        ran = case.make(page, *options)
        with open(page, encoding="ascii") as file:
            return ran, file.read()

    with ThreadPoolExecutor(4) as pool:
        made = list(pool.map(attempt, [options for options, _, _ in wanted]))
    for (options, status, words), (ran, page) in zip(wanted, made):
        same((ran.returncode, words in ran.stderr), (status, True), f"{options}: {ran.stderr}")
        same(page, "before", f"{options}: the page before")
    ran = case.make("none/it.html")
    same((ran.returncode, "none/it.html" in ran.stderr), (3, True), "a folder that isn't there")
    same([it for it in os.listdir(".") if it.endswith(".part")], [], "parts that are left")
    ran = case.make("-")
    same(ran.stdout.startswith("<!DOCTYPE html>"), True, "a page on standard output")
    same(ran.stdout, case.make("-", "-w", "1").stdout, "the same page again")
    return "wrong calls and files"
