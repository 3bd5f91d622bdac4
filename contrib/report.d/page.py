"""Fills the template of the page."""

import html
import json
import os
import re

from columns import bits_of, blocking_of, circuit_of, column, packed
from places import Places
from results import Failed, Results

SCRIPTS = ("circuit", "blocks", "result", "simulator", "pins", "elements", "grid", "block_view",
           "test_view", "table_view", "pin_view", "fault_view", "schematic", "main")
PLAIN_PINS = 20                 # the rows of the table of pins without JavaScript


def share(part, whole):
    """A percentage that is cut off after two decimals, as faultsim prints it."""
    hundredths = 10000 * part // whole if whole else 0
    return f"{hundredths // 100}.{hundredths % 100:02}"


def many(number, word):
    """A number of things, as '1 class' or '2 classes'."""
    plural = f"{word}es" if word.endswith("s") else f"{word}s"
    return f"{number:,} {word if number == 1 else plural}"


def cards_of(sums, beside):
    """The title, the number and the rest of each card."""
    faults, classes = sums["faults"], sums["classes"]
    made = [
        ("fault coverage", f"{share(faults['detected'], faults['total'])} %",
         f"{faults['detected']:,} of {many(faults['total'], 'fault')}"),
        ("collapsed", f"{share(classes['detected'], classes['total'])} %",
         f"{classes['detected']:,} of {many(classes['total'], 'equivalence class')}"),
        ("undetected faults", f"{faults['undetected']:,}",
         f"in {many(classes['undetected'], 'equivalence class')}"),
        ("tests", f"{sums['tests']:,}", f"model {sums['model']}"),
    ]
    if beside:
        name, gained, lost = beside
        made.append((f"beside {name}", f"+{gained:,} −{lost:,}",
                     "detected only by these tests, and only by the others"))
    return made


def figures(sums, beside):
    """The sums as HTML, so that they are there before the script has run, or without it."""
    faults, reasons = sums["faults"], sums["reasons"]
    cards = "".join(
        f"<div class=card><dt>{html.escape(title)}</dt>"
        f"<dd><b>{number}</b>{html.escape(more)}</dd></div>"
        for title, number, more in cards_of(sums, beside))
    parts = [("detected", "det", faults["detected"]),
             ("not observed", "obs", reasons["not_observed"]),
             ("not activated", "act", reasons["not_activated"]),
             ("no path", "path", reasons["no_path"])]
    bars = "".join(f'<span class="bar {kind}" style="flex-grow:{number}"></span>'
                   for _, kind, number in parts if number)
    legend = "".join(
        f'<li><span class="key {kind}" aria-hidden=true></span>{what} <b>{number:,}</b> '
        f'({share(number, faults["total"])} %)</li>' for what, kind, number in parts)
    return (f'<dl class=cards>{cards}</dl><div class="stack big" aria-hidden=true>{bars}</div>'
            f"<ul class=legend>{legend}</ul>")


def title_of(given):
    """The title given, the top module of a script that made the bench file, or the file's name."""
    with open(given.bench, encoding="latin-1") as file:
        top = re.match(r"# (\S+), by contrib/(?:verilog|netlist)2bench", file.readline())
    name = re.sub(r"\.bench$", "", os.path.basename(given.bench))
    return given.title or (top[1] if top else name)


def map_of(given):
    """The path of the map, or None: the one given, or the one beside the bench file."""
    if given.map is not None:
        return given.map or None
    beside = re.sub(r"\.bench$", "", given.bench) + ".map"
    return beside if os.path.isfile(beside) else None


def places_of(path, lines):
    """The different places of lines, and for each line the number of its place; 0 has none."""
    try:
        places = Places(path)
    except (ValueError, IndexError, UnicodeDecodeError):
        raise Failed(f"report: {path}: not a map of verilog2bench or netlist2bench", 1) from None
    numbers, made = {"": 0}, []
    for line, kind, name in lines:
        made.append(numbers.setdefault(places.of(line, kind, name) or "", len(numbers)))
    missing = made.count(0)
    if missing:
        line = lines[made.index(0)][0]
        raise Failed(f"report: {path}: no place of {missing} lines, '{line}' is the first", 1)
    return list(numbers), made


def inlined(name, values):
    """A file of this folder with {{NAME}} replaced."""
    with open(name, encoding="utf-8") as file:
        return re.sub(r"\{\{(\w+)\}\}", lambda it: values[it[1]], file.read())


def data_of(given, results):
    """The data of the page: the head, and texts by name."""
    names, lists, columns = circuit_of(given.bench)
    columns |= {"first": column(results.first), "reason": column(results.reasons),
                "count": column(results.counts),
                "class": column(results.classes, differences=True)}
    places, path, beside = [], map_of(given), None
    if path:
        places, numbers = places_of(path, results.lines_of)
        columns["place"] = column(numbers, differences=True)
    if results.other:
        columns["other"] = column(results.other)
        pairs = [(bool(a), bool(b)) for a, b in zip(results.first, results.other)]
        beside = (os.path.basename(given.beside), pairs.count((True, False)),
                  pairs.count((False, True)))
    if results.pins is not None:
        columns |= blocking_of(results.pins, names, lists)
    kept = bits_of(given.tests, int(given.values * 1e6))
    texts = {"names": "\n".join(names).encode("latin-1"), "tests": b"".join(kept),
             "places": "\n".join(places).encode()}
    blobs = {name: it.pop("data") for name, it in columns.items()}
    blobs |= {name: packed(text) for name, text in texts.items()}
    # (without its time, so that the same files make the same page)
    sums = {name: it for name, it in results.sums.items() if name not in ("workers", "seconds")}
    head = {
        "sums": sums, "warnings": results.warnings, "title": title_of(given),
        "separator": given.separator, "detections": given.detections, "tests_kept": len(kept),
        "files": [os.path.basename(it) for it in (given.bench, given.tests)],
        "map": os.path.basename(path) if path else None, "beside": beside and beside[0],
        "columns": columns,
    }
    return head, blobs, figures(results.sums, beside)


def plain_pins(pins):
    """The first pins that block effects as a part of the page without JavaScript."""
    if pins is None:
        return ""
    kinds = ("", " class=num", "", *3 * [" class=num"])
    heads = "".join(f"<th{kind}>{it}</th>"
                    for kind, it in zip(kinds, "Gate Pin Net Value Faults Tests".split()))
    table = "".join("<tr>" + "".join(f"<td{kind}>{html.escape(it)}</td>"
                                     for kind, it in zip(kinds, row)) + "</tr>"
                    for row in pins[:PLAIN_PINS])
    what = (f"The first {PLAIN_PINS} of {many(len(pins), 'pin')}" if len(pins) > PLAIN_PINS
            else many(len(pins), "pin"))
    return ('<noscript><section><h2>Where effects stop</h2><div class="scroll"><table>'
            f"<caption>{what} that block effects of undetected faults</caption>"
            f"<thead><tr>{heads}</tr></thead><tbody>{table}</tbody></table></div></section>"
            "</noscript>")


def page_of(given, program, folder):
    """The text of the page."""
    results = Results(given, program, map_of(given) is not None)
    head, blobs, shown = data_of(given, results)
    sums = results.sums
    proved = "" if sums["proved"] else " (unproved)"
    about = (f"{head['files'][0]} under {head['files'][1]}, model {sums['model']}, "
             f"by faultsim {sums['version']}{proved}")
    data = "\n".join(f'<script type="text/plain" id="data-{name}">{text}</script>'
                     for name, text in blobs.items())
    scripts = "\n".join(inlined(f"{folder}/{name}.js", {}) for name in SCRIPTS)
    return inlined(f"{folder}/page.html", {
        # "<" in a string of JSON can't end the script so
        "HEAD": json.dumps(head, separators=(",", ":")).replace("<", "\\u003c"),
        "DATA": data, "TITLE": html.escape(head["title"]), "FIGURES": shown,
        "PINS": plain_pins(results.pins),
        "ABOUT": html.escape(about), "STYLE": inlined(f"{folder}/page.css", {}),
        "SCRIPT": scripts,
    })
