"""Packs the bench file, the test file and lists of numbers for the page."""

import array
import base64
import gzip
import re
import sys
from itertools import accumulate

KINDS = "INPUT DFF AND NAND OR NOR XOR XNOR NOT BUFF".split()
KINDS = {word: kind for kind, word in enumerate(KINDS)} | {"BUF": KINDS.index("BUFF")}
# a line of a bench file without its comment, which faultsim has accepted
LINE = re.compile(r"[ \t]*(?:([^ \t(),=]+)[ \t]*=)?[ \t]*([^ \t(),=]+)[ \t]*\(([^()]*)\)")
WIDTHS = {"B": 1, "H": 2, "I": 4}


def packed(data):
    """Bytes as text: compressed, then in base64."""
    return base64.b64encode(gzip.compress(data, 9, mtime=0)).decode("ascii")


def zigzag(numbers):
    """Each number less the one before it, as 0, -1, 1, -2, .. by 0, 1, 2, 3, .."""
    before = 0
    for number in numbers:
        step, before = number - before, number
        yield 2 * step if step >= 0 else -2 * step - 1


def column(numbers, differences=False):
    """Numbers as packed bytes: all lowest bytes, then all second ones, and so on. That packs best.

    With `differences` each number is stored by its difference from the one before it."""
    if differences:
        numbers = list(zigzag(numbers))
    most = max(numbers, default=0)
    kind = "B" if most < 1 << 8 else "H" if most < 1 << 16 else "I"
    made = array.array(kind, numbers)
    if sys.byteorder == "big":
        made.byteswap()
    data, width = made.tobytes(), WIDTHS[kind]
    planes = b"".join(data[at::width] for at in range(width))
    return {"width": width, "differences": differences, "data": packed(planes)}


def circuit_of(path):
    """The names of the signals, what the pins of each read, and columns of both."""
    names, lists, kinds, outs = [], [], [], []
    with open(path, encoding="latin-1", newline="\n") as file:
        for line in file:
            found = LINE.match(line.partition("#")[0])
            if not found:
                continue
            name, word, inside = found[1], found[2].upper(), found[3]
            if name is None and word == "OUTPUT":
                outs.append(inside.strip(" \t"))
                continue
            names.append(inside.strip(" \t") if name is None else name)
            kinds.append(0 if name is None else KINDS[word])
            lists.append([] if name is None else [it.strip(" \t") for it in inside.split(",")])
    numbers = {name: number for number, name in enumerate(names)}
    return names, lists, {
        "kinds": column(kinds),
        "pins": column([len(it) for it in lists]),
        "args": column([numbers[it] for own in lists for it in own], differences=True),
        "outs": column([numbers[it] for it in outs], differences=True),
    }


def blocking_of(rows, names, lists):
    """Columns of the pins of all gates: how many faults each blocks, and under how many tests."""
    starts = dict(zip(names, accumulate(map(len, lists), initial=0)))
    count = sum(map(len, lists))
    blocked, blocking = array.array("I", bytes(4 * count)), array.array("I", bytes(4 * count))
    for gate, pin, _, _, faults, tests in rows:
        place = starts[gate] + int(pin) - 1
        blocked[place], blocking[place] = int(faults), int(tests)
    return {"blocked": column(blocked), "blocking": column(blocking)}


def bits_of(path, room):
    """The tests of a file, packed with the first bit highest: as many as there is room for."""
    made, used = [], 0
    with open(path, "rb") as file:
        for line in file:
            row = line.partition(b"#")[0].strip(b" \t\r\n")
            if not row:
                continue
            size = (len(row) + 7) // 8
            used += size
            if used > room:
                break
            made.append((int(row, 2) << (8 * size - len(row))).to_bytes(size, "big"))
    return made
