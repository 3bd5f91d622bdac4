"""Reads Liberty files: pins, functions, flip-flops, latches, clock gates and scan roles of cells.

`read(path)` returns {name: Cell}. Groups that no function depends on (timing, power) are skipped.
"""

import gzip
import re
from dataclasses import dataclass, field

from logic import renamed

TOKEN = re.compile(
    r'"(?:[^"\\]|\\.|\\\n)*"|/\*.*?\*/|//[^\n]*|\\\r?\n|[{}();:,]|[^\s{}();:,"]+|\n', re.S
)
SKIPPED = set(
    """timing internal_power leakage_power lu_table_template power_lut_template pg_pin wire_load
    operating_conditions wire_load_selection wire_load_table ccsn_first_stage ccsn_last_stage
    receiver_capacitance normalized_driver_waveform output_current_template dynamic_current
    intrinsic_parasitic leakage_current min_pulse_width max_trans electromigration input_voltage
    output_voltage pin_capacitance mode_definition""".split()
)
GATING = "clock_gate_clock_pin clock_gate_enable_pin clock_gate_test_pin clock_gate_out_pin".split()
SCAN = {"scan_in": "test_scan_in", "scan_enable": "test_scan_enable"}
EXPRESSIONS = "clocked_on clocked_on_also next_state clear preset enable data_in".split()
TOGETHER = ("clear_preset_var1", "clear_preset_var2")


class LibertyError(Exception):
    """An error in a Liberty file."""


@dataclass
class Group:
    """A group of the file: its kind, its names, its attributes and the groups in it."""

    kind: str
    names: list
    attributes: dict = field(default_factory=dict)
    groups: list = field(default_factory=list)

    def named(self, kind):
        return [group for group in self.groups if group.kind == kind]

    def get(self, name, default=None):
        return self.attributes.get(name, default)


@dataclass
class Pin:
    """A pin of a cell: its direction, and the expressions of an output."""

    name: str
    way: str
    function: object = None
    three_state: object = None
    role: str = ""
    state_function: object = None


@dataclass
class Cell:
    """A cell. A flip-flop or latch is (state, inverted state, {attribute: expression})."""

    name: str
    pins: dict = field(default_factory=dict)
    flops: list = field(default_factory=list)
    latches: list = field(default_factory=list)
    gating: str = ""
    statetables: list = field(default_factory=list)
    trouble: str = ""
    is_cut: bool = False
    # of a cell with ports of many bits: the pins of each
    wide: dict = field(default_factory=dict)

    def outputs(self):
        return [pin for pin in self.pins.values() if pin.way == "output"]

    def inputs(self):
        return [pin for pin in self.pins.values() if pin.way == "input"]

    def has_state(self):
        return bool(self.flops or self.latches or self.statetables or self.gating)


class Stream:
    """The words of a Liberty file; a line's end is a word, too."""

    def __init__(self, text):
        self.found, self.back = TOKEN.finditer(text), []

    def take(self):
        """Returns the next word, or None at the end."""
        if self.back:
            return self.back.pop()
        for found in self.found:
            word = found[0]
            if not word.startswith(("/*", "//", "\\")):
                return re.sub(r"\\\r?\n", "", word) if word[0] == '"' else word
        return None

    def solid(self):
        """Returns the next word that isn't the end of a line."""
        word = self.take()
        while word == "\n":
            word = self.take()
        return word

    def skip(self):
        """Leaves out a group's body."""
        depth = 1
        while depth:
            word = self.take()
            if word is None:
                raise LibertyError("a group isn't closed")
            depth += (word == "{") - (word == "}")


def bare(word):
    return word[1:-1].strip() if word[:1] == '"' else word


def parse(stream, group):
    """Reads the body of a group up to its closing brace."""
    word = stream.solid()
    while word not in ("}", None):
        if word != ";":
            statement(stream, group, bare(word))
        word = stream.solid()


def statement(stream, group, name):
    """Reads an attribute or a group."""
    after = stream.solid()
    if after == ":":
        group.attributes[name] = simple_value(stream)
        return
    if after != "(":
        return
    names, word = [], stream.solid()
    while word not in (")", None):
        names += [bare(word)] * (word != ",")
        word = stream.solid()
    after = stream.solid()
    if after == "{" and name in SKIPPED:
        stream.skip()
    elif after == "{":
        group.groups.append(Group(name, names))
        parse(stream, group.groups[-1])
    else:
        group.attributes.setdefault(name, " ".join(names))
        stream.back += [after] if after not in (";", None) else []


def simple_value(stream):
    """Reads the value of an attribute, which ends with a semicolon, a line or a group."""
    words, word = [], stream.solid()
    while word not in (";", "\n", "}", None):
        words.append(bare(word))
        word = stream.take()
    stream.back += ["}"] if word == "}" else []
    return " ".join(words)


WORD = re.compile(r"\s*([A-Za-z_][\w\[\]<>.]*|\\\S+|[01]|[!'^*&+|()])")


class Expression:
    """Liberty's Boolean language: inversion first, then XOR, then AND (a blank, too), then OR."""

    def __init__(self, text):
        self.text, self.at, self.words = text, 0, []
        rest = text.strip().strip('"').strip()
        while rest:
            found = WORD.match(rest)
            if not found:
                self.fail()
            self.words.append(found[1])
            rest = rest[found.end():].strip()

    def fail(self):
        raise LibertyError(f"function {self.text!r} isn't one of Liberty")

    def peek(self):
        return self.words[self.at] if self.at < len(self.words) else ""

    def take(self):
        self.at += 1
        return self.words[self.at - 1]

    def whole(self):
        found = self.union()
        return found if not self.peek() else self.fail()

    def union(self):
        return self.operation("|", ("+", "|"), self.product)

    def product(self):
        of = [self.exclusive()]
        while self.peek() in ("*", "&") or self.begins():
            if self.peek() in ("*", "&"):
                self.take()
            of.append(self.exclusive())
        return of[0] if len(of) == 1 else ("&", of)

    def exclusive(self):
        return self.operation("^", ("^",), self.unit)

    def operation(self, kind, signs, below):
        of = [below()]
        while self.peek() in signs:
            self.take()
            of.append(below())
        return of[0] if len(of) == 1 else (kind, of)

    def begins(self):
        """Whether an operand begins here."""
        word = self.peek()
        return bool(word) and (word in "!(01" or bool(re.match(r"[A-Za-z_\\]", word)))

    def unit(self):
        if not self.begins():
            self.fail()
        word = self.take()
        if word == "!":
            return ("!", self.unit())
        inner = ("c", int(word)) if word in "01" else ("v", word)
        if word == "(":
            inner = self.union()
            if self.peek() != ")":
                self.fail()
            self.take()
        while self.peek() == "'":
            self.take()
            inner = ("!", inner)
        return inner


def expression(text):
    """Returns the expression of a function; None if there is none."""
    return Expression(text).whole() if (text or "").strip() else None


def pin_of(name, group, above=None):
    """Makes a pin of its group, and of the bundle's group for what the pin's own lacks."""
    def get(word):
        return group.get(word, above.get(word) if above else None)
    role = next((role for role in GATING if (get(role) or "").lower() == "true"), "")
    role = role or get("signal_type") or SCAN.get(get("nextstate_type"), "")
    words = ("function", "three_state", "state_function")
    function, three_state, state_function = (expression(get(word)) for word in words)
    return Pin(name, get("direction") or "input", function, three_state, role, state_function)


class Builder:
    """Makes a Cell of its group."""

    def __init__(self, group):
        self.cell, self.bundles = Cell(group.names[0] if group.names else ""), {}
        self.cell.gating = group.get("clock_gating_integrated_cell", "")
        kinds = {"pin": self.pin, "bundle": self.bundle, "bus": self.bus, "ff": self.flop,
                 "latch": self.latch, "ff_bank": self.bank, "latch_bank": self.latch,
                 "statetable": self.statetable, "test_cell": self.test_cell}
        try:
            # pins come first, since banks name bundles of them
            for inner in sorted(group.groups, key=lambda one: one.kind not in ("pin", "bundle")):
                kinds.get(inner.kind, lambda one: None)(inner)
        except LibertyError as error:
            self.cell.trouble = str(error)

    def pin(self, group):
        for name in group.names:
            self.cell.pins[name] = pin_of(name, group)

    def bundle(self, group):
        members = group.get("members", "").replace(",", " ").split()
        self.bundles[group.names[0]] = members
        own = {name: pin for pin in group.named("pin") for name in pin.names}
        for name in members:
            self.cell.pins[name] = pin_of(name, own.get(name, group), group)

    def bus(self, group):
        self.cell.trouble = self.cell.trouble or f"a bus pin ({group.names[0]})"
        for name in group.names:
            self.cell.pins[name] = Pin(name, group.get("direction", "input"))

    def parts(self, group):
        found = {word: expression(group.get(word)) for word in EXPRESSIONS}
        return found | {word: group.get(word, "").strip().upper() for word in TOGETHER}

    def flop(self, group):
        state, inverted = (group.names + ["-", "-"])[:2]
        self.cell.flops.append((state, inverted, self.parts(group)))

    def latch(self, group):
        state, inverted = (group.names + ["-", "-"])[:2]
        self.cell.latches.append((state, inverted, self.parts(group)))

    def bank(self, group):
        """Adds a flip-flop for each bit of a bank, whose bundles are one pin for each."""
        state, inverted, width = group.names[0], group.names[1], int(group.names[2])
        for bit in range(width):
            own = {name: f"{name}{bit}" for name in (state, inverted)}
            pins = {name: members[bit] for name, members in self.bundles.items()
                    if len(members) == width}
            parts = {word: renamed(e, pins | own) if word in EXPRESSIONS else e
                     for word, e in self.parts(group).items()}
            self.cell.flops.append((own[state], own[inverted], parts))
            for name in pins.values():
                pin = self.cell.pins[name]
                pin.function = renamed(pin.function, own)

    def statetable(self, group):
        rows = [row.split(":") for row in group.get("table", "").split(",") if row.strip()]
        inputs, nodes = group.names[0].split(), group.names[1].split()
        self.cell.statetables.append((inputs, nodes, rows))

    def test_cell(self, group):
        for pin in group.named("pin"):
            for name in pin.names:
                own = self.cell.pins.get(name)
                if own and not own.role:
                    own.role = pin.get("signal_type") or ""


def read(path):
    """Returns the cells of a Liberty file, which may be compressed (.gz)."""
    opener = gzip.open if path.endswith(".gz") else open
    with opener(path, "rt", encoding="utf-8", errors="replace") as file:
        text = file.read()
    root = Group("", [])
    parse(Stream(text), root)
    groups = [group for library in root.named("library") for group in library.named("cell")]
    cells = {cell.name: cell for cell in (Builder(group).cell for group in groups)}
    if not cells:
        raise LibertyError(f"{path}: no cells")
    return cells
