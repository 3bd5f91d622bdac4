"""The lines of a bench file, and at which of them the faults of each cell pin are.

A site is ("stem", name), ("pin", gate, place), ("data", flip-flop) or ("out", place). A read is a
line and the pin (instance, name) that reads it, or None.
"""

import re
from dataclasses import dataclass

from logic import simple, support
from primitives import Refused

GATES = {"&": "AND", "|": "OR", "^": "XOR"}
INVERTED = {"&": "NAND", "|": "NOR", "^": "XNOR"}


@dataclass(eq=False)
class Gate:
    """A gate's line. Before all inputs are known, a constant has None for its pins."""

    name: str
    kind: str
    pins: list


@dataclass(eq=False)
class FlipFlop:
    """A DFF line, the state of an instance that it is, and its edge: (root, falling, gates)."""

    name: str
    data: str
    instance: object
    state: str
    edge: tuple


class Bench:
    """Collects the lines of a netlist's bench file."""

    def __init__(self, netlist):
        self.n = netlist
        self.gates, self.flops, self.inputs, self.outputs = [], [], [], []
        self.sites = {}  # (id of an instance, pin): a site
        self.used, self.name, self.ties, self.counts = set(), {}, {}, {}
        self.enables = {}  # the lines of enables of clock gates
        self.owners = {}  # the instance of each line inside one
        for bit in sorted(netlist.names.verilog):
            self.name[bit] = self.fresh(netlist.called(bit))

    def fresh(self, name):
        """Returns a name that no other line has."""
        name = re.sub(r"[^!-~]|[(),=#]", "_", name)
        while name in self.used:
            name += "_"
        self.used.add(name)
        return name

    def net(self, bit):
        """Returns the line of a net."""
        if bit in ("0", "1") or bit in self.n.loose:
            return self.tie(self.n.known[bit])
        if bit not in self.name:
            self.name[bit] = self.fresh(f"n{bit}")
        return self.name[bit]

    def tie(self, bit, into=None):
        """Returns the line of a constant: of any input x, XOR(x, x) or XNOR(x, x)."""
        if into is None and bit in self.ties:
            return self.ties[bit]
        line = into or self.fresh(f"tie{bit}")
        self.gates.append(Gate(line, "XNOR" if bit else "XOR", [None, None]))
        if into is None:
            self.ties[bit] = line
        return line

    def line(self, one, word):
        """Returns a new line inside an instance."""
        key = one.path, word
        self.counts[key] = count = self.counts.get(key, 0) + 1
        name = self.fresh(f"{one.path}~{word}{count if count > 1 else ''}")
        self.owners[name] = one.path
        return name

    def add(self, into, kind, reads):
        """Adds a gate; a pin that one of its pins is has its faults there."""
        gate = Gate(into, kind, [line for line, _ in reads])
        self.gates.append(gate)
        for place, (_, pin) in enumerate(reads):
            if pin:
                self.sites[id(pin[0]), pin[1]] = ("pin", gate, place)
        return into, None

    def variable(self, one, name, own):
        """Returns the read of a pin, or of a signal inside the instance."""
        if name in own:
            return own[name], None
        bit = one.nets.get(name)
        if bit is not None:
            return self.net(bit), (one, name)
        if self.n.given.undriven is None:
            raise Refused(f"pin {one.path}/{name} ({one.cell.name}) isn't connected:"
                          " --undriven 0 or 1 ties all of these")
        return self.tie(int(self.n.given.undriven)), (one, name)

    def emit(self, one, e, own, into=None, word="n"):
        """Adds gates for an expression of an instance's pins; returns the read of its value."""
        if e[0] == "c":
            return self.tie(e[1], into), None
        if e[0] == "v" and into is None:
            return self.variable(one, e[1], own)
        inner = e[1] if e[0] == "!" else e
        if e[0] == "v":
            kind, of = "BUFF", [e]
        elif inner[0] in GATES:
            kind, of = (INVERTED if e[0] == "!" else GATES)[inner[0]], inner[1]
        else:
            kind, of = "NOT", [inner]
        reads = [self.emit(one, part, own, None, word) for part in of]
        return self.add(into or self.line(one, word), kind, reads)

    def buffers(self, one, expressions, inner=()):
        """Adds a BUFF for each pin that the expressions read more than once; returns them."""
        counts, own = {}, {}
        for e in expressions:
            support(e, counts)
        for name, count in counts.items():
            if count > 1 and name not in inner:
                line, _ = self.variable(one, name, {})
                own[name] = self.fresh(f"{one.path}/{name}")
                self.owners[own[name]] = one.path
                self.add(own[name], "BUFF", [(line, None)])
                self.sites[id(one), name] = ("stem", own[name])
        return own

    def combinational(self, one, functions):
        """Adds the gates of an instance's outputs."""
        outputs = {name: e for name, e in functions.items() if name in one.nets}
        own = self.buffers(one, outputs.values())
        for name, e in outputs.items():
            into = self.net(one.nets[name])
            self.emit(one, e, own, into)
            self.sites[id(one), name] = ("stem", into)

    def cut(self, one):
        """Adds an input for each output of a black box, and an output for each of its inputs."""
        for pin in one.cell.pins.values():
            if pin.name not in one.nets or pin.name in one.without:
                continue
            if pin.way == "output":
                line = self.net(one.nets[pin.name])
                self.inputs.append((line, f"{one.path}/{pin.name}"))
                self.sites[id(one), pin.name] = ("stem", line)
            else:
                self.sites[id(one), pin.name] = ("out", len(self.outputs))
                line = self.net(one.nets[pin.name])
                self.outputs.append((line, f"{one.path}/{pin.name}"))

    def connect_ties(self):
        """Gives the constants an input to be made of."""
        sources = [line for line, _ in self.inputs] + [flop.name for flop in self.flops]
        for gate in self.gates:
            if gate.pins == [None, None]:
                if not sources:
                    raise Refused("there are constants, and no input or flip-flop to make them of")
                gate.pins = [sources[0], sources[0]]

    def check_cycles(self):
        """Refuses a combinational loop."""
        drivers, done = {gate.name: gate for gate in self.gates}, set()
        nets = {self.net(bit): one.path for bit, (one, _) in self.n.driver.items() if one}
        for start in drivers:
            self.walk(start, drivers, done, nets)

    def walk(self, start, drivers, done, nets):
        """Goes down from a gate to those that it reads, and stops at one that is on the way."""
        if start in done:
            return
        path, above = [(start, iter(drivers[start].pins))], {start}
        while path:
            name, rest = path[-1]
            below = next((pin for pin in rest if pin in drivers and pin not in done), None)
            if below is None:
                done.add(name)
                above.remove(name)
                path.pop()
            elif below in above:
                names = [name for name, _ in path]
                loop = [nets[name] for name in names[names.index(below):] if name in nets]
                more = " .." * (len(loop) > 8)
                raise Refused(f"a combinational loop: instances {' '.join(loop[:8])}{more}")
            else:
                above.add(below)
                path.append((below, iter(drivers[below].pins)))

    def sinks(self):
        """Counts what reads each line."""
        counts = {}
        lines = [flop.data for flop in self.flops] + [line for line, _ in self.outputs]
        for line in lines + [pin for gate in self.gates for pin in gate.pins]:
            counts[line] = counts.get(line, 0) + 1
        return counts

    def text(self, told):
        """Returns the bench file, with these lines as comments at its head."""
        lines = [f"# {words}" for words in told]
        lines += [f"INPUT({line})" for line, _ in self.inputs]
        lines += [f"OUTPUT({line})" + f"  # {name}" * (name != line) for line, name in self.outputs]
        lines += [f"{flop.name} = DFF({flop.data})" for flop in self.flops]
        lines += [f"{gate.name} = {gate.kind}({', '.join(gate.pins)})" for gate in self.gates]
        return "\n".join(lines) + "\n"


def output_functions(one, known):
    """Returns {output: expression} of a cell without a state; Refused if one has none."""
    for pin in one.cell.outputs():
        if pin.function is None:
            raise Refused(f"{one}: output {pin.name} has no function")
        if pin.three_state is not None and simple(pin.three_state, known) != ("c", 0):
            hint = "--hold the input that enables it"
            raise Refused(f"{one}: output {pin.name} is three-state, and not held enabled: {hint}")
    return {pin.name: pin.function for pin in one.cell.outputs()}
