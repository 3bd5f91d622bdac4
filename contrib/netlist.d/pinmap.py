"""The map of a bench file: at which line the faults of each cell pin are; and the account.

Rows are separated by tabs:
    input, output   line, name                          the order of a test's and a response's bits
    state           line, instance, state, a net that shows it, 1 if inverted
    held            input, bit                          of --hold
    pin             instance, pin, in|out, class, site, credit, cell, file:line
    inside          site, instance                      a line in a cell, which stands for no pin
A class is fault, tied0 or tied1 (that stuck value changes nothing), or a word for a pin without
faults, whose site is -. The credit has the stuck values that a test of the scan chains detects.
"""

from dump import scope_path, state_net
from logic import as_gate, simple
from primitives import Refused
from roles import CLOCK, OPEN, RESET, SCAN, UNUSED
from writer import WRITTEN


def scan_credits(one, scan_pins):
    """Returns, of a flip-flop's scan pins, the stuck values that keep its chain from shifting."""
    credits = {}
    for _, _, parts in one.cell.flops:
        for enable in scan_pins:
            for bit in (0, 1):
                e = as_gate(simple(parts["next_state"], {enable: bit}))
                e = e[1] if e[0] == "!" else e
                if e[0] == "v" and e[1] in scan_pins:
                    credits[e[1]] = "01"
                    credits.setdefault(enable, str(1 - bit))
    return credits


class PinMap:
    """The rows of a map, and the sums of its account."""

    def __init__(self, writer):
        self.w, self.n, self.bench = writer, writer.n, writer.bench
        self.sinks = self.bench.sinks()
        self.rows, self.standing, self.classes = [], set(), {}
        self.rows += [f"# {words}" for words in writer.told]
        self.rows += [f"input\t{line}\t{name}" for line, name in self.bench.inputs]
        self.rows += [f"output\t{line}\t{name}" for line, name in self.bench.outputs]
        self.rows += [self.state_row(flop) for flop in self.bench.flops]
        self.rows += [f"held\t{port.label}\t{self.n.held[port.bit]}" for port in self.n.inputs
                      if port.bit in self.n.held]
        self.add_ports()
        for one in self.n.instances:
            self.add_instance(one)
        self.lines = self.all_lines()
        nets = {self.bench.net(bit): one.path for bit, (one, _) in self.n.driver.items() if one}
        self.owners = self.bench.owners | nets
        self.rows += [f"inside\t{site}\t{self.owner(site)}" for site in self.lines
                      if site not in self.standing]

    def state_row(self, flop):
        found = state_net(self.n.names, flop)
        net = scope_path(self.n.names, found[0]) if found else "-"
        inverted = int(bool(found and found[1]))
        return f"state\t{flop.name}\t{flop.instance.path}\t{flop.state}\t{net}\t{inverted}"

    def site(self, site):
        """Returns a site as `run --list` prints its line."""
        kind, at = site[0], site[1]
        if kind == "stem":
            return f"stem {at}"
        if kind == "out":
            line, words = self.bench.outputs[at][0], f"out {at + 1}"
        elif kind == "data":
            line, words = at.data, f"data {at.name}"
        else:
            line, words = at.pins[site[2]], f"pin {at.name} {site[2] + 1}"
        return words if self.sinks[line] > 1 else f"stem {line}"

    def owner(self, site):
        """Returns the instance that a line is in, or - for a constant's."""
        kind, name = site.split(" ")[:2]
        return "-" if kind == "out" else self.owners.get(name, "-")

    def add_ports(self):
        for port in self.n.inputs:
            site = self.w.port_sites.get(port.label)
            word = None if site else self.w.input_word(port)
            self.add("", port.label, "in", port.bit, site, word, "port", "")
        for place, port in enumerate(self.n.outputs):
            self.add("", port.label, "out", port.bit, ("out", place), None, "port", "")

    def add_instance(self, one):
        """Adds a row for each pin."""
        credits = scan_credits(one, self.w.roles.scan_pins(one)) if one.cell.flops else {}
        for name, pin in one.cell.pins.items():
            if pin.way == "internal":
                continue
            way, bit = "in" if pin.way == "input" else "out", one.nets.get(name)
            site, word = self.bench.sites.get((id(one), name)), one.without.get(name)
            if word is None and site is None and one.fate == CLOCK:
                word = CLOCK
            if bit is None and (way == "out" or site is None):
                word = OPEN
            row = one.path, name, way, bit, site, word, one.cell.name, one.src
            self.add(*row, credits.get(name))

    def add(self, path, pin, way, bit, site, word, cell, src, credit=None):
        """Adds the row of one pin."""
        word = word or (UNUSED if site is None else None)
        if word is None:
            shown = self.site(site)
            self.standing.add(shown)
            word = f"tied{self.n.known[bit]}" if bit in self.n.known else "fault"
        else:
            shown = "-"
        credit = credit or self.credit(word, bit) or "-"
        self.rows.append(f"pin\t{path}\t{pin}\t{way}\t{word}\t{shown}\t{credit}\t{cell}\t{src}")
        kind = "with faults" if shown != "-" else word
        self.classes[kind] = self.classes.get(kind, 0) + 1

    def credit(self, word, bit):
        """Returns the stuck values of a pin without faults that a test of the chains detects."""
        known = self.n.known.get(bit)
        if word == CLOCK and bit in self.w.c.memo:
            return "01"
        if word == RESET and known is not None:
            return str(1 - known)
        if word == SCAN:
            return "01" if known is None else str(known)
        return None

    def all_lines(self):
        """Returns all lines that have faults, as `run --list` prints them."""
        bench, sinks = self.bench, self.sinks
        signals = [line for line, _ in bench.inputs]
        signals += [flop.name for flop in bench.flops] + [gate.name for gate in bench.gates]
        lines = [f"stem {name}" for name in signals]
        lines += [f"pin {gate.name} {place + 1}" for gate in bench.gates
                  for place, pin in enumerate(gate.pins) if sinks[pin] > 1]
        lines += [f"data {flop.name}" for flop in bench.flops if sinks[flop.data] > 1]
        return lines + [f"out {place + 1}" for place, (line, _) in enumerate(bench.outputs)
                        if sinks[line] > 1]

    def text(self):
        return "\n".join(self.rows) + "\n"


def cells_by_fate(writer):
    """Counts what became of the cells, and checks that none of those read has vanished."""
    bench, netlist = writer.bench, writer.n
    lines = {gate.name for gate in bench.gates} | {flop.name for flop in bench.flops}
    lines |= {line for line, _ in bench.inputs}
    fates = {}
    for one in netlist.instances:
        is_written = one.fate in WRITTEN
        if one.fate is None or is_written and any(bench.net(bit) not in lines
                                                  for bit in one.outputs()):
            raise Refused(f"{one} would vanish: an error of this program")
        fates[one.fate] = fates.get(one.fate, 0) + 1
    # an assign with an operator is a gate for each of its bits
    wanted = len(netlist.module["cells"]) - netlist.operators + netlist.assigns
    if sum(fates.values()) != wanted:
        raise Refused(f"{wanted} cells read, {sum(fates.values())} accounted for: an error of"
                      " this program")
    return fates


def counted(counts):
    return ", ".join(f"{count} {word}" for word, count in counts.items()) or "none"


def account(writer, pins):
    """Returns the table of what was read and written."""
    bench, netlist, fates = writer.bench, writer.n, cells_by_fate(writer)
    fates = dict(sorted(fates.items(), key=lambda item: -item[1]))
    named = {f"in {word} trees" if word in (CLOCK, RESET, SCAN) else word: count
             for word, count in fates.items()}
    with_faults = pins.classes.get("with faults", 0)
    without = {word: count for word, count in pins.classes.items() if word != "with faults"}
    tied = sum(bit not in ("0", "1") for bit in netlist.known)
    return [
        f"cells read: {sum(fates.values())}, of them {counted(named)}",
        f"gates written: {len(bench.gates)}",
        f"flip-flops written: {len(bench.flops)}",
        f"nets tied: {tied}",
        f"faults at pins: {2 * with_faults} at {with_faults} pins",
        f"pins without faults: {counted(without)}",
    ]
