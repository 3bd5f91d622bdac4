"""Writes the bench file of a netlist, and what becomes of each of its cells."""

from bench import Bench, output_functions
from clocks import Clocks, is_latch
from flops import States
from latches import opened
from logic import as_gate, support
from names import natural
from primitives import Refused
from roles import CLOCK, HELD, THREE_STATE, Roles

# what becomes of a cell; the other words are those of Roles
GATES, FLOP, CUT, OPEN_LATCH, NO_OUTPUT, IDLE = (
    "gates", "flip-flops", "cut off", "latches of clock gates", "without outputs",
    "unused clock gates")
# the fates of cells whose outputs are lines
WRITTEN = (GATES, FLOP, CUT, OPEN_LATCH)


class Writer:
    """Turns a netlist into a bench file. `told` has a line for all that the caller should know."""

    def __init__(self, netlist):
        self.n, self.given = netlist, netlist.given
        self.c = Clocks(netlist)
        self.roles = Roles(netlist, self.c)
        self.bench = Bench(netlist)
        # the functions of cells, as one gate where they are one
        self.functions = {}
        self.port_sites = {}
        self.write_inputs()
        for port in self.lasting_outputs():
            self.bench.outputs.append((self.bench.net(port.bit), port.label))
        for one in netlist.instances:
            if one.fate is None:
                self.write(one)
        self.drop_unread_ties()
        self.bench.flops.sort(key=lambda flop: natural(flop.name))
        self.bench.connect_ties()
        self.bench.check_cycles()
        self.told = self.telling()

    def write_inputs(self):
        """Adds a line for each input but clocks, and a constant for each held one."""
        ports = {port.bit for port in self.n.outputs}
        for port in self.n.inputs:
            bit, is_held = port.bit, port.bit in self.n.held
            if self.c.flops and bit in self.c.memo and not self.is_data(bit):
                continue
            if is_held and (bit in self.roles.blocked or not (
                    self.n.readers.get(bit) or bit in ports)):
                continue
            line = self.bench.net(bit)
            if is_held:
                self.bench.tie(self.n.held[bit], line)
            else:
                self.bench.inputs.append((line, port.label))
                self.roles.blocked.pop(bit, None)
            self.port_sites[port.label] = ("stem", line)

    def lasting_outputs(self):
        """The outputs that have a line: of RTL, all but constants."""
        return [port for port in self.n.outputs
                if not (self.given.is_rtl and port.bit in ("0", "1"))]

    def is_data(self, bit):
        """Whether something else than a clock pin reads a clock."""
        readers = self.n.readers.get(bit, [])
        is_read = any(one.without.get(pin) != CLOCK for one, pin in readers)
        return self.given.is_rtl and (is_read or bit in {port.bit for port in self.n.outputs})

    def write(self, one):
        """Adds the lines of an instance."""
        cell = one.cell
        if cell.is_cut:
            self.bench.cut(one)
            one.fate = CUT
        elif cell.flops:
            States(self.bench, one, self.edges_of(one), self.roles.folded(one)).write()
            one.fate = FLOP
        elif id(one) in self.c.open_latches:
            functions = {pin.name: opened(one, pin.function) for pin in cell.outputs()}
            self.bench.combinational(one, functions)
            one.fate = OPEN_LATCH
        elif cell.has_state():
            self.refuse_state(one)
        else:
            self.write_gates(one)

    def edges_of(self, one):
        return {state: self.roles.edges[id(one), state] for state, _, _ in one.cell.flops}

    def refuse_state(self, one):
        """Refuses a latch; a clock gate that nothing reads may stay out."""
        if one.cell.gating and not any(self.n.readers.get(bit) for bit in one.outputs()):
            one.fate = IDLE
            return
        if one.cell.gating:
            raise Refused(f"{one} is a clock gate that clocks nothing")
        scan = self.is_before_scan(one)
        hint = ": --scan fold leaves out a lockup latch, if --hold holds the scan enable"
        kind = "a latch" if is_latch(one) else "a state table"
        if self.given.is_rtl:
            scan, hint = True, ": give its process a clock, or all cases a value"
        raise Refused(f"{one} is {kind}" + hint * scan)

    def is_before_scan(self, one):
        """Whether scan pins alone read an instance."""
        readers = [reader for bit in one.outputs() for reader in self.n.readers.get(bit, [])]
        return is_latch(one) and bool(readers) and all(
            pin in self.roles.scan_pins(other) for other, pin in readers)

    def write_gates(self, one):
        name = one.cell.name
        if name not in self.functions:
            found = {pin.name: pin.function for pin in one.cell.outputs()}
            self.functions[name] = {pin: as_gate(e) for pin, e in found.items() if e is not None}
        plain = output_functions(one, self.n.pins_known(one))
        self.bench.combinational(one, {pin: self.functions[name][pin] for pin in plain})
        for pin in one.cell.outputs():
            if pin.three_state is not None:
                one.without = {**dict.fromkeys(support_of(pin), THREE_STATE), **one.without}
        one.fate = GATES if one.outputs() else NO_OUTPUT

    def drop_unread_ties(self):
        """Leaves out the constants of held inputs that no line reads, as of an open pin."""
        read = set(self.bench.sinks())
        idle = {self.bench.net(port.bit): port.label for port in self.n.inputs
                if port.bit in self.n.held and port.label in self.port_sites}
        idle = {line: label for line, label in idle.items() if line not in read}
        self.bench.gates = [gate for gate in self.bench.gates if gate.name not in idle]
        for label in idle.values():
            del self.port_sites[label]

    def input_word(self, port):
        """The word for an input that has no line."""
        if port.bit in self.c.memo and self.c.flops:
            return CLOCK
        return self.roles.blocked.get(port.bit, HELD if port.bit in self.n.held else None)

    def telling(self):
        """Says each clock domain, the clock gates, and what is held."""
        told = [f"{self.roles.described(key)}, {len(of)} flip-flops"
                + ", read as data too" * self.is_data(key[0])
                for key, of in self.roles.domains.items()]
        gates = {(id(gate.instance), gate.output): gate.instance.path
                 for _, _, found in self.roles.edges.values() for gate in found}
        if gates:
            some = ", ".join(dict.fromkeys(gates.values()))
            told.append(f"{len(gates)} clock gates, as enables at data pins: "
                        + (some if len(some) < 80 else some[:80].rsplit(", ", 1)[0] + ", .."))
        if len(self.roles.domains) > 1:
            told.append("more than one clock or edge: a test takes them for one that ticks once")
        held = [f"{self.n.called(bit)}={to}" for bit, to in self.n.held.items()]
        told += [f"held: {', '.join(held)}"] if held else []
        fixed = [f"{port.label} is {port.bit}" for port in self.n.outputs
                 if port not in self.lasting_outputs()]
        if fixed:
            more = ", .." if len(fixed) > 8 else ""
            told.append(f"{len(fixed)} outputs are constants and left out:"
                        f" {', '.join(fixed[:8])}{more}")
        return told


def support_of(pin):
    """The pins that only enable a three-state output."""
    return [name for name in support(pin.three_state) if name not in support(pin.function)]
