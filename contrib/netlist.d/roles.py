"""Which pins have no faults, and which instances have no gates: clocks, held resets, scan."""

from clocks import is_latch
from logic import ONE, ZERO, simple, support
from primitives import Refused

# words for pins without faults
CLOCK, RESET, SCAN, HELD, THREE_STATE = "clock", "reset", "scan", "held", "three-state"
OPEN, UNUSED = "open", "unused"


class Roles:
    """The clock domains of a netlist, and what stays out of its bench file.

    `edges` has (root, falling, gates) of each state, `domains` the flip-flop cells of each root and
    edge, `blocked` a word for each net that only reaches pins without faults.
    """

    def __init__(self, netlist, clocks):
        self.n, self.c, self.given = netlist, clocks, netlist.given
        self.edges, self.domains, self.blocked = {}, {}, {}
        for one in netlist.instances:
            if one.cell.flops:
                self.find_pins(one)
                self.find_edges(one)
        self.check_domains()
        self.find_clock_cells()
        self.check_clocks()
        self.block()

    def scan_pins(self, one):
        """The scan pins of a flip-flop."""
        return {pin.name for pin in one.cell.inputs()
                if pin.role.startswith("test_scan_") or pin.name in self.given.scan_pins}

    def folded(self, one):
        return self.scan_pins(one) if self.given.scan == "fold" else set()

    def find_pins(self, one):
        """Names the scan and reset pins of a flip-flop that have no faults."""
        if self.given.scan != "count":
            one.without |= {name: SCAN for name in self.scan_pins(one)}
        known = self.n.pins_known(one)
        turns = [(word, parts[word]) for _, _, parts in one.cell.flops
                 for word in ("clear", "preset") if parts[word]]
        for word, e in turns:
            held = simple(e, known)
            if held == ONE:
                raise Refused(f"{one}: its {word} is held active")
            if self.given.asynchronous == "gates":
                continue
            if held != ZERO:
                pin = next(iter(support(held)))
                net = self.n.called(one.nets[pin]) if pin in one.nets else "-"
                raise Refused(f"{one}: its {word} (pin {pin}, signal {net}) isn't held inactive:"
                              " --hold its input, or --async gates")
            one.without = {**{pin: RESET for pin in support(e)}, **one.without}

    def find_edges(self, one):
        """Traces the clock of each state of a flip-flop."""
        for state, _, parts in one.cell.flops:
            on = parts["clocked_on"]
            if self.given.is_rtl and one.cell.name == "FF":
                self.edges[id(one), state] = (None, False, [])
                self.domains.setdefault((None, False), []).append(one)
                continue
            if on is None or parts["clocked_on_also"] is not None:
                raise Refused(f"{one}: no single clock")
            pin, inverted = self.c.clock_pin(one, on)
            if pin is None:
                e = simple(on, self.n.pins_known(one))
                what = f"the constant {e[1]}" if e[0] == "c" else "a function of several pins"
                raise Refused(f"{one}: its clock is {what}")
            if pin not in one.nets:
                raise Refused(f"{one}: its clock pin {pin} isn't connected")
            try:
                root, turned, gates = self.c.trace(one.nets[pin])
                falling = turned ^ inverted
                self.c.check(gates, falling)
            except Refused as why:
                clock = self.n.called(one.nets[pin])
                raise Refused(f"{one}: its clock {clock} {why}") from None
            one.without[pin] = CLOCK
            self.edges[id(one), state] = (root, falling, gates)
            self.domains.setdefault((root, falling), []).append(one)

    def described(self, key):
        root, falling = key
        if root is None:
            return "the global clock"
        return f"clock {self.n.called(root)} {'falling' if falling else 'rising'}"

    def check_domains(self):
        """Sorts the domains, those with the most flip-flops first; refuses several."""
        self.domains = dict(sorted(self.domains.items(), key=lambda item: (
            -len(item[1]), self.n.called(item[0][0]), item[0][1])))
        if len(self.domains) > 1 and self.given.clocks != "all":
            words = [f"{self.described(key)} ({len(of)}, as {of[0].path})"
                     for key, of in self.domains.items()]
            raise Refused(f"more than one clock or edge: {', '.join(words[:6])}:"
                          " --clocks all takes them for one tick")

    def find_clock_cells(self):
        """Marks the cells of clock trees, which have no gates but those of enables."""
        for bit in self.c.reached:
            try:
                self.c.trace(bit)
            except Refused:
                pass
        for one in self.n.instances:
            outs = one.outputs()
            if not one.cell.flops and outs and all(bit in self.c.memo for bit in outs):
                one.fate = CLOCK
                one.without |= {pin: CLOCK for pin, bit in one.nets.items()
                                if bit in self.c.memo}
            elif id(one) in self.c.open_latches:
                self.check_latch(one)
            elif one.cell.is_cut:
                one.without |= {pin: CLOCK for pin, bit in one.nets.items()
                                if bit in self.c.memo and one.cell.pins[pin].way == "input"}

    def check_latch(self, one):
        """Takes a latch before clock gates as its data, which it follows before the edge."""
        for bit in one.outputs():
            for other, pin in self.n.readers.get(bit, []):
                if (id(other), pin) not in self.c.latched_pins:
                    raise Refused(f"{one} is a latch: {other} reads it beside clock gates")
            for port in self.n.outputs:
                if port.bit == bit:
                    raise Refused(f"{one} is a latch: output {port.label} reads it beside clock"
                                  " gates")
        enable = support(one.cell.latches[0][2]["enable"])
        one.without |= {pin: CLOCK for pin in enable}

    def check_clocks(self):
        """Refuses what reads a clock as data."""
        if self.given.is_rtl:
            return
        for bit in self.c.memo:
            for one, pin in self.n.readers.get(bit, []):
                if one.without.get(pin) != CLOCK and not is_latch(one) and not one.cell.is_cut:
                    net = self.n.called(bit)
                    raise Refused(f"{one}: pin {pin} reads the clock {net} as data")
        for port in self.n.outputs:
            if port.bit in self.c.memo and self.c.flops:
                one, _ = self.n.driver[port.bit]
                through = f", through {one.path} ({one.cell.name})" if one else ""
                raise Refused(f"output {port.label} has the clock{through}")

    def block(self):
        """Finds what is only there for pins without faults: reset trees, folded scan paths."""
        self.words = {RESET} | ({SCAN} if self.given.scan == "fold" else set())
        self.ports = {port.bit for port in self.n.outputs}
        self.waiting = {bit: len(of) for bit, of in self.n.readers.items()}
        todo = []
        for one in self.n.instances:
            for pin, word in one.without.items():
                if word in self.words:
                    self.left_out(one, pin, word, todo)
        while todo:
            bit = todo.pop()
            one, pin = self.n.driver.get(bit, (None, None))
            if one is not None:
                one.without[pin] = self.blocked[bit]
                self.leave_out(one, self.blocked[bit], todo)

    def left_out(self, one, pin, word, todo):
        """Counts a pin that is not read; its net goes to `todo` once none of its readers is."""
        bit = one.nets.get(pin)
        if not isinstance(bit, int):
            return
        self.waiting[bit] -= 1
        if not self.waiting[bit] and bit not in self.ports and bit not in self.c.memo:
            self.blocked[bit] = word
            todo.append(bit)

    def leave_out(self, one, word, todo):
        """Leaves out an instance all of whose outputs are blocked, a lockup latch too."""
        if one.cell.flops or one.cell.is_cut or one.cell.gating or one.fate:
            return
        if not all(bit in self.blocked for bit in one.outputs()):
            return
        one.fate = "lockup latches" if is_latch(one) else word
        for pin in [pin for pin, bit in one.nets.items() if one.cell.pins[pin].way == "input"]:
            is_clock = one.nets[pin] in self.c.memo or one.nets[pin] in self.c.reached
            one.without[pin] = CLOCK if is_clock else word
            if not is_clock:
                self.left_out(one, pin, word, todo)
