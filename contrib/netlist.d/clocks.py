"""Traces the clock of each flip-flop to an input: its edge, and the enables on the way."""

from dataclasses import dataclass, field

from latches import latches_of
from logic import ONE, ZERO, as_gate, inverse, simple, substituted, support
from netlist import WrongCall
from primitives import Refused


@dataclass
class ClockGate:
    """A gate in a clock path, which passes the clock while its enable is 1."""

    instance: object
    output: str
    enable: object
    form: str  # "and" if it passes the high phase of its clock pin, else "or"
    free: list  # pins of the enable without a latch
    is_latched: bool
    outer: list = field(default_factory=list)  # (pin, a latch of its own before it)
    is_inverted: bool = False  # its clock pin, beside the root

    def passing(self):
        """The level of the root at which it passes."""
        return int(self.form == "and") ^ self.is_inverted


def form_of(e, clock):
    """Returns (form, enable, inverted) of a gate's function, or None if it is no AND or OR."""
    low, high = as_gate(simple(e, {clock: 0})), as_gate(simple(e, {clock: 1}))
    if low == ZERO:
        return "and", high, False
    if low == ONE:
        return "and", inverse(high), True
    if high == ONE:
        return "or", inverse(low), False
    if high == ZERO:
        return "or", low, True
    return None


def is_latch(one):
    return bool(one and one.cell.latches and not one.cell.gating)


class Clocks:
    """The clock paths of a netlist. `memo` has (root, inverted, gates) of each traced net."""

    def __init__(self, netlist):
        self.n, self.memo = netlist, {}
        # latches of their own before clock gates, and the pins that may read them
        self.open_latches, self.latched_pins = {}, set()
        ports = {port.label: port.bit for port in netlist.inputs}
        wrong = [name for name in netlist.given.clock if name not in ports]
        if wrong:
            raise WrongCall(f"--clock {wrong[0]}: there is no such input")
        self.roots = {ports[name] for name in netlist.given.clock}
        self.flops = [one for one in netlist.instances if one.cell.flops]
        if not self.roots:
            self.infer()
        self.reach()

    def clock_pin(self, one, e):
        """Returns the only pin that an expression reads, and whether it is inverted."""
        e = simple(e, self.n.pins_known(one))
        inverted = e[0] == "!"
        e = e[1] if inverted else e
        return (e[1], inverted) if e[0] == "v" else (None, False)

    def below(self, one, name):
        """Returns the nets that may be the clock of a cell's output."""
        cell = one.cell
        if cell.gating:
            pins = [pin.name for pin in cell.pins.values() if pin.role == "clock_gate_clock_pin"]
        elif cell.has_state() or cell.pins[name].function is None:
            pins = []
        else:
            pins = [self.clock_pin(one, cell.pins[name].function)[0]]
        return [one.nets[pin] for pin in pins if pin in one.nets]

    def infer(self):
        """Finds the inputs that clock a flip-flop through buffers, inverters and clock gates."""
        todo = []
        for one in self.flops:
            for _, _, parts in one.cell.flops:
                pin = self.clock_pin(one, parts["clocked_on"])[0] if parts["clocked_on"] else None
                todo += [one.nets[pin]] if pin in one.nets else []
        seen = set(self.n.known)
        while todo:
            bit = todo.pop()
            if bit in seen:
                continue
            seen.add(bit)
            one, name = self.n.driver.get(bit, (None, None))
            if one is None:
                self.roots.add(bit)
            elif not one.cell.is_cut:
                todo += self.below(one, name)

    def reach(self):
        """Finds all nets that a root reaches through cells without flip-flops."""
        self.reached, todo = set(), list(self.roots)
        while todo:
            bit = todo.pop()
            if bit in self.reached:
                continue
            self.reached.add(bit)
            for one, name in self.n.readers.get(bit, []):
                if not (one.cell.flops or one.cell.is_cut or is_latch(one)):
                    todo += self.passed(one, name)

    def passed(self, one, name):
        """Returns the nets of the outputs that a pin changes."""
        known, found = self.n.pins_known(one), []
        for pin in one.cell.outputs():
            e = pin.function if pin.function is not None else pin.state_function
            if pin.name in one.nets and (
                    one.cell.gating or e is None or name in support(simple(e, known))):
                found.append(one.nets[pin.name])
        return found

    def sources(self, bit):
        """Returns which of `input`, `state`, `clock` a net depends on."""
        todo, seen, found = [bit], set(self.n.known), set()
        while todo:
            at = todo.pop()
            if at in seen:
                continue
            seen.add(at)
            found |= {"clock"} if at in self.reached else set()
            one, _ = self.n.driver[at]
            if one is None or one.cell.is_cut:
                found.add("input")
            elif one.cell.has_state():
                found.add("state")
            else:
                todo += one.inputs()
        return found

    def trace(self, bit):
        """Returns (root, inverted, gates) of a clock net; Refused says why it has none."""
        todo, at, seen = [], bit, set()
        while at not in self.memo:
            if at in self.n.known:
                raise Refused(f"is the constant {self.n.known[at]}")
            one, name = self.n.driver.get(at, (None, None))
            if at in self.roots:
                self.memo[at] = (at, False, [])
                break
            if one is None:
                name = self.n.called(at)
                raise Refused(f"comes from input {name}, which isn't a clock: --clock {name}")
            if at in seen:
                raise Refused("goes round in a circle")
            seen.add(at)
            todo.append((at, *self.step(one, name)))
            at = todo[-1][1]
        for net, below, inverted, gate in reversed(todo):
            root, before, gates = self.memo[below]
            if gate:
                gate.is_inverted = before
                self.check_outer(gate, root)
            self.memo[net] = (root, before ^ inverted, gates + [gate] * bool(gate))
        return self.memo[bit]

    def step(self, one, name):
        """Returns (the net below, inverted, None or a gate) of one cell of a clock path."""
        what = f"comes through {one.path} ({one.cell.name}), "
        known = self.n.pins_known(one)
        e, latched = self.function_of(one, name, what)
        e = simple(e, known)
        pins = list(support(e))
        clocks = [p for p in pins if p not in latched and one.nets.get(p) in self.reached]
        if not clocks and pins:
            raise Refused(what + "none of whose pins a clock reaches: --clock names it")
        if len(clocks) != 1:
            raise Refused(what + f"which joins clocks at {', '.join(clocks)}")
        clock, others = clocks[0], [p for p in pins if p != clocks[0]]
        found = form_of(e, clock)
        if found is None:
            raise Refused(what + "which is no AND or OR of the clock and an enable")
        form, enable, inverted = found
        if not others:
            return one.nets[clock], inverted, None
        for node in [p for p in others if p in latched]:
            pin, level, data = latched[node]
            if pin != clock or level != int(form == "and"):
                raise Refused(what + "whose latch is open while the clock passes")
            enable = substituted(enable, node, simple(data))
        outer = [(p, self.n.driver[one.nets[p]][0]) for p in others
                 if p in one.nets and one.nets[p] in self.n.driver
                 and is_latch(self.n.driver[one.nets[p]][0])]
        free = [p for p in others if p not in latched and p not in dict(outer)]
        is_latched = any(p in latched for p in others)
        gate = ClockGate(one, name, simple(enable), form, free, is_latched, outer)
        return one.nets[clock], inverted, gate

    def function_of(self, one, name, what):
        """Returns the function of a clock cell's output, and the latches whose nodes it reads."""
        pin, cell = one.cell.pins[name], one.cell
        if cell.flops or cell.is_cut or is_latch(one):
            kind = "a flip-flop: a divided clock" if cell.flops else (
                "a black box" if cell.is_cut else "a latch")
            raise Refused(what + kind)
        if pin.three_state and simple(pin.three_state, self.n.pins_known(one)) != ZERO:
            raise Refused(what + "a three-state output")
        e, latched = pin.function, {}
        if cell.latches or cell.statetables:
            e = pin.function if cell.latches else pin.state_function
            latched = latches_of(one)
        if e is None:
            kind = "a clock gate without a latch or table" if cell.gating else "a cell"
            raise Refused(what + f"{kind} whose output has no function")
        return e, latched

    def check_outer(self, gate, root):
        """Checks the latches before a gate: they hold while it passes, by the same clock."""
        for pin, latch in gate.outer:
            what = f"comes through {gate.instance.path} ({gate.instance.cell.name}), whose latch"
            what += f" {latch.path} "
            clock, level, data = next(iter(latches_of(latch).values()))
            try:
                other, inverted, gates = self.trace(latch.nets[clock])
            except Refused as why:
                raise Refused(f"{what}has a clock that {why}") from None
            if other != root or gates or level ^ inverted != gate.passing():
                raise Refused(what + "is open while the clock passes")
            if any("clock" in self.sources(latch.nets[p]) for p in support(data)):
                raise Refused(what + "has data that depends on a clock")
            self.open_latches[id(latch)] = latch
            self.latched_pins.add((id(gate.instance), pin))

    def check(self, gates, is_falling):
        """Refuses gates whose enable can move in the phase that passes."""
        for gate in gates:
            what = f"comes through {gate.instance.path} ({gate.instance.cell.name}), "
            # whether it passes after the active edge, which is_falling gives at the root
            after = gate.passing() != int(is_falling)
            if (gate.is_latched or gate.outer) and not after:
                raise Refused(what + "which latches its enable half a cycle before the edge")
            bad = "state" if after else "input"
            outer = {pin for pin, _ in gate.outer}
            for pin in support(gate.enable):
                found = self.sources(gate.instance.nets[pin])
                if "clock" in found and pin not in outer:
                    raise Refused(what + f"whose enable {pin} depends on a clock")
                if pin in gate.free and self.n.given.gating == "checked" and bad in found:
                    which = "flip-flops" if bad == "state" else "inputs"
                    raise Refused(what + f"whose enable {pin} depends on {which}, which change"
                                  " while the clock passes: --gating trusted takes it")
