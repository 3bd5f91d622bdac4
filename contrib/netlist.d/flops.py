"""Makes DFF lines and gates of an instance with flip-flops."""

from bench import FlipFlop
from logic import ZERO, as_gate, simple, substituted, support
from primitives import Refused

OTHER = {"L": "H", "H": "L"}


class States:
    """The flip-flops of one instance on their way into a bench file."""

    def __init__(self, bench, one, edges, folded):
        self.bench, self.one, self.edges = bench, one, edges
        self.given, self.known = bench.n.given, bench.n.pins_known(one)
        self.nodes = {name for state, inverted, _ in one.cell.flops for name in (state, inverted)}
        self.outputs = self.functions()
        self.nexts = {state: self.following(parts, folded) for state, _, parts in one.cell.flops}
        self.turns = {state: self.turning(parts) for state, _, parts in one.cell.flops}
        everything = [*self.outputs.values(), *self.nexts.values()]
        everything += [e for turn in self.turns.values() for e in turn.values()]
        self.own = bench.buffers(one, everything, self.nodes)
        # outputs that are a state's line themselves
        self.plain = set()

    def functions(self):
        """The functions of the connected outputs."""
        found = {}
        for pin in self.one.cell.outputs():
            if pin.name not in self.one.nets:
                continue
            if pin.function is None or pin.three_state is not None:
                kind = "has no function" if pin.function is None else "is three-state"
                raise Refused(f"{self.one}: output {pin.name} {kind}")
            found[pin.name] = simple(pin.function)
        return found

    def following(self, parts, folded):
        """The next state; pins that --scan fold leaves out have their held bits."""
        if parts["next_state"] is None:
            raise Refused(f"{self.one}: a flip-flop without a next state")
        held = {pin: bit for pin, bit in self.known.items() if pin in folded}
        e = simple(parts["next_state"], held)
        return as_gate(e) if held else e

    def turning(self, parts):
        """The clear and preset that become gates."""
        if self.given.asynchronous != "gates":
            return {}
        return {word: simple(parts[word]) for word in ("clear", "preset") if parts[word]}

    def reads(self, node):
        """Counts the outputs that read a node."""
        return sum(node in support(e) for e in self.outputs.values())

    def write(self):
        """Adds the lines of all states and outputs."""
        for state, inverted, parts in self.one.cell.flops:
            self.write_state(state, inverted, parts)
        for name, e in self.outputs.items():
            if name not in self.plain:
                into = self.bench.net(self.one.nets[name])
                self.bench.emit(self.one, self.without_inverse(e), self.own, into)
                self.bench.sites[id(self.one), name] = ("stem", into)

    def without_inverse(self, e):
        """Returns an expression that reads states only, not inverted ones."""
        for state, inverted, _ in self.one.cell.flops:
            e = substituted(e, inverted, ("!", ("v", state)))
        return simple(e)

    def write_state(self, state, inverted, parts):
        """Adds the DFF line of a state, and the gates before it."""
        bench, one, turn = self.bench, self.one, self.turns[state]
        following = self.without_inverse(self.nexts[state])
        enable = enable_line(bench, self.edges[state][2])
        name = self.line_of(state, inverted, following, enable is None and not turn)
        lines = {word: bench.emit(one, e, self.own, bench.line(one, word))[0]
                 for word, e in turn.items()}
        order = self.order(state, inverted, parts)
        shown = self.turned((name, None), order, lines, "q")[0]
        self.own[state] = shown
        read = bench.emit(one, following, self.own, None, "d")
        if enable is not None:
            read = self.enabled(read, enable, shown)
        data, pin = self.turned(read, order, lines, "d")
        flop = FlipFlop(name, data, one, state, self.edges[state])
        bench.flops.append(flop)
        if pin:
            bench.sites[id(one), pin[1]] = ("data", flop)

    def line_of(self, state, inverted, following, is_bare):
        """Names a state's line: by the net of its output, if nothing else reads the state."""
        alone = [name for name, e in self.outputs.items() if e == ("v", state)]
        if len(alone) == 1 and self.reads(state) == 1 and not self.reads(inverted) and is_bare \
                and state not in support(following):
            self.plain.add(alone[0])
            line = self.bench.net(self.one.nets[alone[0]])
            self.bench.sites[id(self.one), alone[0]] = ("stem", line)
            return line
        line = self.bench.fresh(f"{self.one.path}/{state}")
        self.bench.owners[line] = self.one.path
        return line

    def order(self, state, inverted, parts):
        """The order in which clear and preset act; the last one wins."""
        turn, first = self.turns[state], parts["clear_preset_var1"]
        if len(turn) < 2:
            return list(turn)
        both = all(simple(e, self.known) != ZERO for e in turn.values())
        if both and first not in OTHER:
            raise Refused(f"{self.one}: clear and preset together give {first or 'no bit'}")
        if both and self.reads(inverted) and parts["clear_preset_var2"] != OTHER[first]:
            raise Refused(f"{self.one}: clear and preset together give both outputs one bit")
        return ["clear", "preset"] if first == "H" else ["preset", "clear"]

    def turned(self, read, order, lines, word):
        """Returns a read with clear and preset as gates."""
        bench, one = self.bench, self.one
        for what in order:
            line, kind = lines[what], "OR"
            if what == "clear":
                kind, (line, _) = "AND", bench.add(bench.line(one, "no"), "NOT", [(line, None)])
            read = bench.add(bench.line(one, word), kind, [read, (line, None)])
        return read

    def enabled(self, read, enable, shown):
        """Returns a read that takes the data while the clock passes, and the state otherwise."""
        bench, one = self.bench, self.one
        off, take, keep, data = (bench.line(one, word) for word in ("off", "take", "keep", "d"))
        bench.add(off, "NOT", [(enable, None)])
        bench.add(take, "AND", [read, (enable, None)])
        bench.add(keep, "AND", [(shown, None), (off, None)])
        return bench.add(data, "OR", [(take, None), (keep, None)])


def enable_line(bench, gates):
    """Returns the line of the AND of a clock path's enables, or None without a gate."""
    lines = []
    for gate in gates:
        key = id(gate.instance), gate.output
        if key not in bench.enables:
            own = bench.buffers(gate.instance, [gate.enable])
            into = bench.line(gate.instance, "en")
            bench.enables[key] = bench.emit(gate.instance, gate.enable, own, into)[0]
        lines.append(bench.enables[key])
    lines = tuple(dict.fromkeys(lines))
    if len(lines) > 1 and lines not in bench.enables:
        into = bench.line(gates[-1].instance, "all")
        bench.enables[lines] = bench.add(into, "AND", [(line, None) for line in lines])[0]
    return bench.enables[lines] if len(lines) > 1 else next(iter(lines), None)
