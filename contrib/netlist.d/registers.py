"""The account of a design's registers: which bits have no DFF line, and why."""

from names import NetNames, indexed, place_of

FLIP_FLOP = ("$dff", "$adff", "$aldff", "$sdff", "$ff", "$_DFF", "$_SDFF", "$_ALDFF", "$_FF")
UNREAD = "constant or without effect"
KINDS = {"has no effect": UNREAD, "is 0": "constant", "is 1": "constant"}


def bits_by_name(module):
    """Returns {label: bit} of all nets that have a name in the Verilog."""
    return {indexed(name, place_of(net, place)): bit
            for name, net in module["netnames"].items() if not net.get("hide_name")
            for place, bit in enumerate(net["bits"])}


def states_of(module):
    """Returns the bits of the flip-flops."""
    return {bit for cell in module["cells"].values() if cell["type"].startswith(FLIP_FLOP)
            for bit in cell["connections"]["Q"] if isinstance(bit, int)}


def memory_labels(module):
    """Yields the labels of each memory's bits, mem[3][0]."""
    for name, memory in module.get("memories", {}).items():
        begin, width = memory["start_offset"], memory["width"]
        yield [f"{name}[{word}][{bit}]" for word in range(begin, begin + memory["size"])
               for bit in range(width)]


class Registers:
    """The registers of the RTL (`before` synthesis), and of the netlist that has all names.

    `lines` are the names of the bench file's flip-flops. A memory without any is a table.
    """

    def __init__(self, before, after, lines):
        self.lines, self.before = lines, bits_by_name(before)
        self.bits = bits_by_name(after)
        self.after = NetNames(after)
        self.states = states_of(after)
        states = states_of(before)
        # of each state: its names, the one that a bench file has first
        best = NetNames(before)
        self.names = {bit: [best.called(bit)] for bit in sorted(states) if bit in best.verilog}
        for label, bit in self.before.items():
            if bit in self.names and label not in self.names[bit]:
                self.names[bit].append(label)

        for labels in memory_labels(before):
            if any(label in lines for label in labels):
                self.names |= {label: [label] for label in labels}

    def others(self, label):
        """Returns all names of the state that has this one."""
        return next((names for names in self.names.values() if label in names), [label])

    def fate(self, names):
        """Returns why a state has no line of its own, or None if it has one."""
        if any(name in self.lines for name in names):
            return None
        bits = [self.bits[name] for name in names if name in self.bits]
        constant = next((bit for bit in bits if bit in ("0", "1")), None)
        if constant is not None:
            return f"is {constant}"
        other = next((bit for bit in bits if bit in self.states), None)
        if other is not None and self.after.called(other) in self.lines:
            return f"is {self.after.called(other)}"
        return "has no effect"

    def followers(self):
        """Yields (names, the bit or the name of the state that it is) of states without a line."""
        for names in self.names.values():
            why = self.fate(names)
            if why and KINDS.get(why) != UNREAD:
                yield names, why.removeprefix("is ")

    def tied(self):
        """Returns the nets that are constant since synthesis, but for registers."""
        known = {name for names in self.names.values() for name in names}
        return [name for name, bit in self.bits.items() if bit in ("0", "1")
                and name not in known and isinstance(self.before.get(name), int)]

    def told(self):
        """Returns a line for each reason, with the bits that have no DFF line, and tied nets."""
        gone = {}
        for names in self.names.values():
            why = self.fate(names)
            if why:
                kind = KINDS.get(why, "the same as another")
                word = names[0] if kind == UNREAD else f"{names[0]} {why}"
                gone.setdefault(kind, []).append(word)
        told = {f"register bits without a flip-flop, {kind}": words
                for kind, words in gone.items()}
        told |= {"nets that are constant": self.tied()} if self.tied() else {}
        return [f"{what}: {len(words)} ({', '.join(words[:8])}{', ..' * (len(words) > 8)})"
                for what, words in told.items()]
