"""Finds the pins that block the effects of undetected faults, by simulating each fault in full.

It shares nothing with the page or with faultsim. A word has a bit for each test, test 0 lowest, so
each operation below does the same for all tests at once.
"""

from collections import Counter

from circuits import statements

CONTROLLING = {"AND": 0, "NAND": 0, "OR": 1, "NOR": 1}


class Circuit:
    """A bench file with its tests: fault-free words and faulty ones."""

    def __init__(self, bench, tests, model):
        inputs, self.outs, drivers = statements(bench)
        self.model = model
        self.flops = {name: pins[0] for name, (kind, pins) in drivers.items() if kind == "DFF"}
        self.gates = {name: it for name, it in drivers.items() if it[0] != "DFF"}
        self.signals = inputs + list(drivers)
        rows = [row for row in (it.partition("#")[0].strip() for it in tests.split("\n")) if row]
        self.every = (1 << len(rows)) - 1
        self.given = {name: sum(int(row[at]) << test for test, row in enumerate(rows))
                      for at, name in enumerate([*inputs, *self.flops])}
        self.order = self.ordered()
        self.free, self.free_pins = self.values(None, 0)

    def ordered(self):
        """The gates, each after those that it reads."""
        made, known = [], set(self.given)
        left = list(self.gates)
        while left:
            ready = [name for name in left if known.issuperset(self.gates[name][1])]
            made += ready
            known.update(ready)
            left = [name for name in left if name not in known]
        return made

    def output(self, kind, pins):
        """The word of a gate by the words of its pins."""
        word = pins[0]
        for pin in pins[1:]:
            word = word & pin if kind in ("AND", "NAND") else \
                word | pin if kind in ("OR", "NOR") else word ^ pin
        return word ^ self.every if kind in ("NAND", "NOR", "XNOR", "NOT") else word

    def values(self, line, stuck):
        """The words of all signals, and of the pins of all gates, if a line is stuck at a word. A
        line is a signal, or a gate with the number of a pin from 0; None is the fault-free
        circuit."""
        words, pins = {}, {}
        for name in [*self.given, *self.order]:
            if name in self.given:
                words[name] = self.given[name]
            else:
                kind, read = self.gates[name]
                pins[name] = [stuck if line == (name, at) else words[it]
                              for at, it in enumerate(read)]
                words[name] = self.output(kind, pins[name])
            if line == name:
                words[name] = stuck
        return words, pins

    def observed(self, words):
        """The words of the outputs and of the data pins of flip-flops."""
        return [words[it] for it in (*self.outs, *self.flops.values())]

    def lines(self):
        """Each stem, and each gate pin that reads a signal with other readers, with the signal. A
        fault of a data pin or of an output enters no gate, so no pin blocks it."""
        readers = Counter(it for _, read in self.gates.values() for it in read)
        readers.update([*self.outs, *self.flops.values()])
        yield from ((name, name) for name in self.signals)
        for name, (_, read) in self.gates.items():
            yield from (((name, at), it) for at, it in enumerate(read) if readers[it] > 1)

    def launched(self, net, stuck):
        """The tests that can detect a fault by the test before them."""
        before = self.free[net] << 1
        same = (before if stuck else ~before) & self.every & ~1
        pairs = sum(2 << test for test in range(0, self.every.bit_length(), 2))
        return {"stuck": self.every, "transition": same,
                "transition-pairs": same & pairs}[self.model]

    def blocked(self, line, net, stuck):
        """The pins that block a fault, each with the tests under which it does so; none if a test
        detects the fault."""
        tests = self.launched(net, stuck)
        words, pins = self.values(line, self.every * stuck)
        pairs = zip(self.observed(self.free), self.observed(words))
        if any((good ^ bad) & tests for good, bad in pairs):
            return
        for gate, (kind, read) in self.gates.items():
            if kind not in CONTROLLING:
                continue
            both = list(zip(self.free_pins[gate], pins[gate]))
            changed = 0
            for good, bad in both:
                changed |= good ^ bad
            stops = tests & changed & ~(self.free[gate] ^ words[gate])
            for at, (good, bad) in enumerate(both):
                held = good & bad if CONTROLLING[kind] else ~(good | bad)
                if stops & held:
                    yield gate, at, stops & held


def blocking_pins(bench, tests, model):
    """The rows (gate, pin from 1, net, value, faults, tests) of all pins that block a fault: the
    most faults first, then the most tests, then by the line of the gate and the pin. And the
    faults of each gate and pin, as (line, stuck value) with the pin of a line from 0."""
    circuit = Circuit(bench, tests, model)
    faults, under = {}, Counter()
    for line, net in circuit.lines():
        for stuck in (0, 1):
            for gate, at, lanes in circuit.blocked(line, net, stuck):
                faults.setdefault((gate, at), []).append((line, stuck))
                under[gate, at] |= lanes
    places = {name: place for place, name in enumerate(circuit.signals)}
    rows = []
    for (gate, at), held in faults.items():
        kind, read = circuit.gates[gate]
        rows.append((gate, at + 1, read[at], CONTROLLING[kind], len(held),
                     bin(under[gate, at]).count("1")))
    rows.sort(key=lambda row: (-row[4], -row[5], places[row[0]], row[1]))
    return rows, faults
