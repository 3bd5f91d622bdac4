"""Latches of clock gates: when they hold, and what they hold."""

from itertools import product

from logic import ONE, ZERO, as_gate, simple, substituted
from primitives import Refused


def latches_of(one):
    """Returns {node: (clock pin, the level at which it holds, data)} of an instance's latches."""
    found = {}
    for state, inverted, parts in one.cell.latches:
        enable = simple(parts["enable"]) if parts["enable"] else ("c", 0)
        level = int(enable[0] == "!")
        pin = enable[1] if level else enable
        if pin[0] != "v" or parts["clear"] or parts["preset"] or parts["data_in"] is None:
            raise Refused(f"comes through {one.path} ({one.cell.name}), whose latch isn't an"
                          " enable and data")
        found[state] = (pin[1], level, parts["data_in"])
        found[inverted] = (pin[1], level, ("!", parts["data_in"]))
    for table in one.cell.statetables:
        found |= latch_of_table(one, *table)
    return found


def state_rows(inputs, rows):
    """Returns what a state table gives for each row of its inputs' bits."""
    shown = {}
    for bits in product((0, 1), repeat=len(inputs)):
        for row in rows:
            if all(cell in "-~" or cell == "LH"[bit] for cell, bit in zip(row[0].split(), bits)):
                shown[bits] = row[-1].split()[0]
                break
    return shown


def latch_of_table(one, inputs, nodes, rows):
    """Returns the latch that a state table is, as `latches_of`."""
    what = f"comes through {one.path} ({one.cell.name}), whose state table"
    clock = next((pin.name for pin in one.cell.pins.values()
                  if pin.role == "clock_gate_clock_pin"), None)
    internal = [pin.name for pin in one.cell.pins.values() if pin.way == "internal"]
    if len(nodes) != 1 or clock not in inputs or set(internal) - set(nodes):
        raise Refused(f"{what} isn't one node with a clock pin")
    at, shown = inputs.index(clock), state_rows(inputs, rows)
    level = next((bit for bit in (0, 1) if all(
        value == "N" for bits, value in shown.items() if bits[at] == bit)), None)
    opened = {bits: value for bits, value in shown.items() if bits[at] != level}
    if level is None or len(shown) < 2 ** len(inputs) or not set(opened.values()) <= {"H", "L"}:
        raise Refused(f"{what} is no latch")
    return {nodes[0]: (clock, level, data_of(inputs, at, opened))}


def data_of(inputs, at, opened):
    """Returns the function that a latch follows while it is open, without its clock pin."""
    terms = []
    for bits, value in opened.items():
        pins = [("v", pin) if bit else ("!", ("v", pin))
                for pin, bit in zip(inputs, bits) if pin != inputs[at]]
        terms += [("&", pins) if pins else ONE] if value == "H" else []
    return as_gate(simple(("|", terms))) if terms else ZERO


def opened(one, e):
    """Returns an expression of an instance with the data of its latches for their nodes."""
    for node, (_, _, data) in latches_of(one).items():
        e = substituted(e, node, data)
    return e
