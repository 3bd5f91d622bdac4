"""What is of its own for netlists that yosys made of RTL: its cells, and names by block."""

import os
import re

from liberty import EXPRESSIONS, TOGETHER, Cell, Pin, expression
from names import short
from primitives import Refused

FUNCTIONS = {
    "$_BUF_": "A", "$_NOT_": "!A", "$_AND_": "A&B", "$_NAND_": "!(A&B)", "$_OR_": "A|B",
    "$_NOR_": "!(A|B)", "$_XOR_": "A^B", "$_XNOR_": "!(A^B)", "$_ANDNOT_": "A&!B",
    "$_ORNOT_": "A|!B", "$_MUX_": "(A&!S)|(B&S)", "$_NMUX_": "!((A&!S)|(B&S))",
    "$_AOI3_": "!((A&B)|C)", "$_OAI3_": "!((A|B)&C)", "$_AOI4_": "!((A&B)|(C&D))",
    "$_OAI4_": "!((A|B)&(C|D))",
}
CLOCKED = {"$_DFF_P_": "C", "$_DFF_N_": "!C", "$_FF_": None}
LATCHES = {"$_DLATCH_P_": "E", "$_DLATCH_N_": "!E"}
# What yosys can do about a cell that has no place in a bench file.
HINTS = [
    (r"\$_(DFFE?_[PN][PN][01]|ALDFFE?|DFFSRE?)_|\$a(l?dff|dffe)|\$dffsr",
     "an asynchronous set or reset; async2sync makes it synchronous"),
    (r"\$_S?DFFC?E|\$_SDFF|\$s?dffc?e|\$sdff",
     "an enable or a synchronous reset; dfflegalize -cell $_DFF_P_ 01 makes gates of it"),
    (r"\$dff$", "a wide flip-flop; simplemap"),
    (r"\$_SR_|\$_DLATCH|\$a?dlatch|\$sr$", "a latch; give the process a clock or all its cases"),
    (r"\$mem", "a memory; memory_map makes flip-flops of it, or blackbox it and cut it off"),
    (r"\$_TBUF_|\$tribuf", "tri-state; tribuf -logic makes gates of it"),
    (r"\$(assert|assume|cover|live|fair)", "an assertion; chformal -remove leaves it out"),
    (r"\$", "a cell of yosys that isn't mapped; synth, then abc -g AND,NAND,OR,NOR,XOR,XNOR"),
]


def cell_of(name, state, parts):
    """Returns a flip-flop or latch of yosys."""
    clock = "C" if state == "flops" else "E"
    cell = Cell(name.strip("$_"))
    pins = ["D"] if name == "$_FF_" else [clock, "D"]
    cell.pins = {pin: Pin(pin, "input") for pin in pins}
    cell.pins["Q"] = Pin("Q", "output", ("v", "IQ"))
    empty = dict.fromkeys(EXPRESSIONS) | dict.fromkeys(TOGETHER, "")
    getattr(cell, state).append(("IQ", "IQN", empty | parts))
    return cell


def yosys_cells():
    """Returns the cells that yosys makes of RTL."""
    cells = {}
    for name, text in FUNCTIONS.items():
        e = expression(text)
        cell = cells[name] = Cell(name.strip("$_"))
        cell.pins = {pin: Pin(pin, "input") for pin in "ABCDS" if pin in text}
        cell.pins["Y"] = Pin("Y", "output", e)
    for name, text in CLOCKED.items():
        parts = {"clocked_on": expression(text), "next_state": ("v", "D")}
        cells[name] = cell_of(name, "flops", parts)
    for name, text in LATCHES.items():
        cells[name] = cell_of(name, "latches", {"enable": expression(text), "data_in": ("v", "D")})
    return cells


def check_kinds(module, cells):
    """Refuses a cell that has no place in a bench file, with what yosys can do about it."""
    for name, at in module["cells"].items():
        kind = at["type"]
        if kind in cells:
            continue
        why = next((hint for form, hint in HINTS if re.match(form, kind)), None)
        if why:
            raise Refused(f"cell {name} is {kind}: {why}")
        raise Refused(f"instance {name} is {kind}, a black box: --cut {kind} makes its outputs"
                      " inputs of the tests, and its inputs outputs")


def homes(bench, unnamed):
    """Returns, of each unnamed line, the deepest block that holds all that reads it."""
    readers = {line: [] for line in unnamed}
    for name, pins in [(gate.name, gate.pins) for gate in bench.gates] + [
            (flop.name, [flop.data]) for flop in bench.flops]:
        for pin in pins:
            if pin in readers:
                readers[pin].append(name)
    outputs, found = {line for line, _ in bench.outputs}, {}
    for start in unnamed:
        todo = [start]
        while todo:
            line = todo[-1]
            missing = [name for name in readers[line] if name in readers and name not in found]
            if missing and line not in outputs and line not in found:
                todo += missing
                continue
            todo.pop()
            blocks = [found[name] if name in readers else tuple(name.split(".")[:-1])
                      for name in readers[line]]
            is_top = line in outputs or not blocks
            found[line] = () if is_top else tuple(os.path.commonprefix(blocks))
    return found


def name_by_block(bench):
    """Names each unnamed gate by its block, cpu.alu.n12; flip-flops keep their names."""
    own = {bench.name[bit] for bit in bench.n.names.verilog}
    unnamed = [gate.name for gate in bench.gates if gate.name not in own]
    new = {line: bench.fresh(".".join((*block, line)))
           for line, block in homes(bench, unnamed).items() if block}
    for gate in bench.gates:
        gate.name = new.get(gate.name, gate.name)
        gate.pins = [new.get(pin, pin) for pin in gate.pins]
    for flop in bench.flops:
        flop.data = new.get(flop.data, flop.data)


class LineMap:
    """Of each line of a bench file its block, its place in the RTL, and how that was found."""

    def __init__(self, writer):
        self.bench, self.names = writer.bench, writer.n.names
        module = writer.n.module
        nets = {name: short(net.get("attributes", {}).get("src", ""))
                for name, net in module["netnames"].items()}
        self.src = {self.bench.name[bit]: nets[name] for bit, (name, _)
                    in self.names.verilog.items() if bit in self.bench.name}
        self.src |= {flop.name: short(flop.instance.src) for flop in self.bench.flops
                     if flop.instance.src}
        self.readers = {}
        for name, pins in [(gate.name, gate.pins) for gate in self.bench.gates] + [
                (flop.name, [flop.data]) for flop in self.bench.flops]:
            for pin in pins:
                self.readers.setdefault(pin, []).append(name)

    def place(self, line):
        """Returns the place of a line, and the nearest named line that it feeds, or itself."""
        seen, level = {line}, [line]
        while level:
            named = sorted(name for name in level if self.src.get(name))
            if named:
                return self.src[named[0]], named[0]
            level = [name for one in level for name in self.readers.get(one, [])
                     if name not in seen]
            level = list(dict.fromkeys(level))
            seen.update(level)
        return "-", "-"

    def text(self):
        """Returns a row for each line: line, name, block, file:line, the line that has it."""
        bench = self.bench
        lines = [line for line, _ in bench.inputs] + [flop.name for flop in bench.flops]
        rows = [f"output\t{line}\t{name}" for line, name in bench.outputs]
        for line in lines + [gate.name for gate in bench.gates]:
            src, of = self.place(line)
            block = line.rpartition(".")[0] or "-"
            rows.append(f"line\t{line}\t{block}\t{src}\t{'own' if of == line else of}")
        return "\n".join(rows) + "\n"
