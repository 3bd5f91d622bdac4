#!/usr/bin/env python3
"""Compares the first tests of `faultsim` with Icarus Verilog, fault by fault.

    bench/icarus.py --bench BENCH --tests TESTS [--model M] [--sample N] [--seed N] [--jobs N]
                    [--program FILE]

It writes the circuit as Verilog primitives (Debian: iverilog), in which each stem and each branch
is a net of its own. For each fault of the list (--sample: of N of them, drawn at random) Icarus
forces the net to its bit, applies the tests from the first on, and stops at the first whose outputs
or data pins differ from the fault-free ones. So nothing is collapsed, packed or dropped there. It
also compares the fault-free bits with `responses`. FILE is the program
(crates/faultsim/out/faultsim). N jobs (4) share the faults. The last line counts. Status: 0 without
a difference, 1 with one, 3 if iverilog is missing.
"""

import argparse
import pathlib
import random
import re
import shutil
import subprocess
import sys
import tempfile
from concurrent.futures import ThreadPoolExecutor

ROOT = pathlib.Path(__file__).resolve().parent.parent
PROGRAM = ROOT / "crates" / "faultsim" / "out" / "faultsim"
LINE = re.compile(r"(?:(INPUT|OUTPUT)|(\S+)\s*=\s*(\w+))\s*\(([^)]*)\)", re.I)
# For one fault, from `before` on: what test 0 has before it is never looked at.
FIRST = """
  task watch;  // the line's bits without the fault
    for (t = 0; t < TESTS; t = t + 1) begin
      row = tests[t]; #1; was[t] = line;
    end
  endtask
  task first(input integer model, input initial_bit);
    begin
      found = -1;
      for (t = 0; t < TESTS && found < 0; t = t + 1) begin
        row = tests[t]; #1;
        fits = model == 0 || (t > 0 && was[t - 1] === initial_bit && (model == 1 || t % 2 == 1));
        if (fits && shown !== good[t]) found = t;
      end
      $display("%0d", found);
    end
  endtask
"""
MODELS = ("stuck", "transition", "transition-pairs")


class Circuit:
    """A bench text as Verilog; `nets` has the net of each line that can have a fault."""

    def __init__(self, text):
        inputs, self.outputs, flops, gates = [], [], [], []
        for line in text.splitlines():
            found = LINE.match(line.split("#")[0].strip())
            if not found:
                continue
            word, name, kind, pins = found.groups()
            pins = [pin.strip() for pin in pins.split(",")]
            if name is None:
                (inputs if word.upper() == "INPUT" else self.outputs).append(pins[0])
            elif kind.upper() == "DFF":
                flops.append((name, pins[0]))
            else:
                gates.append((name, kind.upper(), pins))
        self.sources = inputs + [name for name, _ in flops]
        names = self.sources + [name for name, *_ in gates]
        self.number = {name: at for at, name in enumerate(names)}
        self.observers = len(self.outputs) + len(flops)
        self.nets, self.code = {}, []
        self.count_sinks(flops, gates)
        for at, name in enumerate(self.sources):
            self.code.append(f"buf (n{at}, row[{len(self.sources) - 1 - at}]);")
        for name, kind, pins in gates:
            self.add_gate(name, kind, pins)
        for at, name in enumerate(self.outputs):
            self.observe(at, ("out", str(at + 1)), name)
        for at, (name, data) in enumerate(flops):
            self.observe(len(self.outputs) + at, ("data", name), data)

    def count_sinks(self, flops, gates):
        self.sinks = dict.fromkeys(self.number, 0)
        read = self.outputs + [data for _, data in flops]
        for name in read + [pin for _, _, pins in gates for pin in pins]:
            self.sinks[name] += 1
        for name, at in self.number.items():
            self.nets["stem", name] = f"n{at}"

    def sink(self, line, name):
        """The net of a pin: a branch of its own where the stem has several."""
        stem = self.nets["stem", name]
        if self.sinks[name] < 2:
            return stem
        self.nets[line] = f"b{len(self.code)}"
        self.code.append(f"wire {self.nets[line]}; buf ({self.nets[line]}, {stem});")
        return self.nets[line]

    def add_gate(self, name, kind, pins):
        nets = [self.sink(("pin", name, str(at + 1)), pin) for at, pin in enumerate(pins)]
        kind = {"BUFF": "buf"}.get(kind, kind.lower())
        if len(nets) == 1 and kind not in ("buf", "not"):
            kind = "not" if kind in ("nand", "nor", "xnor") else "buf"
        self.code.append(f"{kind} (n{self.number[name]}, {', '.join(nets)});")

    def observe(self, at, line, name):
        self.code.append(f"buf (shown[{self.observers - 1 - at}], {self.sink(line, name)});")

    def verilog(self, tests, faults, model):
        """A module that prints the fault-free bits of all tests, then each fault's first test."""
        rows, columns = len(self.sources), self.observers
        lines = ["module main;", f"reg [{rows - 1}:0] row, tests [0:{tests - 1}];"]
        lines += [f"wire [{columns - 1}:0] shown; reg [{columns - 1}:0] good [0:{tests - 1}];"]
        lines += [f"reg was [0:{tests - 1}], line, fits; integer t, found;"]
        lines += [f"wire n{at};" for at in range(len(self.number))] + self.code
        lines += [FIRST.replace("TESTS", str(tests)), "initial begin", '$readmemb("tests", tests);']
        lines += [f"for (t = 0; t < {tests}; t = t + 1) begin row = tests[t]; #1; good[t] = shown;"]
        lines += ['$display("%b", shown); end']
        for fault in faults:
            *line, defect = fault.split(" ")
            net, bit = self.nets[tuple(line)], int(defect in ("sa1", "stf"))
            if model:
                lines.append(f"force line = {net}; watch; release line;")
            lines.append(f"force {net} = 1'b{bit}; first({model}, 1'b{bit}); release {net};")
        return "\n".join([*lines, "$finish(0); end", "endmodule"]) + "\n"


def simulated(circuit, rows, faults, model):
    """What Icarus prints: the fault-free rows, and the first tests."""
    with tempfile.TemporaryDirectory(prefix="icarus-") as folder:
        room = pathlib.Path(folder)
        (room / "tests").write_text("\n".join(rows) + "\n")
        (room / "it.v").write_text(circuit.verilog(len(rows), faults, model))
        subprocess.run(["iverilog", "-g2005", "-o", "it", "it.v"], cwd=room, check=True)
        how = {"cwd": room, "check": True, "stdout": subprocess.PIPE, "text": True}
        ran = subprocess.run(["vvp", "-n", "it"], **how)
    lines = [line for line in ran.stdout.splitlines() if line]
    return lines[:len(rows)], lines[len(rows):]


def told(program, *words):
    ran = subprocess.run([str(program), *words], check=True, stdout=subprocess.PIPE, text=True)
    return ran.stdout.splitlines()


def parsed():
    plain = argparse.RawDescriptionHelpFormatter
    parser = argparse.ArgumentParser(description=__doc__, formatter_class=plain)
    parser.add_argument("--bench", required=True)
    parser.add_argument("--tests", required=True)
    parser.add_argument("--model", choices=MODELS, default="stuck")
    parser.add_argument("--sample", type=int, default=0)
    parser.add_argument("--seed", type=int, default=1)
    parser.add_argument("--jobs", type=int, default=4)
    parser.add_argument("--program", type=pathlib.Path, default=PROGRAM)
    return parser.parse_args()


def rows_of(path):
    lines = pathlib.Path(path).read_text("ascii").splitlines()
    rows = (line.split("#")[0].strip() for line in lines)
    return [row for row in rows if row]


def differences(share, firsts):
    """Prints the faults of a share whose first tests differ, and counts them."""
    if len(firsts) != len(share):
        sys.exit("icarus: it printed something else than a number for each fault")
    count = 0
    for line, first in zip(share, firsts):
        fault, _, ours = line.rpartition(" ")
        theirs = "none" if first == "-1" else first
        if ours != theirs:
            count += 1
            print(f"{fault}: {ours} by the program, {theirs} by Icarus")
    return count


def main():
    given = parsed()
    if shutil.which("iverilog") is None:
        print("icarus: there is no iverilog (Debian: apt-get install iverilog)", file=sys.stderr)
        sys.exit(3)
    program, files = given.program.resolve(), ["--bench", given.bench, "--tests", given.tests]
    *lines, coverage = told(program, "run", *files, "--list", "--model", given.model)
    good = told(program, "responses", *files)
    if given.sample:
        lines = random.Random(given.seed).sample(lines, min(given.sample, len(lines)))
    circuit, rows = Circuit(pathlib.Path(given.bench).read_text("ascii")), rows_of(given.tests)
    shares = [lines[at::given.jobs] for at in range(min(given.jobs, len(lines)))]
    model, differ = MODELS.index(given.model), 0

    def run(share):
        return simulated(circuit, rows, [line.rpartition(" ")[0] for line in share], model)

    with ThreadPoolExecutor(given.jobs) as pool:
        results = list(pool.map(run, shares))
    for share, (bits, firsts) in zip(shares, results):
        differ += differences(share, firsts)
        if bits != good:
            print("the fault-free bits differ")
            differ += 1
    bits = len(good) * circuit.observers
    print(f"{len(lines)} faults and {bits} fault-free bits under {len(rows)} tests, which detect")
    print(f"{coverage}: {differ} differences")
    sys.exit(1 if differ else 0)


if __name__ == "__main__":
    main()
