#!/usr/bin/env python3
"""Tries contrib/netlist2bench on the netlists beside it, under Icarus Verilog.

usage: try_netlists.py FAULTSIM

Each netlist is converted, and its cells and faults at pins must be as many as counted by hand.
Under random tests inject.py compares responses and first tests of all faults at pins, stuck-at and
transition. Then come the netlists that must be refused, with the words that say why.
"""

import os
import re
import subprocess
import sys
import tempfile
from dataclasses import dataclass

here = os.path.dirname(os.path.realpath(__file__))
CONVERTER = f"{here}/../netlist2bench"
CELLS = ["--lib", f"{here}/cells.lib"]
RESETS = "--hold SE=0 --hold RN=1 --hold SN=1"
TREE = "--hold se=0 --hold rst_n=1"
FOLD, SKIP = "--scan fold --scan-pins SE,SI", "--scan skip --scan-pins SE,SI"
ISCAS = f"--lib {here}/../netlist.d/iscas.lib --hold GND=0 --hold VDD=1"


@dataclass
class Case:
    """A netlist, its options, its clock, and what was counted by hand."""

    name: str
    tests: int
    cells: int
    faults: int
    root: str = ""
    options: str = ""


CASES = [
    Case("c17", 20, 6, 50),
    Case("inv2", 12, 7, 50),
    Case("bufd", 12, 6, 50),
    Case("buft", 12, 6, 50),
    Case("prims", 8, 11, 86),
    Case("pinf", 12, 2, 30),
    Case("s27", 40, 13, 78, "CK=rising", ISCAS),
    Case("qn", 10, 3, 30, "CK=rising"),
    Case("cts", 8, 6, 16, "clk=rising"),
    Case("hn", 12, 4, 32, "ck=rising"),
    Case("tbuf", 12, 5, 32, "ck=rising", "--hold oe=1"),
    Case("net", 60, 25, 218, "CK=rising", RESETS),
    Case("gat", 60, 26, 218, "CK=rising", RESETS),
    Case("net", 60, 25, 202, "CK=rising", f"{RESETS} {SKIP}"),
    Case("gat", 60, 26, 200, "CK=rising", f"{RESETS} {FOLD}"),
    Case("net", 60, 25, 232, "CK=rising", "--async gates"),
    Case("gat", 60, 26, 232, "CK=rising", "--async gates"),
    Case("gates", 60, 23, 142, "clk=rising", "--hold test=0"),
    Case("gates", 60, 23, 142, "clk=rising", "--hold test=0 --hold te=0 --hold se=0"),
    Case("gate_s", 30, 6, 40, "clk=rising", "--clock clk"),
    Case("neg", 40, 7, 36, "clk=falling"),
    Case("latched", 40, 10, 46, "clk=rising"),
    Case("sr", 30, 5, 48, "CK=rising", "--async gates"),
    Case("ar", 60, 5, 48, "clk=rising", "--async gates"),
    Case("bank", 12, 1, 22, "clk=rising"),
    Case("tree", 40, 11, 58, "clk=rising", TREE),
    Case("tree", 40, 11, 32, "clk=rising", f"{TREE} --scan fold"),
    Case("tree", 40, 11, 50, "clk=rising", f"{TREE} --scan skip"),
    Case("tree", 40, 11, 82, "clk=rising", "--async gates"),
    Case("lockup", 20, 4, 22, "clk=rising", "--hold se=0 --scan fold"),
]


def fail(words):
    print(f"netlists: {words}", file=sys.stderr)
    sys.exit(1)


def converted(words):
    """Runs netlist2bench; returns its status and what it said."""
    ran = subprocess.run([CONVERTER, *words], check=False, stderr=subprocess.PIPE, text=True)
    return ran.returncode, ran.stderr


def try_case(case, faultsim):
    """Converts one netlist, and compares it with Icarus."""
    netlist, options = f"{here}/netlists/{case.name}.v", case.options.split()
    status, said = converted([*CELLS, *options, case.name, netlist, "-o", "n.bench",
                              "--map", "n.map"])
    if status:
        fail(f"{case.name} {case.options}: {said}")
    for words in (f"cells read: {case.cells},", f"faults at pins: {case.faults} "):
        if words not in said:
            fail(f"{case.name} {case.options}: not '{words}' but\n{said}")
    words = [f"{here}/../../bench/generate.py", "tests", "--bench", "n.bench"]
    tests = subprocess.run([*words, "--count", str(case.tests)], check=True,
                           stdout=subprocess.PIPE).stdout
    with open("n.tests", "wb") as file:
        file.write(tests)
    inject(case, faultsim, netlist)


def inject(case, faultsim, netlist):
    """Compares all faults at pins with Icarus."""
    words = ["--program", faultsim, "--bench", "n.bench", "--map", "n.map", "--tests", "n.tests"]
    words += ["--states", f"{here}/states.v", *CELLS]
    words += ["--root", case.root] if case.root else []
    for option, value in re.findall(r"(--hold|--lib) (\S+)", case.options):
        words += [option, value]
    ran = subprocess.run([f"{here}/inject.py", *words, case.name, netlist], check=False,
                         stdout=subprocess.PIPE, text=True)
    print(ran.stdout, end="")
    if ran.returncode:
        fail(f"{case.name} {case.options}: not as Icarus")


def sections(path):
    """Yields the options, the Verilog and the wanted words of each case of a file."""
    with open(path, encoding="utf-8") as file:
        parts = re.split(r"^== (.*)\n", file.read(), flags=re.M)[1:]
    for options, body in zip(parts[::2], parts[1::2]):
        verilog, _, wanted = body.partition("-- ")
        yield options.split(), verilog, wanted.strip()


def try_refusal(options, verilog, wanted):
    """Converts a netlist that must be refused in one line with the wanted words."""
    with open("t.v", "w", encoding="utf-8") as file:
        file.write(verilog)
    status, said = converted([*CELLS, *options, "t", "t.v", "-o", "t.bench"])
    if status != 1 or said != f"netlist2bench: {wanted}\n":
        fail(f"status {status} of\n{verilog}{said}wanted:\n{wanted}")


def main():
    faultsim = os.path.abspath(sys.argv[1])
    count = 0
    with tempfile.TemporaryDirectory(prefix="netlists-") as room:
        os.chdir(room)
        for case in CASES:
            try_case(case, faultsim)
        for section in sections(f"{here}/refused.txt"):
            try_refusal(*section)
            count += 1
        os.chdir("/")
    print(f"{len(CASES)} netlists as Icarus has them, {count} refused by their names")


if __name__ == "__main__":
    main()
