#!/usr/bin/env python3
"""Tries contrib/verilog2bench on the RTL of rtl.txt, and on each cell that yosys may leave.

usage: try_rtl.py FAULTSIM

A case has options, Verilog, and the lines that verilog2bench prints. --check compares most of them
with Icarus Verilog, under random inputs and states. The cells of yosys are in one netlist, which
Icarus simulates with yosys's own models of them (simcells.v) beside faultsim.
"""

import os
import random
import re
import subprocess
import sys
import tempfile

here = os.path.dirname(os.path.realpath(__file__))
sys.path.insert(0, f"{here}/../netlist.d")
sys.dont_write_bytecode = True
# pylint: disable=wrong-import-position
from rtl import FUNCTIONS, LATCHES  # noqa: E402

CONVERTER = f"{here}/../verilog2bench"
MODELS = "/usr/share/yosys/simcells.v"


def fail(words):
    print(f"rtl: {words}", file=sys.stderr)
    sys.exit(1)


def sections(path):
    """Yields the words, the Verilog and the wanted lines of each case of a file."""
    with open(path, encoding="utf-8") as file:
        parts = re.split(r"^== (.*)\n", file.read(), flags=re.M)[1:]
    for words, body in zip(parts[::2], parts[1::2]):
        verilog, _, wanted = body.partition("-- ")
        yield words, verilog, wanted.strip().split("\n")


def try_case(words, verilog, wanted):
    """Makes a bench file of RTL; an error's line begins with `error:`. Returns what differs."""
    sv = ".sv" in words
    name = "t.sv" if sv else "t.v"
    with open(name, "w", encoding="utf-8") as file:
        file.write(verilog)
    options = [word.strip("'") for word in re.findall(r"'[^']*'|\S+", words)]
    options = [word for word in options if word != ".sv"]
    ran = subprocess.run([CONVERTER, *options, name, "-o", "t.bench"], check=False,
                         stderr=subprocess.PIPE, text=True)
    said = [line.removeprefix("verilog2bench: ") for line in ran.stderr.splitlines()]
    said = [line for line in said if not line.startswith("yosys: Warning")]
    is_error = wanted[0].startswith("error: ")
    wanted = [line.removeprefix("error: ") for line in wanted]
    if said != wanted or ran.returncode != is_error:
        return (f"{words}: status {ran.returncode}\n" + "\n".join(said) + "\nwanted:\n"
                + "\n".join(wanted))
    return None


def cells_text():
    """Returns a netlist with one of each cell that verilog2bench takes, and its outputs."""
    text, count = [], 0
    for count, (kind, function) in enumerate(FUNCTIONS.items()):
        pins = [pin for pin in "ABCDS" if pin in function]
        joined = ", ".join(f".{pin}(a[{at}])" for at, pin in enumerate(pins))
        text.append(f"  \\{kind} u{count} ({joined}, .Y(y[{count}]));")
    for at, kind in enumerate(LATCHES):
        # a latch that is open while the clock is low, before an AND
        enable = "clk" if kind.endswith("N_") else "low"
        text += [f"  \\{kind} l{at} (.E({enable}), .D(a[{at}]), .Q(q[{at}]));",
                 f"  \\$_AND_ g{at} (.A(clk), .B(q[{at}]), .Y(k[{at}]));",
                 f"  \\$_DFF_P_ f{at} (.C(k[{at}]), .D(a[{at + 2}]), .Q(s[{at}]));"]
    text.append("  \\$_DFF_N_ f2 (.C(low), .D(a[0]), .Q(s[2]));")
    head = f"module t(input clk, input [3:0] a, output [{count}:0] y, output [2:0] s);\n"
    head += "  wire low; wire [1:0] q, k;\n  \\$_NOT_ n (.A(clk), .Y(low));\n"
    return head + "\n".join(text) + "\nendmodule\n", count + 1


TESTBENCH = """
module tb; reg clk; reg [3:0] a; wire [{last}:0] y; wire [2:0] s; integer t;
reg [6:0] rows [0:{count}], row; reg [{last}:0] was;
t dut (clk, a, y, s);
initial begin $readmemb("rows", rows);
  for (t = 0; t <= {count}; t = t + 1) begin
    row = rows[t]; clk = 0; #1 a = {{row[3], row[4], row[5], row[6]}}; #1;
    dut.f0.Q = row[2]; dut.f1.Q = row[1]; dut.f2.Q = row[0]; #1;
    was = y; clk = 1; #1;
    show; clk = 0; #1;
  end
  $finish;
end
task show; integer i; begin
  // outputs in the order of their names: s[0] s[1] s[2] y[0] ..
  $write("%b%b%b", row[2], row[1], row[0]);
  for (i = 0; i <= {last}; i = i + 1) $write("%b", was[i]);
  $display("%b%b%b", s[0], s[1], s[2]);
end endtask
endmodule
"""


def try_cells(faultsim):
    """Compares responses of all cells with Icarus."""
    text, count = cells_text()
    with open("cells.v", "w", encoding="utf-8") as file:
        file.write(text)
    subprocess.run(["yosys", "-q", "-p", "read_verilog -icells cells.v; write_json cells.json"],
                   check=True)
    subprocess.run([CONVERTER, "--json", "cells.json", "t", "-o", "cells.bench"], check=True,
                   stderr=subprocess.DEVNULL)
    rows = [f"{row:07b}" for row in range(128)]
    random.Random(1).shuffle(rows)
    with open("rows", "w", encoding="utf-8") as file:
        file.write("\n".join(rows) + "\n")
    with open("tb.v", "w", encoding="utf-8") as file:
        file.write(TESTBENCH.format(last=count - 1, count=len(rows) - 1))
    subprocess.run(["iverilog", "-g2005-sv", "-o", "cells", "-s", "tb", "tb.v", "cells.v", MODELS],
                   check=True)
    wanted = subprocess.run(["vvp", "-n", "cells"], check=True, stdout=subprocess.PIPE,
                            text=True).stdout.splitlines()
    shown = subprocess.run([faultsim, "responses", "-b", "cells.bench", "-t", "rows"], check=True,
                           stdout=subprocess.PIPE, text=True).stdout.splitlines()
    wrong = [at for at, pair in enumerate(zip(wanted, shown)) if pair[0] != pair[1]]
    if wrong or len(wanted) != len(shown) or len(shown) != len(rows):
        fail(f"cells of yosys: row {wrong[:1]}:\n{wanted[wrong[0]]} by Icarus\n{shown[wrong[0]]}")
    return count + 5


def main():
    faultsim = os.path.abspath(sys.argv[1])
    with tempfile.TemporaryDirectory(prefix="rtl-") as room:
        os.chdir(room)
        cases = list(sections(f"{here}/rtl.txt"))
        wrong = [words for words in (try_case(*case) for case in cases) if words]
        if wrong:
            fail("\n".join(wrong))
        cells = try_cells(faultsim)
        os.chdir("/")
    print(f"{len(cases)} designs of RTL as wanted, {cells} cells of yosys as Icarus has them")


if __name__ == "__main__":
    main()
