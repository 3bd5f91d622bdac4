#!/usr/bin/env python3
"""Maps a design to a library, converts it, and compares faults at its cells' pins with Icarus.

usage: mapped.py [OPTION..] FAULTSIM TOP FILE.v..

  --lib CELLS.lib    the library (bench/designs/cells.lib)
  --buffer CELL      its buffer with pins A and Y (BUF): every 20th cell gets one before a pin
  --states FILE.v    its flip-flops by hand, as of inject.py
  --data PIN         the data pin of its flip-flops (D)
  --tests N, --many N              so many random tests (64), and faults (300)
  --options WORDS    options of netlist2bench

The design keeps its hierarchy, so the coverage of the faults at pins is by instance.
"""

import argparse
import os
import re
import subprocess
import sys
import tempfile
import time

here = os.path.dirname(os.path.realpath(__file__))
top_folder = f"{here}/../.."
MAP = """read_verilog {files}; synth -nofsm -top {top}; setundef -zero
dfflibmap -liberty {lib}; abc -liberty {lib}; clean; write_verilog -noattr mapped.v"""
INSTANCE = re.compile(r"^  (\w+) (\\?\S+ ?) \(\n    \.A\(([^)\n]*)\)", re.M)


def parsed():
    parser = argparse.ArgumentParser(usage=__doc__.split("usage: ")[1].split("\n")[0])
    parser.add_argument("--lib", default=f"{top_folder}/bench/designs/cells.lib")
    parser.add_argument("--buffer", default="BUF")
    parser.add_argument("--states", type=os.path.abspath, default=f"{here}/mapped_states.v")
    parser.add_argument("--data", default="D")
    parser.add_argument("--tests", type=int, default=64)
    parser.add_argument("--many", type=int, default=300)
    parser.add_argument("--options", default="", type=str.split)
    parser.add_argument("faultsim", type=os.path.abspath)
    parser.add_argument("top")
    parser.add_argument("files", nargs="+", type=os.path.abspath)
    return parser.parse_args()


def run(*words, **how):
    """Runs a command that must succeed; returns what it printed."""
    ran = subprocess.run(words, check=False, stdout=subprocess.PIPE, text=True, **how)
    if ran.returncode:
        sys.exit(f"mapped: {' '.join(words)}: status {ran.returncode}\n{ran.stdout[-2000:]}")
    return ran.stdout


def with_buffers(text, buffer):
    """Returns a netlist in which each 20th cell with a pin A reads it through a buffer."""
    at = 0

    def buffered(found):
        nonlocal at
        at += 1
        if at % 20 or found[1] == buffer:
            return found[0]
        cell = f"  wire added_{at};\n  {buffer} buf_{at} (.A({found[3]}), .Y(added_{at}));\n"
        return cell + found[0].replace(f".A({found[3]})", f".A(added_{at})")

    return INSTANCE.sub(buffered, text)


def main():
    given = parsed()
    with tempfile.TemporaryDirectory(prefix="mapped-") as room:
        os.chdir(room)
        lib = os.path.abspath(given.lib)
        run("yosys", "-q", "-p", MAP.format(files=" ".join(given.files), top=given.top, lib=lib),
            stderr=subprocess.DEVNULL)
        with open("mapped.v", encoding="utf-8") as file:
            text = with_buffers(file.read(), given.buffer)
        with open("mapped.v", "w", encoding="utf-8") as file:
            file.write(text)
        began = time.monotonic()
        run(f"{here}/../netlist2bench", "--lib", lib, *given.options, given.top, "mapped.v",
            "-o", "n.bench", "--map", "n.map")
        took = time.monotonic() - began
        with open("n.tests", "w", encoding="utf-8") as file:
            file.write(run(f"{top_folder}/bench/generate.py", "tests", "--bench", "n.bench",
                           "--count", str(given.tests)))
        with open("n.list", "w", encoding="utf-8") as file:
            file.write(run(given.faultsim, "run", "-b", "n.bench", "-t", "n.tests", "--list"))
        print(run(f"{here}/../pin-coverage", "n.map", "--list", "n.list"), end="")
        print(f"converted in {took:.1f} s: ", end="", flush=True)
        print(run(f"{here}/inject.py", "--program", given.faultsim, "--bench", "n.bench", "--map",
                  "n.map", "--tests", "n.tests", "--models", "stuck", "--static", given.data,
                  "--states", given.states, "--lib", lib, "--many", str(given.many), given.top,
                  "mapped.v"), end="")
        os.chdir("/")


if __name__ == "__main__":
    main()
