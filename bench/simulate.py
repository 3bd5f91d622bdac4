#!/usr/bin/env python3
"""Times `simulate` on all classes and all blocks beside the baseline's simulation with --no-drop.

    bench/simulate.py [--rounds N] [--only WORD]

Both evaluate every class on every block, never ending early. It puts the crates and the program
`simulate_times.rt.txt` into a temporary folder, builds it with `rt run`, and prints for each case the ratio
of the least times of the simulation alone.
"""

import argparse
import pathlib
import re
import subprocess
import tempfile

from compare import build
from ledger import build_program, generated

STANDS_ON = ["patterns", "fault_model", "block_sim", "report"]

# name, words for the circuit, number of tests
CASES = [
    ("a 16 x 16 multiplier of 2,352 gates, 256 tests", "mult 16", 256),
    ("a 16 x 16 multiplier of 2,352 gates, 4,096 tests", "mult 16", 4096),
    ("a random circuit of 22,000 gates, 512 tests", "random --gates 22000 --inputs 200 --outputs 200 --ffs 1500 --depth 50", 512),
]


def main():
    parser = argparse.ArgumentParser(description=__doc__, formatter_class=argparse.RawDescriptionHelpFormatter)
    parser.add_argument("--rounds", type=int, default=3)
    parser.add_argument("--only", default="")
    options = parser.parse_args()
    with tempfile.TemporaryDirectory() as name:
        folder = pathlib.Path(name)
        program = build_program(folder, "simulate_times", STANDS_ON, {})
        baseline = build(folder)
        for title, circuit, count in CASES:
            if options.only not in title:
                continue
            bench, tests = folder / "bench", folder / "tests"
            bench.write_bytes(generated(*circuit.split()))
            tests.write_bytes(generated("tests", "--bench", str(bench), "--count", str(count)))
            files = ["--bench", str(bench), "--tests", str(tests)]
            ours, theirs = [], []
            for _ in range(options.rounds):
                told = subprocess.run([str(program), str(bench), str(tests)], check=True, stdout=subprocess.PIPE, text=True)
                ours.append(int(told.stdout) / 1000)
                words = [str(baseline), "run", *files, "--workers", "1", "--no-drop", "--time"]
                told = subprocess.run(words, check=True, stdout=subprocess.DEVNULL, stderr=subprocess.PIPE, text=True)
                theirs.append(float(re.search(r"simulate +([0-9.]+) ms", told.stderr)[1]))
            print(f"{title}: {min(ours) / min(theirs):.2f}", flush=True)


if __name__ == "__main__":
    main()
