#!/usr/bin/env python3
"""Compares the time of the ledgers with the simulation of the same pieces.

    bench/ledger.py [--only WORD]

It puts the crates and the program `ledger_times.rt.txt` into a temporary folder, builds the program with
`rt run`, and runs it on circuits of generate.py with 65,536 tests of zeros: most classes are then clear
on each of 1,024 blocks, and each drop that is tried looks at all earlier blocks.
"""

import argparse
import pathlib
import shutil
import subprocess
import sys
import tempfile

HERE = pathlib.Path(__file__).resolve().parent
CRATES = HERE.parent / "crates"
TESTS = 65_536

# the loops of the program at which a seat stays one of its ledger
LOOPS = {"work": "loop", "lowest_waiting": "loop-class"}
INVARIANT = """use Rattle.std.proofs.Common.{◌≡◌}
use Rattle.ledger_times.proofs.FUNCTION.Given as goal

abbrev pub invariant-LOOP : goal.invariant-LOOP
invariant-LOOP l = l.seat.place ≡ l.ledger
"""

# what the program stands on, beside a crate of the kit
STANDS_ON = ["fault_model", "patterns", "block_sim", "fault_ledger", "report"]

# name, words for the circuit
CASES = [
    ("c17", "c17"),
    ("ripple adder of 32 bits", "ripple 32"),
    ("random circuit of 500 gates", "random --gates 500 --inputs 40 --outputs 20 --depth 20"),
    ("16 x 16 multiplier of 2,352 gates", "mult 16"),
]


def generated(*words):
    words = [sys.executable, str(HERE / "generate.py"), *words]
    return subprocess.run(words, check=True, stdout=subprocess.PIPE).stdout


def needed(lines, names):
    """The lines of crates.txt of these crates and of all below them, lowest first."""
    stands_on = {line.split(":")[0]: line.split(":")[1].split() for line in lines if not line.startswith("#")}
    wanted = list(names)
    for name in wanted:
        wanted += [below for below in stands_on[name] if below in stands_on and below not in wanted]
    return [line for line in lines if line.split(":")[0] in wanted]


def build_program(folder, name, stands_on, loops):
    """Builds the program of bench/NAME.rt.txt, with these functions and loops, on these crates."""
    # rt takes no crate that lies outside the folder, so these are copies, with what was proved of them.
    lines = needed((HERE.parent / "crates.txt").read_text().splitlines(), stands_on)
    for line in lines:
        below = line.split(":")[0]
        shutil.copytree(CRATES / below, folder / "crates" / below)
    home = folder / "crates" / name
    (home / "src").mkdir(parents=True)
    shutil.copy(HERE / f"{name}.rt.txt", home / "src" / "main.rt")
    for function, loop in loops.items():
        proof = home / "proofs" / function
        proof.mkdir(parents=True)
        text = INVARIANT.replace("FUNCTION", function).replace("LOOP", loop)
        (proof / "Invariants.antt").write_text(text)
    (folder / "HANDLES").write_text((HERE.parent / "HANDLES").read_text())
    program = f"{name}: {' '.join(stands_on)} anyhow"
    (folder / "crates.txt").write_text("\n".join([*lines, program]) + "\n")
    subprocess.run(["rt", "run"], cwd=home, stdout=subprocess.DEVNULL, stderr=subprocess.DEVNULL, check=True)
    return home / "out" / name


def main():
    parser = argparse.ArgumentParser(description=__doc__, formatter_class=argparse.RawDescriptionHelpFormatter)
    parser.add_argument("--only", default="")
    options = parser.parse_args()
    with tempfile.TemporaryDirectory() as name:
        folder = pathlib.Path(name)
        program = build_program(folder, "ledger_times", STANDS_ON, LOOPS)
        for title, circuit in CASES:
            if options.only not in title:
                continue
            bench = generated(*circuit.split())
            width = sum(line.startswith((b"INPUT", b"input")) or b"= DFF" in line for line in bench.splitlines())
            (folder / "bench").write_bytes(bench)
            (folder / "tests").write_text(("0" * width + "\n") * TESTS)
            print(f"{title}:", flush=True)
            subprocess.run([str(program), str(folder / "bench"), str(folder / "tests")], check=True)


if __name__ == "__main__":
    main()
