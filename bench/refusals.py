#!/usr/bin/env python3
"""Makes each allocation and each start of a thread fail in turn: in the program, on C17, and in the
library's calls.

    bench/refusals.py [--program] [--calls] [--built]
    bench/refusals.py --quick PROGRAM

It builds refuse.c with gcc and preloads it (LD_PRELOAD) into the program that `rt run` builds and
the test `memory::calls::each_call_that_was_refused_succeeds_again` that `rt test` builds in
command_line_tests (--built: the ones in out/). The first allocation fails, then in the next run the
second, and so on, until none fails. Each run of the program must end with status 3, `out of memory`
or `thread refused`, and nothing on standard output (with --format a prefix of the table), or do the
same as without a failure. After the start of a thread it must be `thread refused`; an allocation
may be one that the start of a thread makes. Each run of the test must pass, unless it couldn't set
up its calls. With --quick it runs only PROGRAM, and builds no other; that takes a minute or two.

Status: 0 if all runs did so, 1 if one did anything else, 3 if there is no gcc.
"""

import argparse
import collections
import os
import pathlib
import shutil
import subprocess
import sys
import tempfile
from concurrent.futures import ThreadPoolExecutor

HERE = pathlib.Path(__file__).resolve().parent
CRATES = HERE.parent / "crates"
DATA = CRATES / "faultsim" / "data"
TEST = "memory::calls::each_call_that_was_refused_succeeds_again"
# What is refused, by the setting of refuse.c, and what the program says of it.
NO_THREAD = b"faultsim: thread refused\n"
WAYS = {
    "REFUSE_ALLOCATION": (b"faultsim: out of memory\n", NO_THREAD),
    "REFUSE_START": (NO_THREAD,),
}
# Command lines of the program, in a folder with these files.
FILES = ("bench", "tests", "order", "first", "second")
# A chain of inverters under tests of one bit each: threads share their fault-free words.
CHAIN, MANY = 1024, 16384
# A gate with so many pins: threads put the lines of its list together.
PINS = 9000
# A number of inputs, which are outputs, and of tests: their file has 9 MB, and is read piece by
# piece.
INPUTS, ROWS = 8000, 1100
TEXTS = "--bench bench --tests tests"
COMMANDS = (
    "faults --bench bench",
    "faults --bench bench --format json",
    f"check {TEXTS}",
    f"run {TEXTS} --list --workers 1",
    f"run {TEXTS} --list --workers 2 --parts 2",
    f"run {TEXTS} --undetected --classes --workers 4 --parts 5",
    f"run {TEXTS} --list --workers 64 --parts 64",
    f"run {TEXTS} --list --model transition-pairs --workers 2",
    f"run {TEXTS} --detections 2 --workers 2",
    f"run {TEXTS} --format csv --workers 2",
    f"run {TEXTS} --part 1/2 --workers 2",
    "run --bench chain --tests many --list --workers 3",
    "run --bench wide --tests bits --list --workers 3",
    "run --bench inputs --tests long --workers 4",
    "merge first second --list",
    f"schedule {TEXTS} --list --workers 2 --order order",
    f"curve {TEXTS} --workers 2",
    f"compact {TEXTS} --workers 2",
    f"responses {TEXTS}",
)


def run_with(words, folder, **more):
    """What came of the words in a folder: the status, and what was written."""
    how = {"cwd": folder, "stdin": subprocess.DEVNULL, "env": {**os.environ, **more}}
    how |= {"stdout": subprocess.PIPE, "stderr": subprocess.PIPE, "timeout": 60}
    done = subprocess.run(words, check=False, **how)
    return done.returncode, done.stdout, done.stderr


def sweep(library, folder, words, way, judge):
    """Refuses the first, the second and so on, and counts what each run is judged to be."""
    seen, number = collections.Counter(), 1
    with tempfile.TemporaryDirectory() as room:
        told = pathlib.Path(room) / "told"
        while True:
            more = {"LD_PRELOAD": str(library), way: str(number), "REFUSE_TOLD": str(told)}
            came = run_with(words, folder, **more)
            name = judge(came)
            if name is None:
                what = f"status {came[0]}, {came[1][-200:]} and {came[2][-200:]}"
                raise AssertionError(f"{' '.join(words)}: with {way}={number} {what}")
            if not told.exists():
                return dict(seen)
            told.unlink()
            seen[name] += 1
            number += 1


def sweep_program(program, library, folder, command):
    """Both sweeps of a command line, as a line that says what came of them."""
    words = [program, *command.split()]
    expected = run_with(words, folder)
    if expected[0] or not expected[1]:
        raise AssertionError(f"{command}: status {expected[0]}, {expected[2][-200:]}")

    def judge(came):
        if came == expected:
            return "as ever"
        # (a table is written line by line)
        is_begun = "--format" in words and expected[1].startswith(came[1])
        if came[0] == 3 and (is_begun or not came[1]) and came[2] in wanted:
            return came[2].decode().strip().removeprefix("faultsim: ")
        return None

    seen = []
    for way, wanted in WAYS.items():
        seen.append(f"{way.lower()}: {sweep(library, folder, words, way, judge)}")
    return f"faultsim {command}: {', '.join(seen)}"


def put_files(program, folder):
    """C17, a test for it, an order, the texts of both parts of a run; a chain, a wide gate and
    inputs, with their tests."""
    bench, tests, order, first, second = (folder / name for name in FILES)
    bench.write_bytes((DATA / "c17.bench").read_bytes())
    tests.write_bytes((DATA / "one.tests").read_bytes())
    order.write_text("1\n1\n0\n")
    gates = (f"n{at} = NOT(n{at - 1})\n" for at in range(1, CHAIN))
    (folder / "chain").write_text(f"INPUT(n0)\nOUTPUT(n{CHAIN - 1})\n{''.join(gates)}")
    (folder / "many").write_text("0\n" * (MANY - 1) + "1\n")
    (folder / "wide").write_text(f"INPUT(a)\nOUTPUT(z)\nz = AND({', '.join('a' * PINS)})\n")
    (folder / "bits").write_text("0\n1\n")
    lines = (f"INPUT(i{at})\nOUTPUT(i{at})\n" for at in range(INPUTS))
    (folder / "inputs").write_text("".join(lines))
    (folder / "long").write_text(f"{'0' * INPUTS}\n" * (ROWS - 1) + f"{'1' * INPUTS}\n")
    for part, path in ((1, first), (2, second)):
        words = [program, "run", *TEXTS.split(), "--part", f"{part}/2"]
        path.write_bytes(run_with(words, folder)[1])


def try_program(program, folder, library):
    put_files(program, folder)
    with ThreadPoolExecutor(os.cpu_count()) as pool:
        tasks = [pool.submit(sweep_program, program, library, folder, it) for it in COMMANDS]
        for task in tasks:
            print(task.result(), flush=True)


def try_calls(folder, library, built):
    if not built:
        how = {"cwd": CRATES / "command_line_tests", "stdout": subprocess.DEVNULL}
        subprocess.run(["rt", "test"], check=True, **how)
    words = [str(CRATES / "command_line_tests" / "out" / "command_line_tests_tests"), TEST]

    def judge(came):
        if came[0] == 0:
            return "passed"
        # A failed assertion ends the process by a signal.
        return "could not set up" if came[0] == 101 and b"the test failed" in came[2] else None

    for way in WAYS:
        print(f"calls: {way.lower()}: {sweep(library, folder, words, way, judge)}", flush=True)


def built_program(built):
    """The program of the crate faultsim, proved and built where it is not built already."""
    if not built:
        how = {"cwd": CRATES / "faultsim", "stdout": subprocess.DEVNULL}
        subprocess.run(["rt", "run", "--", "--help"], check=True, **how)
    return str(CRATES / "faultsim" / "out" / "faultsim")


def main():
    how = {"description": __doc__, "formatter_class": argparse.RawDescriptionHelpFormatter}
    parser = argparse.ArgumentParser(**how)
    for flag in ("--program", "--calls", "--built"):
        parser.add_argument(flag, action="store_true")
    parser.add_argument("--quick", metavar="PROGRAM")
    given = parser.parse_args()
    if not shutil.which("gcc"):
        print("refusals: there is no gcc", file=sys.stderr)
        return 3
    with tempfile.TemporaryDirectory() as name:
        folder = pathlib.Path(name)
        library = folder / "refuse.so"
        words = ["gcc", "-O1", "-shared", "-fPIC", str(HERE / "refuse.c"), "-o", str(library)]
        subprocess.run(words, check=True)
        try:
            if given.quick:
                try_program(os.path.realpath(given.quick), folder, library)
                return 0
            if given.program or not given.calls:
                try_program(built_program(given.built), folder, library)
            if given.calls or not given.program:
                try_calls(folder, library, given.built)
        except AssertionError as why:
            print(f"refusals: {why}", file=sys.stderr)
            return 1
    return 0


if __name__ == "__main__":
    sys.exit(main())
