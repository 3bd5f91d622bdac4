#!/usr/bin/env python3
"""Runs `faultsim` with too little memory, and checks how it ends.

    bench/memory.py [--only WORD]

It runs crates/faultsim/out/faultsim, which `rt run` builds, under limits of its address space, from
too small to ample. A run must end by itself within its time. It must either print `faultsim: out of
memory` on standard error (or `faultsim: thread refused`, if a thread's stack gets no memory) and nothing
on standard output, with status 3, or print the same as without a limit, and as baseline.cpp. A run that a
signal ends, or that prints anything else, fails.
"""

import argparse
import pathlib
import resource
import subprocess
import sys
import tempfile
import time

HERE = pathlib.Path(__file__).resolve().parent
PROGRAM = HERE.parent / "crates" / "faultsim" / "out" / "faultsim"
MEGABYTE = 1 << 20
LIMITS = [8, 16, 32, 48, 64, 96, 128, 192, 256, 384, 512, 768, 1024, 1536, 2048, 3072]
SECONDS = 300
# what a run may say that ends with status 3, the second where a thread's stack is refused
WORDS = ["out of memory", "thread refused"]


def chain(count):
    """Inverters in a row: as many signals as there are, and two fault classes."""
    lines = ["INPUT(n0)", f"OUTPUT(n{count})"]
    lines += [f"n{k} = NOT(n{k - 1})" for k in range(1, count + 1)]
    return "\n".join(lines) + "\n"


def generated(*words):
    words = [sys.executable, str(HERE / "generate.py"), *words]
    return subprocess.run(words, check=True, stdout=subprocess.PIPE).stdout.decode()


# name, the circuit, the number of tests, words for the run
CASES = [
    ("100,000 inverters in a row, 65,536 tests", lambda: chain(100_000), 65_536, []),
    ("the same, 4 workers", lambda: chain(100_000), 65_536, ["--workers", "4"]),
    (
        "a random circuit of 100,000 gates, 128 tests, 4 workers",
        lambda: generated(*"random --gates 100000 --inputs 500 --outputs 500 --depth 60".split()),
        128,
        ["--workers", "4"],
    ),
]


def run(words, limit=None):
    """How a run ends under a limit in megabytes, and its seconds."""

    def limited():
        if limit is not None:
            resource.setrlimit(resource.RLIMIT_AS, (limit * MEGABYTE, limit * MEGABYTE))

    begin = time.perf_counter()
    try:
        done = subprocess.run(words, capture_output=True, preexec_fn=limited, timeout=SECONDS)
    except subprocess.TimeoutExpired:
        sys.exit(f"not done in {SECONDS} seconds under {limit} MB")
    return time.perf_counter() - begin, (done.returncode, done.stdout, done.stderr)


def main():
    parser = argparse.ArgumentParser(description=__doc__, formatter_class=argparse.RawDescriptionHelpFormatter)
    parser.add_argument("--only", default="")
    options = parser.parse_args()
    with tempfile.TemporaryDirectory() as name:
        folder = pathlib.Path(name)
        baseline = folder / "baseline"
        source = str(HERE / "baseline.cpp")
        subprocess.run(["g++", "-O3", "-std=c++17", "-pthread", source, "-o", str(baseline)], check=True)
        for title, circuit, tests, more in CASES:
            if options.only not in title:
                continue
            bench, rows = folder / "bench", folder / "tests"
            bench.write_text(circuit())
            rows.write_text(generated("tests", "--bench", str(bench), "--count", str(tests)))
            words = ["run", "--bench", str(bench), "--tests", str(rows), "--list", *more]
            _, expected = run([str(baseline), *words])
            seconds, answer = run([str(PROGRAM), *words])
            if answer != expected or answer[0] != 0:
                sys.exit(f"{title}: not the answer of the baseline")
            print(f"{title}: right in {seconds:.1f} s without a limit", flush=True)
            for limit in LIMITS:
                seconds, ended = run([str(PROGRAM), *words], limit)
                said = ended[2].decode(errors="replace").removeprefix("faultsim: ").rstrip("\n")
                if ended[:2] == (3, b"") and said in WORDS:
                    print(f"    {limit} MB: {said}, status 3, {seconds:.2f} s", flush=True)
                elif ended == answer:
                    print(f"    {limit} MB: right, {seconds:.2f} s", flush=True)
                    break
                else:
                    sys.exit(f"{title}, {limit} MB: ended with status {ended[0]}, {ended[2][:200]}")


if __name__ == "__main__":
    main()
