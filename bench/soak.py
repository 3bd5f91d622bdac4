#!/usr/bin/env python3
"""Runs `faultsim` in many threads on many small random circuits, and compares the reports.

    bench/soak.py [--runs N] [--seed N] [--built]

It builds baseline.cpp with g++ and the program with `rt run`, as compare.py does; --built takes the program
in out/. Each run has a circuit of generate.py's `tiny_circuit` or of 10 to 200 random gates, 1 to 2,500 tests,
one of the fault models, and 2 to 64 workers with one to three parts each. The report with the list, and
the status, must be byte for byte the same as with `--workers 1` and as the baseline's. It ends with status 1
at the first run that differs, and prints its seed.
"""

import argparse
import collections
import pathlib
import random
import sys
import tempfile

import compare
import generate


def inputs_of(seed):
    """A circuit, tests, model and number of workers; all follow from the seed."""
    rng = random.Random(f"soak {seed}")
    if rng.random() < 0.5:
        net = generate.tiny_circuit(rng, rng.randint(2, 24))
    else:
        net = generate.random_circuit(rng.randint(10, 200), inputs=rng.randint(2, 12), outputs=rng.randint(1, 8),
                                      ffs=rng.randint(0, 4), depth=rng.randint(2, 12), seed=seed)
    bench = net.text()
    # From 1,024 tests on a run has units of 512 tests.
    count = rng.choice((1, 2, 63, 64, 65, rng.randint(66, 300), rng.randint(1000, 2500)))
    tests = generate.tests(generate.width_of(bench), count, seed, weighted=rng.random() < 0.5)
    return bench, tests, rng.choice(("stuck", "transition", "transition-pairs")), rng.randint(2, 64)


def main():
    parser = argparse.ArgumentParser(description=__doc__, formatter_class=argparse.RawDescriptionHelpFormatter)
    parser.add_argument("--runs", type=int, default=1000)
    parser.add_argument("--seed", type=int, default=0)
    parser.add_argument("--built", action="store_true")
    options = parser.parse_args()
    statuses, models, threads = collections.Counter(), collections.Counter(), collections.Counter()
    with tempfile.TemporaryDirectory() as name:
        folder = pathlib.Path(name)
        baseline = compare.build(folder, options.built)
        bench_file, tests_file = folder / "bench", folder / "tests"
        for seed in range(options.seed, options.seed + options.runs):
            bench, tests, model, workers = inputs_of(seed)
            bench_file.write_text(bench)
            tests_file.write_text(tests)
            words = ["run", "--bench", str(bench_file), "--tests", str(tests_file), "--list", "--model", model]
            parts = workers * (1 + seed % 3)
            many_words = [*words, "--workers", str(workers), "--parts", str(parts)]
            _, many = compare.timed([str(compare.PROGRAM), *many_words])
            _, one = compare.timed([str(compare.PROGRAM), *words, "--workers", "1"])
            _, other = compare.timed([str(baseline), *words, "--workers", "1"])
            if not many == one == other:
                sys.exit(f"seed {seed}: the reports with {workers} workers, with one and of the baseline differ")
            statuses[many[0]] += 1
            models[model] += 1
            threads[(workers - 1) // 16] += 1
    print(f"{options.runs} runs alike; by status {dict(statuses)}, by model {dict(models)}, with up to 16, 32, 48 "
          f"and 64 workers {[threads[k] for k in range(4)]}")


if __name__ == "__main__":
    main()
