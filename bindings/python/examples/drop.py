"""A loop with fault dropping under each fault model: simulates tests block by block, each block
only for the classes that no earlier test detects, and prints what `faultsim run --list` prints.

usage: drop.py BENCH TESTS MODEL

TESTS has nothing but a line of 0s and 1s for each test. MODEL is stuck, transition or
transition-pairs.
"""

import sys

import faultsim

MODELS = {
    "stuck": faultsim.Model.STUCK_AT,
    "transition": faultsim.Model.TRANSITION,
    "transition-pairs": faultsim.Model.TRANSITION_PAIRS,
}


def first_tests(job, rows, follow):
    """The first test of each class, or `None`. Under `Model.TRANSITION` each block follows the last
    test: with it, 63 tests are a block of 64."""
    firsts, left, most = [None] * job.classes, list(range(job.classes)), 63 if follow else 64
    for test in range(0, len(rows), most):
        job.set_tests(rows[test : test + most], keep_last=follow)
        before, still = test - 1 if follow and test else test, []
        for class_, found in zip(left, job.simulate(left)):
            if found == faultsim.NONE:
                still.append(class_)
            else:
                firsts[class_] = before + int(found)
        left = still
    return firsts


def main():
    bench, tests, model = sys.argv[1:]
    with open(tests, encoding="ascii") as file:
        rows = [list(map(int, row)) for row in file.read().split()]
    with open(bench, "rb") as file, faultsim.Job(file.read(), MODELS[model]) as job:
        firsts = first_tests(job, rows, model == "transition")
        found = [firsts[int(class_)] for class_ in job.classes_of()]
        for name, first in zip(job.fault_names(), found):
            print(name, "none" if first is None else first)
        detected = sum(first is not None for first in found)
        hundredths = 10_000 * detected // job.faults
        print(f"{detected} of {job.faults} ({hundredths // 100}.{hundredths % 100:02}%)")


if __name__ == "__main__":
    main()
