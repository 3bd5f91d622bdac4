"""A random test generator: blocks of 64 random tests, of which it keeps those that are the first to
detect a class, until 20 blocks in a row bring none.

usage: generator.py BENCH [SEED] > TESTS

The tests go to standard output, and a line about them to standard error.
"""

import sys

import faultsim

WORD = (1 << 64) - 1


def random_words(state):
    """Random words (Vigna, xorshift64*)."""
    while True:
        state ^= state >> 12
        state = (state ^ state << 25) & WORD
        state ^= state >> 27
        yield state * 2685821657736338717 & WORD


def generate(job, seed=1, idle=20):
    """The tests that are kept, as rows of text, and the classes that no test detects."""
    words_of, kept, left, dry = random_words(seed), [], list(range(job.classes)), 0
    while dry < idle and left:
        words = [next(words_of) for _ in range(job.sources)]
        job.set_tests(words, count=64)
        firsts = [int(it) for it in job.simulate(left)]
        news = sorted(set(firsts) - {faultsim.NONE})
        kept += ["".join("01"[word >> lane & 1] for word in words) for lane in news]
        left = [it for it, first in zip(left, firsts) if first == faultsim.NONE]
        dry = 0 if news else dry + 1
    return kept, left


def main():
    with open(sys.argv[1], "rb") as bench, faultsim.Job(bench.read()) as job:
        kept, left = generate(job, int(sys.argv[2]) if sys.argv[2:] else 1)
        undetected = set(left)
        found = sum(int(it) not in undetected for it in job.classes_of())
        print("\n".join(kept))
        print(f"{len(kept)} tests, {found} of {job.faults}", file=sys.stderr)


if __name__ == "__main__":
    main()
