"""Prints the fault coverage of tests: python -m faultsim BENCH TESTS [MODEL].

MODEL is stuck, transition or transition-pairs; stuck if it is left out.
"""

import sys

from . import Error, Job, Model

MODELS = {
    "stuck": Model.STUCK_AT,
    "transition": Model.TRANSITION,
    "transition-pairs": Model.TRANSITION_PAIRS,
}


def main() -> int:
    words = sys.argv[1:]
    if len(words) not in (2, 3) or words[2:] and words[2] not in MODELS:
        print(__doc__.strip(), file=sys.stderr)
        return 2
    try:
        with open(words[0], "rb") as bench, open(words[1], "rb") as tests:
            with Job(bench.read(), MODELS[words[2] if words[2:] else "stuck"]) as job:
                job.set_tests(tests.read())
                found, all_faults = job.coverage()
    except (Error, OSError) as error:
        print(f"faultsim: {error}", file=sys.stderr)
        return 1
    hundredths = 10_000 * found // all_faults
    print(f"{found} of {all_faults} ({hundredths // 100}.{hundredths % 100:02}%)")
    return 0


sys.exit(main())
