#!/usr/bin/env python3
"""Counts the instructions of a run and of the baseline, and what part of a run they belong to.

    bench/instructions.py [--program FILE] [--only NAME ..] [--csv]

For each case it runs the program and the baseline by packs, each with one worker and the list, under
valgrind's callgrind, and checks that both write the same. It prints millions: the instructions of
both, their misses of the first cache and of the last, as callgrind simulates them, and then the
instructions of the program by the part of the run whose functions have them (PARTS). With --csv it
prints lines of results/instructions.csv. The counts are the same on a busy machine. A run takes 50
to 100 times as long as without callgrind.

It wants a program with symbols that is compiled as the proved one is, such as the one that
'contrib/build --as-proved -O 3' leaves in out/faultsim, which is the default.
"""

import argparse
import collections
import pathlib
import re
import subprocess
import sys
import tempfile

import compare

HERE = pathlib.Path(__file__).resolve().parent
CASES = ("picorv32", "picorv32long", "picosoc", "picosoclong", "s38417long", "r100k", "mult32long", "U", "A")

# The functions of each part of a run, the first that fits; what a function calls is its own.
PARTS = {
    "copy and clear": r"mem(cpy|move|set)",
    "bench file": r"bench_(net|threads)::|indexmap::|hash|cmp::bytes",
    "test file": r"patterns::|test_threads::",
    "faults and classes": r"fault_model::|flat_circuit::(origin|class_lists|region_classes)|counting_sort::",
    "flat arrays": r"flat_circuit::(flat|signal_order|order_walk|live|signal_places)",
    "fault-free words": r"flat_circuit::(words|fault_free|four_words)",
    "simulation": r"region_sim::|region_runs::stretch_|block_sim::|event_queue::|wide_words::",
    "report": r"report::|threaded_lines::|byte_output::|itoa::",
}
REST = "the rest"


def part_of(function):
    return next((part for part, words in PARTS.items() if re.search(words, function)), REST)


def counted(words, data):
    """What the words write, and what callgrind counts: events by name, and instructions by function."""
    tool = ["valgrind", "--tool=callgrind", "--cache-sim=yes", f"--callgrind-out-file={data}"]
    ran = subprocess.run([*tool, *words], stdout=subprocess.PIPE, stderr=subprocess.PIPE, check=False)
    if ran.returncode:
        sys.exit(f"{words[0]}: status {ran.returncode}\n{ran.stderr.decode()[-500:]}")
    said = ran.stderr.decode()
    events = {}
    for name, words_of in (("instructions", r"I +refs"), ("first cache", r"D1 +misses"), ("last cache", r"LL +misses")):
        events[name] = int(re.search(words_of + r": +([\d,]+)", said).group(1).replace(",", ""))
    table = subprocess.run(["callgrind_annotate", "--threshold=100", str(data)], stdout=subprocess.PIPE, check=True)
    functions = collections.Counter()
    for line in table.stdout.decode(errors="replace").splitlines():
        found = re.match(r"\s*([\d,]+) \(\s*[\d.]+%\) .* \S+?:(\S.*)", line)
        if found:
            functions[found.group(2)] += int(found.group(1).replace(",", ""))
    return ran.stdout, events, functions


def measured(case, program, baseline, folder):
    """The events of the program and of the baseline, and the program's instructions by part."""
    words = [*compare.words_of(folder, case, "stuck"), "--workers", "1"]
    out, ours, functions = counted([str(program), *words], folder / "ours")
    other, theirs, _ = counted([str(baseline), *words, *compare.PACKS], folder / "theirs")
    if out != other:
        sys.exit(f"{case.name}: the program and the baseline write different bytes")
    parts = collections.Counter()
    for function, count in functions.items():
        parts[part_of(function)] += count
    parts[REST] += ours["instructions"] - sum(parts.values())
    return ours, theirs, parts


def told(case, ours, theirs, parts):
    print(f"{case.name}, {case.title}: millions, ours and the baseline's")
    for name, count in ours.items():
        print(f"  {name:20} {count / 1e6:9.1f} {theirs[name] / 1e6:9.1f}")
    for part in [*PARTS, REST]:
        print(f"    {part:18} {parts[part] / 1e6:9.1f} {parts[part] / ours['instructions']:9.0%}")
    sys.stdout.flush()


def main():
    parser = argparse.ArgumentParser(description=__doc__, formatter_class=argparse.RawDescriptionHelpFormatter)
    parser.add_argument("--program", type=pathlib.Path, default=HERE.parent / "out" / "faultsim")
    parser.add_argument("--only", nargs="+", default=CASES)
    parser.add_argument("--csv", action="store_true")
    options = parser.parse_args()
    cases = {case.name: case for case in compare.CASES + compare.HARD_CASES + compare.DESIGN_CASES}
    if options.csv:
        events = ("instructions", "first_cache", "last_cache")
        heads = [f"{whose}{it}" for whose in ("", "baseline_") for it in events]
        print(",".join(["case", *heads, *(it.replace(" ", "_") for it in [*PARTS, REST])]))
    with tempfile.TemporaryDirectory() as name:
        folder = pathlib.Path(name)
        baseline = compare.build_baseline(folder)
        for it in options.only:
            ours, theirs, parts = measured(cases[it], options.program.resolve(), baseline, folder)
            if options.csv:
                counts = [*ours.values(), *theirs.values(), *(parts[part] for part in [*PARTS, REST])]
                print(",".join([it, *(f"{count / 1e6:.1f}" for count in counts)]), flush=True)
            else:
                told(cases[it], ours, theirs, parts)


if __name__ == "__main__":
    main()
