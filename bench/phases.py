#!/usr/bin/env python3
"""Tells what share of a run each of its phases takes, by the samples of perf.

    bench/phases.py [--program FILE ..] [--workers N ..] [--only NAME] [--rounds N] [--folder F] [--clock]

For each case it runs the program under `perf record` with each number of workers, and prints for each
phase the milliseconds of processor time of the thread that starts the program, and of the other
threads, as means of all rounds. A phase of the first thread begins with the first sample in a
function of its own (PHASES) and goes on until that of another one, so what the system does for it, as
handing out memory, counts for it. The times of a busy machine are still shares of the work, since a
sample is of processor time.

It also prints how long the simulation took by the clock: from the first sample of a thread in a
function of the simulation (SIMULATION) to the last, the least of all rounds. This time is only right
on a quiet machine.

With --clock it prints the steps of a run by the clock in place of that: for each step (STEPS) the
milliseconds from its first sample in any thread to that of the next step, the least and the median of
all rounds. So it shows what one thread alone holds up. Give several programs to compare them: their
runs take turns.

It wants a program with symbols, such as `contrib/build -O 3` leaves in out/faultsim, which is the
default. The circuits and tests are made in a temporary folder, or stay in the one that --folder names.
"""

import argparse
import pathlib
import re
import statistics
import subprocess
import sys
import tempfile
from typing import NamedTuple

import compare
from compare import Case

HERE = pathlib.Path(__file__).resolve().parent

CASES = [
    Case("picosoc", "picosoc, 1,024 tests", "design picosoc", 1024),
    Case("picosoc16k", "picosoc, 16,384 tests", "design picosoc", 16384),
    Case("r100k", "100,000 random gates, 256 tests", compare.R100K, 256),
    Case("r100k64k", "100,000 random gates, 65,536 tests", compare.R100K, 65536),
    Case("V2", "22,179 random gates, 10 outputs, 2,048 tests", compare.DEEP + " --join-unread", 2048),
    Case("list900k", "900,000 random gates, listed", compare.R900K),
]
# The tests of these are too many for a run in one part.
MANY_TESTS = ("picosoc16k", "r100k64k")

# The functions whose first sample begins a phase. Those of no phase belong to the one before.
PHASES = {
    "read bench": r"bench_(net|threads)::",
    "read tests": r"patterns::(test_text|octet|in_threads|in_pieces|read_tests)|patterns::word_rows::\w*add",
    "faults and classes": r"fault_model::(classes|faults)::",
    "rows": r"flat_circuit::(flat::FlatCircuit::new|flat::lists_|flat::add_|signal_order|order_walk|live|signal_places|gate_form)",
    "fault-free words": r"flat_circuit::(words|fault_free)::",
    "classes of the job": r"flat_circuit::(region_classes|origin)::",
    "cut": r"region_runs::(class_order|stretches)::",
    "verdicts": r"region_runs::(parts|fault_firsts|stretch_run::lowest)|workers::verdicts",
    "report": r"report::|analysis_reports::|threaded_lines::|part_files::|byte_output::|itoa::",
}
BEGIN = "start"
# The steps of a run by the clock: each begins with the first sample in one of these functions.
STEPS = {
    "start, statements": r"",
    "names": r"bench_net::number::add_names",
    "numbers": r"bench_net::number::number_of",
    "levels, sinks": r"bench_net::(tables|levels|sinks)::",
    "faults, arrays": r"fault_model::faults::|flat_circuit::signal_order::",
    "fault-free words": r"flat_circuit::(words|fault_free|four_words)::",
    "order of classes": r"region_runs::class_order::",
    "simulation": r"region_sim::|<region_sim",
    "verdicts": r"region_runs::fault_firsts::",
    "lines": r"threaded_lines::",
}
# The functions of a thread that simulates.
SIMULATION = r"region_sim::(region_simulation|pack|unit_\w+|sensitized|known_\w+)::|region_runs::stretch_run::"
# Threads read both files at the same time, so until the next phase each has the phase of its own functions.
READING = ("read bench", "read tests")


def phase_of(symbol):
    return next((name for name, words in PHASES.items() if re.match(words, symbol)), None)


class Sample(NamedTuple):
    thread: str
    is_first: bool      # whether it is of the thread that starts the program
    clock: float        # when, in milliseconds of the machine's clock
    took: float         # the milliseconds of processor time that it stands for
    symbol: str         # the function


def samples(data):
    """The samples of a recording."""
    words = ["perf", "script", "-i", str(data), "-F", "pid,tid,time,period,ip,sym"]
    out = subprocess.run(words, stdout=subprocess.PIPE, stderr=subprocess.DEVNULL, check=True, text=True)
    for line in out.stdout.splitlines():
        found = re.match(r"\s*(\d+)/(\d+)\s+([\d.]+):\s+(\d+)\s+\w+ (.*)", line)
        if found:
            pid, tid, clock, period, symbol = found.groups()
            yield Sample(tid, pid == tid, float(clock) * 1e3, int(period) / 1e6, symbol.strip())


def times(taken):
    """The milliseconds of each phase of the first thread, and those of all other threads by phase."""
    own, others, now, reads = {}, {}, BEGIN, {}
    for sample in taken:
        if sample.is_first:
            now = phase_of(sample.symbol) or now
            own[now] = own.get(now, 0) + sample.took
            continue
        if now == BEGIN or now in READING:
            if phase_of(sample.symbol) in READING:
                reads[sample.thread] = phase_of(sample.symbol)
            phase = reads.get(sample.thread, now)
        else:
            phase = now
        others[phase] = others.get(phase, 0) + sample.took
    return own, others


def simulation(taken):
    """How many milliseconds the simulation took by the clock."""
    clocks = [it.clock for it in taken if not it.is_first and re.match(SIMULATION, it.symbol)]
    return max(clocks) - min(clocks) if clocks else 0


def steps(taken):
    """The milliseconds of each step by the clock. A step without a sample takes none."""
    first, end = min(it.clock for it in taken), max(it.clock for it in taken)
    begins, later = {}, end
    for name, words in reversed(STEPS.items()):
        found = [it.clock for it in taken if re.match(words, it.symbol)] if words else [first]
        begins[name] = min(found, default=later)
        later = begins[name]
    starts = [begins[name] for name in STEPS]
    return dict(zip(STEPS, (late - early for early, late in zip(starts, [*starts[1:], end]))))


def tell_steps(case, workers, programs, folder, options):
    """Runs the programs in turn, and prints the least and the median of each step."""
    found = {program: [] for program in programs}
    for _ in range(options.rounds):
        for program in programs:
            words = words_of(case, folder, program.resolve(), workers)
            found[program].append(steps(recorded(words, folder)))
    print(f"{case.name}, {case.title}, {workers} workers, by the clock")
    for program, rounds in found.items():
        whole = [sum(it.values()) for it in rounds]
        print(f"  {program}: {min(whole):.1f} at least, {statistics.median(whole):.1f} in the median")
        for name in STEPS:
            took = [it[name] for it in rounds]
            print(f"    {name:20} {min(took):8.1f} {statistics.median(took):8.1f}", flush=True)


def recorded(words, folder):
    data = folder / "perf.data"
    command = ["perf", "record", "-q", "-F", "5000", "-e", "cpu-clock", "-o", str(data), "--", *words]
    ran = subprocess.run(command, stdout=subprocess.DEVNULL, stderr=subprocess.PIPE, check=False)
    if ran.returncode:
        sys.exit(f"perf: {ran.stderr.decode()[:500]}")
    return list(samples(data))


def measure(words, options, folder):
    """The means of the phases of the first thread and of the others, and the least time of the simulation."""
    own, others, spans = {}, {}, []
    for _ in range(options.rounds):
        taken = recorded(words, folder)
        spans.append(simulation(taken))
        for table, found in zip((own, others), times(taken)):
            for phase, took in found.items():
                table[phase] = table.get(phase, 0) + took / options.rounds
    return own, others, min(spans)


def told(case, workers, own, others, span):
    whole = sum(own.values()) + sum(others.values())
    print(f"{case.name}, {case.title}, {workers} workers: {whole:.0f} ms of processor time")
    for phase in [BEGIN, *PHASES]:
        mine, theirs = own.get(phase, 0), others.get(phase, 0)
        if mine + theirs >= whole / 1000:
            beside = f"  {theirs:8.1f} in other threads" if theirs else ""
            print(f"  {phase:20} {mine:8.1f}{beside}")
    alone = sum(own.values())
    print(f"  {'first thread':20} {alone:8.1f}, {alone / whole:.0%} of all", flush=True)
    if span:
        print(f"  {'simulation':20} {span:8.1f} by the clock", flush=True)


def words_of(case, folder, program, workers):
    bench, tests = folder / f"{case.name}.bench", folder / f"{case.name}.tests"
    if not bench.exists():
        compare.generated(folder, bench.name, case.circuit.split(), case.line)
    if not case.tests:
        return [str(program), "faults", "--bench", str(bench)]
    if not tests.exists():
        compare.generated(folder, tests.name, ["tests", "--bench", str(bench), "--count", str(case.tests)])
    words = [str(program), "run", "--bench", str(bench), "--tests", str(tests), "--list"]
    words += ["--workers", str(workers)]
    return words + (["--parts", "auto"] if case.name in MANY_TESTS else [])


def main():
    parser = argparse.ArgumentParser(description=__doc__, formatter_class=argparse.RawDescriptionHelpFormatter)
    parser.add_argument("--program", type=pathlib.Path, nargs="+", default=[HERE.parent / "out" / "faultsim"])
    parser.add_argument("--clock", action="store_true")
    parser.add_argument("--workers", type=int, nargs="+", default=[1, 4])
    parser.add_argument("--only", default="")
    parser.add_argument("--rounds", type=int, default=3)
    parser.add_argument("--folder", type=pathlib.Path, default=None)
    options = parser.parse_args()
    with tempfile.TemporaryDirectory() as name:
        folder = options.folder or pathlib.Path(name)
        for case in CASES:
            if options.only and options.only != case.name:
                continue
            for workers in options.workers if case.tests else [1]:
                if options.clock:
                    tell_steps(case, workers, options.program, folder, options)
                    continue
                words = words_of(case, folder, options.program[0].resolve(), workers)
                own, others, span = measure(words, options, pathlib.Path(name))
                told(case, workers, own, others, span)


if __name__ == "__main__":
    main()
