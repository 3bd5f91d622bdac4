#!/usr/bin/env python3
"""Times `faultsim` against a C++ simulator of the same job, and checks that all write the same.

    bench/compare.py [--designs] [--hard] [--workers] [--counts] [--detections] [--compactions]
                     [--model M] [--rounds N] [--only WORD] [--processor]
                     [--program FILE | --built]

It builds baseline.cpp with g++ and the program with `rt run`, and makes circuits and tests with
generate.py in a temporary folder (circuits of designs/ are unpacked). It runs in turn the program, the
baseline by events, the baseline by regions with all of its options (`--algorithm regions --prune
--groups`), and the baseline by packs (`--algorithm packs`), which has only one worker. For each case it
prints the ratios of our least time to the baseline's: by events, by regions, by packs, and with
--no-trim, which simulates whole blocks; and the peak memory of ours and of the baseline by events. It
prints only ratios, since times depend on the machine. --processor uses processor time for different
programs, which is more reliable on a busy machine.

Without an option it runs the short cases, with --hard the long ones, and with --designs those of
designs/: real designs, and structured circuits from Verilog.

With --workers it runs the cases for several workers, each with 1, 2 and 4 against the baseline with as
many. It prints the speedup of each program over its own run with 1 worker, for the whole run and for
the simulation: from the start of the first thread to the end of the last (ours: threads.c; the
baseline: --time). It prints the processor time as a ratio to the run with 1 worker, too: the overhead
of sharing the work, even if the processors are busy. And it runs as many programs of one worker at
once, which share only the machine: their speedup is the most that a run with so many workers can
reach.

With --counts it prints how many gates the baseline evaluates by events, and the fraction of it by
regions and by packs. These don't depend on the machine, and the program isn't built for them.

With --detections it runs the program alone, with one worker, and prints how many times as long as `run`
the runs with --detections 1, 5 and 20 take. The report of --detections 1 must be the one of `run`.

With --compactions it runs the program alone, with one worker and with four, and prints how many times
as long as `run` with one worker `compact` takes: for stuck-at faults, for transition faults, and in
steepest order. Both numbers of workers must keep the same tests.

--only takes the name of a case, or a part of a title. --built takes the program in out/, and --program
another one.
"""

import argparse
import lzma
import os
import pathlib
import re
import resource
import subprocess
import sys
import tempfile
import time
from typing import NamedTuple

HERE = pathlib.Path(__file__).resolve().parent
CRATE = HERE.parent / "crates" / "faultsim"
PROGRAM = CRATE / "out" / "faultsim"


class Case(NamedTuple):
    name: str
    title: str
    circuit: str        # words for generate.py, or `design` and a name of designs/
    tests: int = 0      # how many; 0 for the listing
    line: str = ""      # a line that is added to the circuit


R900K = "random --gates 900000 --inputs 500 --outputs 500 --ffs 60000 --depth 80 --short"
R20K = "random --gates 20000 --inputs 200 --outputs 200 --ffs 800 --depth 50"
R22K = "random --gates 22000 --inputs 200 --outputs 200 --ffs 1500 --depth 50"
R100K = "random --gates 100000 --inputs 500 --outputs 500 --ffs 5000 --depth 60"
S38417 = "random --gates 22179 --inputs 28 --outputs 106 --ffs 1636 --depth 47"
FEW_OUTPUTS = "random --gates 5000 --inputs 100 --outputs 3"
DEEP = "random --gates 22179 --inputs 28 --outputs 10 --depth 47"

CASES = [
    Case("cycle900k", "read a random circuit of 900,000 gates, and refuse its cycle", R900K, 0, "cyclic = NOT(cyclic)\n"),
    Case("list900k", "read and list a random circuit of 900,000 gates", R900K),
    Case("list20k", "list a random circuit of 20,000 gates", R20K),
    Case("c17", "c17, 4,096 tests", "c17", 4096),
    Case("mult16", "a 16 x 16 multiplier of 2,352 gates, 256 tests", "mult 16", 256),
    Case("mult16long", "a 16 x 16 multiplier of 2,352 gates, 4,096 tests", "mult 16", 4096),
    Case("r22k", "a random circuit of 22,000 gates, 512 tests", R22K, 512),
    Case("ecc32", "a 32-bit error corrector, 512 tests", "ecc 32", 512),
    Case("ripple64", "a ripple adder of 64 bits, 512 tests", "ripple 64", 512),
    Case("r100kshort", "a random circuit of 100,000 gates, 128 tests", R100K, 128),
]

# With --hard: many tests, large circuits, and circuits with few outputs, many of whose faults stay undetected.
HARD_CASES = [
    Case("ecc32long", "a 32-bit error corrector, 4,096 tests", "ecc 32", 4096),
    Case("mult32", "a 32 x 32 multiplier, 1,024 tests", "mult 32", 1024),
    Case("mult32long", "a 32 x 32 multiplier, 4,096 tests", "mult 32", 4096),
    Case("r22klong", "a random circuit of 22,000 gates, 4,096 tests", R22K, 4096),
    Case("s38417", "the shape of s38417: 22,179 gates, 512 tests", S38417, 512),
    Case("s38417long", "the shape of s38417: 22,179 gates, 4,096 tests", S38417, 4096),
    Case("r100k", "a random circuit of 100,000 gates, 256 tests", R100K, 256),
    Case("U", "U: 5,000 gates, 3 outputs, 16,384 tests", FEW_OUTPUTS, 16384),
    Case("V", "V: 22,179 gates, 10 outputs, 2,048 tests", DEEP, 2048),
    Case("U2", "U2: as U, without dead gates", FEW_OUTPUTS + " --join-unread", 16384),
    Case("V2", "V2: as V, without dead gates", DEEP + " --join-unread", 2048),
    Case("A", "A: 5,000 gates, 20 outputs, 65,536 tests", "random --gates 5000 --inputs 100 --outputs 20", 65536),
    Case("B", "B: 5,000 gates, 50 inputs, depth 50, 65,536 tests",
         "random --gates 5000 --inputs 50 --outputs 20 --depth 50", 65536),
    Case("W", "W: as V with 1,636 flip-flops, 8,192 tests", DEEP + " --ffs 1636", 8192),
]

# With --designs: circuits that were written in Verilog (designs/README.md), under random tests.
DESIGN_CASES = [
    Case("c880", "c880 of ISCAS-85, 361 gates, 1,024 tests", "design c880", 1024),
    Case("c880long", "c880 of ISCAS-85, 361 gates, 4,096 tests", "design c880", 4096),
    Case("simpleuart", "simpleuart, a serial port, 1,024 tests", "design simpleuart", 1024),
    Case("simpleuartlong", "simpleuart, a serial port, 4,096 tests", "design simpleuart", 4096),
    Case("picorv32", "picorv32, a RISC-V processor, 1,024 tests", "design picorv32", 1024),
    Case("picorv32long", "picorv32, a RISC-V processor, 4,096 tests", "design picorv32", 4096),
    Case("picosoc", "picosoc, a system around it, 1,024 tests", "design picosoc", 1024),
    Case("picosoclong", "picosoc, a system around it, 4,096 tests", "design picosoc", 4096),
    Case("alu32", "alu32: an arithmetic unit of 32 bits, 2,048 tests", "design alu32", 2048),
    Case("sha", "sha: two rounds of SHA-256, 512 tests", "design sha", 512),
    Case("cpu", "cpu: a processor of four stages, 4,096 tests", "design cpu", 4096),
    Case("xbar", "xbar: a crossbar of eight ports, 2,048 tests", "design xbar", 2048),
    Case("aes", "aes: one round of AES, 1,024 tests", "design aes", 1024),
]

# With --workers, where --only names no other.
WORKER_CASES = ("c17", "ecc32long", "mult16long", "r22klong", "r100kshort")
WORKERS = (1, 2, 4)

# With --detections or --compactions, where --only names no other.
GOAL_CASES = ("r100k", "s38417", "picosoc")
DETECTIONS = (1, 5, 20)
COMPACTIONS = {"stuck-at": [], "transition": ["--model", "transition"], "steepest": ["--order", "steepest"]}

REGIONS = ["--algorithm", "regions", "--prune", "--groups"]
PACKS = ["--algorithm", "packs"]


def run(words, **options):
    return subprocess.run(words, check=True, stdout=subprocess.PIPE, **options).stdout


def build_baseline(folder):
    baseline = folder / "baseline"
    run(["g++", "-O3", "-march=x86-64-v2", "-std=c++17", "-pthread", str(HERE / "baseline.cpp"), "-o", str(baseline)])
    return baseline


def build(folder, built=False):
    baseline = build_baseline(folder)
    if not built:
        subprocess.run(["rt", "run", "--", "--help"], cwd=CRATE, stdout=subprocess.DEVNULL, check=True)
    return baseline


def generated(folder, name, words, more=""):
    path = folder / name
    if words[0] == "design":
        made = lzma.decompress((HERE / "designs" / f"{words[1]}.bench.xz").read_bytes())
    else:
        made = run([sys.executable, str(HERE / "generate.py"), *words])
    path.write_bytes(made + more.encode())
    return str(path)


def timed(words):
    begin = time.perf_counter()
    done = subprocess.run(words, stdout=subprocess.PIPE, stderr=subprocess.PIPE)
    return time.perf_counter() - begin, (done.returncode, done.stdout, done.stderr)


# A process of its own starts the program, since a process counts what it had before it became another.
MEMORY = """
import os, sys
quiet = [(os.POSIX_SPAWN_OPEN, number, os.devnull, os.O_WRONLY, 0) for number in (1, 2)]
child = os.posix_spawn(sys.argv[1], sys.argv[1:], os.environ, file_actions=quiet)
print(os.wait4(child, 0)[2].ru_maxrss)
"""


def memory(words):
    """The most memory that a run had at one time, in MB."""
    return int(run([sys.executable, "-c", MEMORY, *words])) / 1024


def chosen(cases, only):
    """The case of that name, or else those whose title has it."""
    named = [case for case in cases if only == case.name] or [case for case in cases if only in case.title]
    return named or sys.exit(f"no case is named {only}")


def words_of(folder, case, model):
    """The words for a run of the case, or for its listing, with its files in the folder."""
    bench = generated(folder, "bench", case.circuit.split(), case.line)
    if not case.tests:
        return ["faults", "--bench", bench, "--model", model]
    rows = generated(folder, "tests", ["tests", "--bench", bench, "--count", str(case.tests)])
    return ["run", "--bench", bench, "--tests", rows, "--list", "--model", model]


def compare(folder, baseline, case, options, whole_blocks):
    words = words_of(folder, case, options.model)
    # The program, then the baseline in its ways.
    ours, events = [str(PROGRAM), *words], [str(baseline), *words]
    ways = {"ours": ours, "by events": events}
    if case.tests:
        ours += ["--workers", "1"]
        events += ["--workers", "1"]
        ways["by regions"] = [*events, *REGIONS]
        ways["by packs"] = [*events, *PACKS]
        if whole_blocks:
            ways["with --no-trim"] = [*events, "--no-trim"]
    least, expected = {}, None
    for _ in range(options.rounds):
        for way, command in ways.items():
            before = processor_time()
            took, out = timed(command)
            if options.processor:
                took = processor_time() - before
            expected = expected or out
            if out != expected:
                sys.exit(f"{case.title}: the reports differ")
            least[way] = min(took, least.get(way, took))
    ratios = [f"{least['ours'] / least[way]:.2f} {way}" for way in ways if way != "ours"]
    print(f"{case.name}, {case.title}: {', '.join(ratios)}; {memory(ours):.0f} MB beside {memory(events):.0f}", flush=True)


def timed_threads(library, commands):
    """Starts all at once. The seconds until the last ends, the longest simulation, and the first's outcome."""
    told = [library.with_name(f"told{number}") for number in range(len(commands))]
    begin = time.perf_counter()
    started = [
        subprocess.Popen(command, stdout=subprocess.PIPE if number == 0 else subprocess.DEVNULL,
                         stderr=subprocess.PIPE if number == 0 else subprocess.DEVNULL,
                         env={**os.environ, "LD_PRELOAD": str(library), "THREADS_TOLD": str(told[number])})
        for number, command in enumerate(commands)
    ]
    out, err = started[0].communicate()
    for process in started[1:]:
        process.wait()
    took = time.perf_counter() - begin
    return took, max(float(file.read_text()) for file in told), (started[0].returncode, out, err)


def timed_phase(command):
    """A run of the baseline: its seconds, those of its simulation, and its outcome."""
    took, (status, out, err) = timed([*command, "--time"])
    return took, float(re.search(rb"simulate +([0-9.]+) ms", err)[1]) / 1000, (status, out, b"")


class Series(NamedTuple):
    """The least of each over all rounds, by program and number of workers."""
    whole: dict
    phase: dict
    spent: dict

    def add(self, key, whole, phase, spent):
        for table, value in ((self.whole, whole), (self.phase, phase), (self.spent, spent)):
            table[key] = min(value, table.get(key, value))


def compare_workers(folder, baseline, case, options):
    words = words_of(folder, case, options.model)
    library = folder / "threads.so"
    run(["gcc", "-O1", "-shared", "-fPIC", str(HERE / "threads.c"), "-o", str(library)])
    ways = {"ours": [str(PROGRAM), *words], "by events": [str(baseline), *words]}
    ways["by regions"] = [*ways["by events"], *REGIONS]
    series = Series({}, {}, {})
    for _ in range(options.rounds):
        for workers in WORKERS:
            outs = []
            for way, command in ways.items():
                before = processor_time()
                command = [*command, "--workers", str(workers)]
                took, phase, out = timed_threads(library, [command]) if way == "ours" else timed_phase(command)
                series.add((way, workers), took, phase, processor_time() - before)
                outs.append(out)
            if outs.count(outs[0]) != len(outs):
                sys.exit(f"{case.title}: the reports differ")
            took, phase, _ = timed_threads(library, [[*ways["ours"], "--workers", "1"]] * workers)
            series.add(("at once", workers), took, phase, 0)
    print(f"{case.name}, {case.title}")
    for workers in WORKERS:
        print(line_of(series, ways, workers, options.processor), flush=True)


def line_of(series, ways, workers, processor):
    """What the runs with so many workers took, beside each other and beside those with one."""
    whole, phase, spent = series
    took = spent if processor else whole
    ratios = [f"{took['ours', workers] / took[way, workers]:.2f} {way}" for way in ways if way != "ours"]
    line = f"  {workers} workers: {', '.join(ratios)}"
    for way in ways:
        line += f"; {way} {whole[way, 1] / whole[way, workers]:.2f} times as fast as with 1"
        # shorter ones sway too much
        if phase[way, 1] > 0.02:
            line += f", the simulation {phase[way, 1] / phase[way, workers]:.2f}"
        line += f", for {spent[way, workers] / max(spent[way, 1], 1e-3):.2f} of its processor time"
    if phase["ours", 1] > 0.02:
        at_once = workers * phase["ours", 1] / phase["at once", workers]
        line += f"; {workers} simulations at once of one worker each {at_once:.2f}"
    return line


def count(folder, baseline, case, options):
    words = [str(baseline), *words_of(folder, case, options.model), "--workers", "1", "--time"]
    counts = []
    for more in ([], REGIONS, PACKS):
        told = subprocess.run([*words, *more], stdout=subprocess.DEVNULL, stderr=subprocess.PIPE, text=True)
        if told.returncode != 0:
            return print(f"{case.name}, {case.title}: {told.stderr.splitlines()[-1]}", flush=True)
        counts.append(int(re.search(r"gate evaluations ([0-9]+)", told.stderr)[1]))
    events, regions, packs = counts
    parts = f"{regions / events:.3f} of it by regions, {packs / events:.3f} by packs"
    print(f"{case.name}, {case.title}: {events:,} by events, {parts}", flush=True)


def least_times(ways, options):
    """The least time of each way, and what each printed the last time."""
    least, outs = {}, {}
    for _ in range(options.rounds):
        for way, command in ways.items():
            before = processor_time()
            took, outs[way] = timed(command)
            took = processor_time() - before if options.processor else took
            least[way] = min(took, least.get(way, took))
    return least, outs


def compare_detections(folder, case, options):
    words = [it for it in words_of(folder, case, options.model) if it != "--list"]
    plain = [str(PROGRAM), *words, "--workers", "1"]
    ways = {0: plain} | {most: [*plain, "--detections", str(most)] for most in DETECTIONS}
    least, outs = least_times(ways, options)
    if outs[0] != outs[1] or outs[0][0] != 0:
        sys.exit(f"{case.title}: the reports differ")
    ratios = ", ".join(f"{least[most] / least[0]:.1f} with {most}" for most in DETECTIONS)
    print(f"{case.name}, {case.title}: {ratios}", flush=True)


def compare_compactions(folder, case, options):
    inputs = words_of(folder, case, options.model)[1:5]
    ways = {"run": [str(PROGRAM), "run", *inputs, "--workers", "1"]}
    for name, words in COMPACTIONS.items():
        for workers in ("1", "4"):
            ways[name, workers] = [str(PROGRAM), "compact", *inputs, *words, "--workers", workers]
    least, outs = least_times(ways, options)
    if any(status for status, _, _ in outs.values()):
        sys.exit(f"{case.title}: a command failed")
    if any(outs[name, "1"][1] != outs[name, "4"][1] for name in COMPACTIONS):
        sys.exit(f"{case.title}: other tests are kept with four workers")
    ratios = {way: took / least["run"] for way, took in least.items()}
    parts = [f"{name} {ratios[name, '1']:.1f} and {ratios[name, '4']:.1f}" for name in COMPACTIONS]
    print(f"{case.name}, {case.title}: {', '.join(parts)}", flush=True)


def processor_time():
    used = resource.getrusage(resource.RUSAGE_CHILDREN)
    return used.ru_utime + used.ru_stime


def main():
    parser = argparse.ArgumentParser(description=__doc__, formatter_class=argparse.RawDescriptionHelpFormatter)
    parser.add_argument("--rounds", type=int, default=5)
    parser.add_argument("--only", default="")
    parser.add_argument("--model", choices=("stuck", "transition", "transition-pairs"), default="stuck")
    parser.add_argument("--hard", action="store_true")
    parser.add_argument("--workers", action="store_true")
    parser.add_argument("--counts", action="store_true")
    parser.add_argument("--detections", action="store_true")
    parser.add_argument("--compactions", action="store_true")
    parser.add_argument("--designs", action="store_true")
    parser.add_argument("--processor", action="store_true")
    parser.add_argument("--built", action="store_true")
    parser.add_argument("--program", type=pathlib.Path, default=None)
    options = parser.parse_args()
    if options.program:
        global PROGRAM
        PROGRAM, options.built = options.program.resolve(), True
    cases = CASES + HARD_CASES + DESIGN_CASES
    if options.designs and not options.only:
        cases = DESIGN_CASES
    elif options.workers and not options.only:
        cases = [case for case in cases if case.name in WORKER_CASES]
    elif (options.detections or options.compactions) and not options.only:
        cases = [case for case in cases if case.name in GOAL_CASES]
    elif not options.counts and not options.only:
        cases = HARD_CASES if options.hard else CASES
    alone = options.detections or options.compactions
    if options.workers or options.counts or alone:
        cases = [case for case in cases if case.tests]
    with tempfile.TemporaryDirectory() as name:
        folder = pathlib.Path(name)
        if options.counts:
            baseline = build_baseline(folder)
        elif not alone or not options.built:
            baseline = build(folder, options.built)
        for case in chosen(cases, options.only):
            if options.counts:
                count(folder, baseline, case, options)
            elif options.workers:
                compare_workers(folder, baseline, case, options)
            elif options.detections:
                compare_detections(folder, case, options)
            elif options.compactions:
                compare_compactions(folder, case, options)
            else:
                # a look at whole blocks takes up to ten times as long, and hard cases are long already
                compare(folder, baseline, case, options, whole_blocks=case in CASES)


if __name__ == "__main__":
    main()
