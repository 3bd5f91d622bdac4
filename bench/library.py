#!/usr/bin/env python3
"""Times the library for C from Python beside the program, and compares what both find.

usage: bench/library.py [--circuit NAME] [--tests N] [--rounds N] [--program FILE]
       bench/library.py --compare [cases | designs] [--quick] [--program FILE]
       bench/library.py --generators [--program FILE]

It needs out/libfaultsim.so (contrib/build-library) and the program out/faultsim (contrib/build), or
another one by --program. Without --compare and --generators it times, and prints the least of the
rounds for each time.

  --circuit NAME  the circuit: s38417 (22,179 random gates in its shape, the default), or one of
                  designs/, such as picorv32
  --tests N       the number of random tests (4,096)
  --compare       compares with what the program writes, under each model: the report with all
                  faults, the name of each fault, its first test and how many tests detect it, up to
                  three. `cases`: on each circuit of cases/, with the tests of the cases and with 70
                  random ones; a file that the program rejects must be rejected at the same line.
                  `designs`: on picorv32 with 256 random tests. Both, if neither is named. The
                  counts of all blocks must be the detections, and a complemented signal is seen if
                  a fault of its stem is detected
  --quick         leaves out tests of cases/ that take many seconds: over 500,000 faults times tests
  --generators    times the random test generator of each language, and faultgen beside them

Status: 0, or 1 if the library finds something else than the program.
"""

import argparse
import importlib.machinery
import importlib.util
import lzma
import os
import random
import re
import resource
import shutil
import subprocess
import sys
import tempfile
import time

ROOT = os.path.dirname(os.path.dirname(os.path.realpath(__file__)))
sys.dont_write_bytecode = True
sys.path.insert(0, f"{ROOT}/bindings/python/src")
import faultsim  # noqa: E402

# Faults times tests of a comparison that is quick.
QUICK = 500_000
SHAPE = "random --gates 22179 --inputs 28 --outputs 106 --ffs 1636 --depth 47".split()
MODELS = {"stuck": 0, "transition": 1, "transition-pairs": 2}
# The names of columns, which the program compares and the library doesn't.
COLUMNS = re.compile(rb"#[ \t]*columns:[^\n]*")


def generated(*words):
    """What bench/generate.py writes."""
    command = [sys.executable, f"{ROOT}/bench/generate.py", *words]
    return subprocess.run(command, stdout=subprocess.PIPE, check=True).stdout


def written(folder, name, text):
    """Writes a file, and returns its path."""
    with open(f"{folder}/{name}", "wb") as it:
        it.write(text)
    return f"{folder}/{name}"


def text_of(path):
    with open(path, "rb") as it:
        return it.read()


def circuit_of(name):
    """The bench text of a circuit."""
    if name == "s38417":
        return generated(*SHAPE)
    with lzma.open(f"{ROOT}/bench/designs/{name}.bench.xz") as it:
        return it.read()


def inputs(folder, bench, count):
    """Writes a circuit and tests for it, and returns their paths."""
    path = written(folder, "a.bench", bench)
    tests = generated("tests", "--bench", path, "--count", str(count))
    return path, written(folder, "a.tests", tests)


def seconds(call):
    """The seconds that a call takes, and what it returns."""
    begin = time.perf_counter()
    result = call()
    return time.perf_counter() - begin, result


def timed(program, paths, rounds):
    """Prints the least times of the rounds."""
    steps = {}

    def keep(name, call):
        took, result = seconds(call)
        steps[name] = min(took, steps.get(name, took))
        return result

    command = [program, "run", "--workers", "1", "--bench", paths[0], "--tests", paths[1]]
    for _ in range(rounds):
        bench, tests = text_of(paths[0]), text_of(paths[1])
        with keep("read", lambda: faultsim.Job(bench)) as job:
            keep("set_tests", lambda: job.set_tests(tests))
            wanted = keep("simulate", job.simulate)
            first = keep("simulate, 4 threads, first call", lambda: job.simulate(workers=4))
            again = keep("simulate, 4 threads", lambda: job.simulate(workers=4))
            keep("share", job.share).close()
            if not list(wanted) == list(first) == list(again):
                return 1
        keep("faultsim run", lambda: subprocess.run(command, stdout=subprocess.PIPE, check=True))
    for name, took in steps.items():
        print(f"{name:31} {took:8.4f} s")
    three = steps["read"] + steps["set_tests"] + steps["simulate"]
    print(f"read, set and simulate / faultsim run: {three / steps['faultsim run']:.2f}")
    print(f"1 thread / 4 threads: {steps['simulate'] / steps['simulate, 4 threads']:.2f}")
    return 0


def report_of(program, paths, model, *more):
    """The report with a line for each fault that the program writes."""
    command = [program, "run", "--list", "--model", model, "--bench", paths[0], "--tests", paths[1]]
    return subprocess.run([*command, *more], stdout=subprocess.PIPE, check=True, text=True).stdout


def lines_of(report):
    """The lines of faults in a report, each as a name and what is said of it."""
    return [tuple(line.rsplit(" ", 1)) for line in report.splitlines()[:-1]]


def are_counts_of_blocks(job, counts, most):
    """Whether the counts of all tests are those of the blocks together, by fs_count and by the bits
    of fs_lanes."""
    added, ones = [0] * job.classes, [0] * job.classes
    for block in range(job.blocks):
        added = job.count(block, most, added)
        ones = [it + bin(int(word)).count("1") for it, word in zip(ones, job.lanes(block))]
    wanted = [int(it) for it in counts]
    return [int(it) for it in added] == wanted and [min(it, most) for it in ones] == wanted


def are_observed(job):
    """Whether the tests that show a complemented signal are those that detect one of the two
    stuck-at faults of its stem."""
    of, sites = job.classes_of(), [int(it) for row in job.sites_of() for it in flat(row)]
    for block in range(job.blocks):
        lanes, wanted = job.lanes(block), [0] * job.signals
        for fault in range(job.faults):
            kind, signal = sites[4 * fault : 4 * fault + 2]
            if kind == faultsim.LineKind.STEM:
                wanted[signal] |= int(lanes[int(of[fault])])
        if [int(it) for it in job.observed(block)] != wanted:
            return False
    return True


def flat(row):
    """The numbers of a row of numpy's, or a number."""
    return row if hasattr(row, "__len__") else [row]


def is_same(program, paths, model, number):
    """Whether the report, names, first tests and detections are those that the program writes, and
    how many faults there are. The calls on one block have to agree with them."""
    with faultsim.Job(text_of(paths[0]), number) as job:
        job.set_tests(text_of(paths[1]))
        firsts = [
            (name, "none" if it is None else str(it)) for name, it in job.first_tests(4).items()
        ]
        counts, of = job.detections(3), job.classes_of()
        counted = [(name, str(int(counts[int(of[at])]))) for at, (name, _) in enumerate(firsts)]
        report = report_of(program, paths, model)
        same = job.report(faultsim.Lines.ALL) == report and firsts == lines_of(report)
        same &= counted == lines_of(report_of(program, paths, model, "--detections", "3"))
        of_blocks = are_counts_of_blocks(job, counts, 3)
        observed = number != faultsim.Model.STUCK_AT or are_observed(job)
        return same and of_blocks and observed, job.faults


def is_refused_alike(program, paths, error):
    """Whether the program refuses a text, and names the line that the library names."""
    command = [program, "run", "--bench", paths[0], "--tests", paths[1]]
    done = subprocess.run(command, stdout=subprocess.PIPE, stderr=subprocess.PIPE, check=False)
    line = re.search(rb"line (\d+):", done.stderr)
    return done.returncode == 1 and (int(line[1]) if line else 0) == error.place


def read_cases():
    """The circuits of cases/, each with the tests of its cases."""
    loader = importlib.machinery.SourceFileLoader("cases", f"{ROOT}/contrib/cases")
    cases = importlib.util.module_from_spec(importlib.util.spec_from_loader("cases", loader))
    sys.modules["cases"] = cases
    loader.exec_module(cases)
    common = {it: text_of(f"{ROOT}/cases/files/{it}") for it in os.listdir(f"{ROOT}/cases/files")}
    found = {}
    for theme in sorted(os.listdir(f"{ROOT}/cases")):
        if theme.endswith(".txt"):
            for files, steps, _ in cases.read(theme.removesuffix(".txt")).values():
                for step in steps:
                    named = re.findall(r"--(bench|tests) (\S+)", step.line)
                    texts = {option: (common | files).get(name) for option, name in named}
                    if texts.get("bench") is not None:
                        found.setdefault(texts["bench"], set()).add(texts.get("tests"))
    return found


def compared_on(program, folder, bench, tests, most):
    """The faults that are the same, and what differs, on a circuit with some texts of tests, of
    which those with more faults times tests than the most are left out. A text that is refused
    counts as none."""
    try:
        job = faultsim.Job(bench)
    except faultsim.Error as error:
        paths = written(folder, "a.bench", bench), written(folder, "a.tests", b"")
        return 0, [] if is_refused_alike(program, paths, error) else [f"refused: {error}"]
    with job:
        bits = random.Random(1)
        rows = (bits.choices("01", k=job.sources) for _ in range(70))
        named = [COLUMNS.sub(b"#", it) for it in sorted(tests - {None})]
        texts = [*named, "".join(f"{''.join(it)}\n" for it in rows).encode()]
        count, differ = 0, []
        for text in texts:
            paths = written(folder, "a.bench", bench), written(folder, "a.tests", text)
            try:
                job.set_tests(text)
            except faultsim.Error as error:
                if not is_refused_alike(program, paths, error):
                    differ.append(f"tests refused: {error}")
                continue
            for model, number in MODELS.items() if job.faults * job.tests <= most else ():
                same, faults = is_same(program, paths, model, number)
                count += faults
                differ += [] if same else [model]
    return count, differ


def compared(program, which, most):
    """Compares the library with the program under each model."""
    status = 0
    with tempfile.TemporaryDirectory() as folder:
        if which in ("cases", "all"):
            circuits, total = read_cases(), 0
            for at, (bench, tests) in enumerate(sorted(circuits.items())):
                count, differ = compared_on(program, folder, bench, tests, most)
                total += count
                for it in differ:
                    status = 1
                    print(f"DIFFERENT: {it}, circuit {at}: {bench[:60]!r}")
            print(f"{len(circuits)} circuits of cases/: {total} faults", end=", ")
            print("DIFFERENT" if status else "the same")
        if which in ("designs", "all"):
            paths = inputs(folder, circuit_of("picorv32"), 256)
            for model, number in MODELS.items():
                same, faults = is_same(program, paths, model, number)
                status |= not same
                print(f"picorv32, {model}: {faults} faults, {'the same' if same else 'DIFFERENT'}")
    return status


def built(folder):
    """The command lines of the generators of all languages that can be built here."""
    found = {"C": f"{folder}/c", "C++": f"{folder}/cpp"}
    found["Rust"] = f"{folder}/target/release/examples/generator"
    flags = ["-O2", f"-I{ROOT}/include", f"-I{ROOT}/bindings/cpp"]
    c = ["cc", *flags, f"{ROOT}/bindings/c/generator.c"]
    cpp = ["c++", "-std=c++20", *flags, f"{ROOT}/bindings/cpp/generator.cpp"]
    for language, words in (("C", c), ("C++", cpp)):
        subprocess.run([*words, f"{ROOT}/out/libfaultsim.a", "-o", found[language]], check=True)
    if shutil.which("cargo"):
        subprocess.run(
            ["cargo", "build", "--quiet", "--release", "--offline", "--example", "generator"]
            + ["--manifest-path", f"{ROOT}/bindings/rust/Cargo.toml"],
            env=os.environ
            | {"CARGO_TARGET_DIR": f"{folder}/target", "FAULTSIM_LIB": f"{ROOT}/out"},
            check=True,
        )
    else:
        del found["Rust"]
    lines = {language: [path] for language, path in found.items()}
    name = "Python with numpy" if faultsim.numpy is not None else "Python without numpy"
    lines[name] = [sys.executable, f"{ROOT}/bindings/python/examples/generator.py"]
    return lines


def generators(program):
    """Times the generators, each with the line that it writes on standard error."""
    paths = {"PYTHONPATH": f"{ROOT}/bindings/python/src", "PYTHONDONTWRITEBYTECODE": "1"}
    with tempfile.TemporaryDirectory() as folder:
        lines = built(folder)
        faultgen = os.path.join(os.path.dirname(program), "faultgen")
        if os.path.exists(faultgen):
            lines["faultgen"] = [faultgen, "--workers", "1", "--bench"]
        for name, words in (("mult16", ["mult", "16"]), ("s38417", SHAPE)):
            bench = written(folder, f"{name}.bench", generated(*words))
            for language, line in lines.items():
                was = resource.getrusage(resource.RUSAGE_CHILDREN)
                took, done = seconds(
                    lambda: subprocess.run(
                        [*line, bench],
                        stdout=subprocess.PIPE,
                        stderr=subprocess.PIPE,
                        check=True,
                        env=os.environ | paths,
                        text=True,
                    )
                )
                now = resource.getrusage(resource.RUSAGE_CHILDREN)
                busy = now.ru_utime - was.ru_utime + now.ru_stime - was.ru_stime
                said = (done.stderr.strip().splitlines() or [""])[-1]
                print(f"{name} {language:20} {took:7.2f} s, {busy:7.2f} s busy  {said}")
    return 0


def main():
    parser = argparse.ArgumentParser(usage=__doc__.partition("usage: ")[2])
    parser.add_argument("--rounds", type=int, default=5)
    parser.add_argument("--tests", type=int, default=4096)
    parser.add_argument("--circuit", default="s38417")
    parser.add_argument("--program", default=f"{ROOT}/out/faultsim")
    parser.add_argument("--compare", nargs="?", const="all", choices=("all", "cases", "designs"))
    parser.add_argument("--quick", action="store_true")
    parser.add_argument("--generators", action="store_true")
    words = parser.parse_args()
    if words.compare:
        return compared(words.program, words.compare, QUICK if words.quick else float("inf"))
    if words.generators:
        return generators(words.program)
    with tempfile.TemporaryDirectory() as folder:
        paths = inputs(folder, circuit_of(words.circuit), words.tests)
        return timed(words.program, paths, words.rounds)


if __name__ == "__main__":
    sys.exit(main())
