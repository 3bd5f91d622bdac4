"""Calls faultsim, and reads what it prints."""

import array
import csv
import json
import os
import shutil
import subprocess
import sys
import tempfile

HERE = os.path.dirname(os.path.realpath(__file__))
REASONS = {"no path": 0, "not activated": 1, "not observed": 2}
WRONG_CALL = 2                  # the status of faultsim for an option that it doesn't have


class Failed(Exception):
    """The words of an error, and the status with which the program ends."""

    def __init__(self, words, status):
        super().__init__(words)
        self.status = status


def program_of(given):
    """The path of faultsim: the one given, the checkout's, the one beside, or the one of PATH."""
    beside = os.path.join(os.path.dirname(os.path.abspath(sys.argv[0])), "faultsim")
    built = [it for it in (f"{HERE}/../../out/faultsim", beside) if os.path.exists(it)]
    wanted = given or os.environ.get("FAULTSIM") or (built or ["faultsim"])[0]
    found = shutil.which(wanted)
    if not found:
        raise Failed(f"report: there is no program {wanted}", 3)
    return found


def call(words):
    """The lines that a command prints, one by one; its error is the error of this program, too."""
    with tempfile.TemporaryFile() as errors:
        how = {"stdout": subprocess.PIPE, "stderr": errors, "encoding": "utf-8"}
        with subprocess.Popen(words, **how) as ran:
            yield from (line[:-1] for line in ran.stdout)
        if ran.returncode:
            errors.seek(0)
            text = errors.read().decode(errors="replace").strip()
            if ran.returncode < 0:
                text = f"{text}\nreport: {words[0]} ended by signal {-ran.returncode}".strip()
            raise Failed(text, ran.returncode if ran.returncode > 0 else 3)


def version_of(program):
    """The line that names the version of faultsim."""
    return "".join(f"{line}\n" for line in call([program, "--version"]))


def rows(words):
    """The rows of a table that a command prints as CSV, without its heading."""
    reader = csv.reader(call(words))
    next(reader, None)
    return reader


def line_text(row):
    """The line of a fault as a report has it, of the cells kind, name and pin."""
    kind, name, pin = row[:3]
    return f"out {pin}" if kind == "out" else f"pin {name} {pin}" if kind == "pin" \
        else f"{kind} {name}"


class Results:
    """What faultsim reports: columns of numbers, sums and warnings, and with `lines` the lines."""

    def __init__(self, given, program, lines):
        model = ["--model", given.model]
        self.runs = ["--parts", "auto"]
        self.runs += ["--workers", given.workers] if given.workers else []
        self.inputs = ["--bench", given.bench, "--tests", given.tests, *model]
        self.program, self.lines_of = program, [] if lines else None
        self.warnings = self.read_check()["warnings"]
        self.read_table(given.detections)
        self.other = self.first_of(given.beside, model) if given.beside else None
        self.pins = self.read_blocking()

    def read_check(self):
        """The object of `check`, which ends this program if a file has an error."""
        words = [self.program, "check", *self.inputs, "--format", "json"]
        return json.loads("\n".join(call(words)))

    def read_table(self, most):
        """First tests, reasons, classes and counts of all faults, and the sums."""
        self.first, self.classes = array.array("I"), array.array("I")
        self.counts, self.reasons = array.array("B"), bytearray()
        with tempfile.TemporaryDirectory(prefix="report-") as room:
            options = ["--why", "--classes", "--format", "csv", "--summary", f"{room}/sums"]
            if most > 1:  # up to 1 the first tests are enough
                options += ["--detections", str(most)]
            for row in rows([self.program, "run", *self.inputs, *self.runs, *options]):
                self.read_row(row)
            with open(f"{room}/sums", encoding="utf-8") as file:
                self.sums = json.load(file)

    def read_row(self, row):
        """The row of a fault."""
        kind, name, pin, _, first, _, reason, *count, number = row
        if self.lines_of is not None and len(self.first) % 2 == 0:
            self.lines_of.append((line_text(row), kind, pin if kind == "out" else name))
        self.first.append(int(first) + 1 if first else 0)
        self.classes.append(int(number))
        self.counts.append(int(count[0]) if count else 1 if first else 0)
        if not first:
            self.reasons.append(REASONS[reason])

    def read_blocking(self):
        """The rows of the pins that block effects of undetected faults: gate, pin, net, value,
        faults and tests. None if this faultsim is too old for it."""
        words = ["run", *self.inputs, *self.runs, "--blocking", "--format", "csv"]
        try:
            return list(rows([self.program, *words]))
        except Failed as failure:
            if failure.status != WRONG_CALL:
                raise
            return None

    def first_of(self, tests, model):
        """The first of other tests that detect each fault, from 1, or 0."""
        inputs = ["--bench", self.inputs[1], "--tests", tests, *model]
        table = rows([self.program, "run", *inputs, *self.runs, "--format", "csv"])
        first = array.array("I", (int(row[4]) + 1 if row[4] else 0 for row in table))
        if len(first) != len(self.first):
            raise Failed("report: the other tests have other faults; has a file changed?", 1)
        return first
