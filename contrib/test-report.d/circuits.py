"""The circuits of the test, with tests, pages, and what faultsim prints."""

import lzma
import os
import random
import re
import subprocess
import sys

HERE = os.path.dirname(os.path.realpath(__file__))
BENCH = f"{HERE}/../../bench"
MODELS = ("stuck", "transition", "transition-pairs")
ALL_MODELS = ("c17", "odd", "random")   # the circuits that are tried under each model
MOST = "4"                      # --detections of the pages
LISTED = "[...faultGrid.list].map((f) => report.faults.text(f))"
DEEP = ".".join("abcdefghij" * 10)
WIDE = ",".join(f"w[{at}]" for at in range(60))
# Names that HTML, CSV and a link can take for something else; a name that INPUT and OUTPUT lines
# have; several OUTPUT lines of a signal; pins that read a signal twice; a flip-flop of a flip-flop;
# logic without an output; a name of a hundred parts; a line that ends in CR LF; a comment that
# isn't ASCII.
ODD = f"""# odd.bench
input( a ) # a
INPUT(u1.b[0])
INPUT(u1.b[1])
INPUT(</script><b>"x")
INPUT(unread)
OUTPUT(a)
OUTPUT(n10)\r
OUTPUT(z)	# a comment, \xe9
 OUTPUT(z)
Output(q&amp;2)
\tq&amp;2 =DFF(u2.q[10])
u2.q[10] = dff(n7)
n7 = nand( a,u1.b[0] , u1.b[0])
n8=XNOR(n7,</script><b>"x",a)
n9 = bUf(n8)
n10 = NOT(n9)
_12_ = NOR(u1.b[1],u1.b[1])
u1.u3._13_ = OR(_12_,n10)
dead = XOR(n9,n7)
u1.u3.w = buff(u1.u3._13_)
z = AND(u1.u3.w, n9)
INPUT(input)
u1.+plus = AND(input)
OUTPUT(u1.+plus)
{DEEP} = XOR(a, u1.b[1])
OUTPUT({DEEP})
"""
# A gate of sixty pins, and a circuit with more tests than faults.
MANY_PINS = "".join(f"INPUT(w[{at}])\n" for at in range(60)) + f"OUTPUT(all)\nall = AND({WIDE})\n"


class Different(Exception):
    """The page and faultsim differ."""


def same(shown, wanted, what):
    """Fails if two things differ, with the first difference of two lists."""
    if shown == wanted:
        return
    pairs = iter(())
    if isinstance(shown, list) and isinstance(wanted, list):
        pairs = ((a, b) for a, b in zip(shown, wanted) if a != b)
    raise Different(f"{what}: {next(pairs, (shown, wanted))!r}"[:600])


def put(path, text):
    """Writes a file."""
    with open(path, "w", encoding="utf-8") as file:
        file.write(text)


def generated(*words):
    """What bench/generate.py prints."""
    words = [sys.executable, f"{BENCH}/generate.py", *words]
    return subprocess.run(words, check=True, stdout=subprocess.PIPE, text=True).stdout


def design(name):
    """A bench file of bench/designs."""
    with lzma.open(f"{BENCH}/designs/{name}.bench.xz", "rt", encoding="ascii") as file:
        return file.read()


def random_tests(width, count, seed=1):
    """Random tests, each with a comment."""
    rows = random.Random(seed)
    return "".join(f" {rows.getrandbits(width):0{width}b} # {at}\n" for at in range(count))


def tests_of(name, bench, count):
    """Random tests of a circuit."""
    put(f"{name}.bench", bench)
    return generated("tests", "--bench", f"{name}.bench", "--count", str(count))


def texts():
    """The circuits that are compared, each with its tests."""
    c17 = generated("c17")
    cell = generated("random", "--gates", "300", "--inputs", "9", "--outputs", "7", "--ffs", "20",
                     "--depth", "9")
    uart = design("simpleuart")
    return {
        # (tests that detect nothing new come first: the first tests go up to 70, faults to 33)
        "c17": (c17, "00000\n" * 60 + random_tests(5, 12)),
        "odd": (ODD, random_tests(8, 70)),
        "one": ("INPUT(a)\n", ""),
        "s27": (generated("s27"), random_tests(7, 9)),
        "mult": (generated("mult", "4"), random_tests(8, 33)),
        "random": (cell, random_tests(29, 100)),
        "simpleuart": (uart, tests_of("simpleuart", uart, 1000)),
    }


def statements(bench):
    """The inputs, the observed signals, and the kind and pins that drive each other signal."""
    inputs, outs, drivers = [], [], {}
    for line in bench.splitlines():
        line = line.partition("#")[0].replace(" ", "").replace("\t", "")
        if "=" in line:
            name, kind, pins = re.fullmatch(r"(.*)=(\w+)\((.*)\)", line).groups()
            drivers[name] = kind.upper(), pins.split(",")
        elif line:
            is_out = line.upper().startswith("OUTPUT(")
            (outs if is_out else inputs).append(line[line.index("(") + 1:-1])
    return inputs, outs, drivers


class Case:
    """A circuit with tests, its page, and what faultsim prints."""

    def __init__(self, tools, name, model="stuck", options=()):
        self.tools, self.model, self.name = tools, model, f"{name} {model}"
        self.bench, self.tests = f"{name}.bench", f"{name}.tests"
        self.page = f"{name}-{model}.html"
        ran = self.make(self.page, "--detections", MOST, *options)
        same((ran.returncode, ran.stderr, ran.stdout), (0, "", ""), f"{self.name}: status")

    @staticmethod
    def of(tools, name, bench, tests, options=()):
        """A circuit and tests that are given, under stuck-at faults."""
        put(f"{name}.bench", bench)
        put(f"{name}.tests", tests)
        return Case(tools, name, options=options)

    def make(self, page, *options):
        """Runs contrib/report."""
        words = [self.tools.report, "-b", self.bench, "-t", self.tests, "-m", self.model,
                 "-o", page, "--faultsim", self.tools.faultsim, *options]
        return subprocess.run(words, check=False, capture_output=True, text=True)

    def lines(self, command, *options, tests=True, model=True):
        """The lines that faultsim prints."""
        words = [self.tools.faultsim, command, "--bench", self.bench, *options]
        words += ["--tests", self.tests] if tests is True else ["--tests", tests] if tests else []
        words += ["--model", self.model] if model else []
        ran = subprocess.run(words, check=True, stdout=subprocess.PIPE, text=True)
        return ran.stdout.splitlines()
