"""The calls of bindings/cases.txt and their results."""

import ctypes
import pathlib
import unittest

import faultsim
from faultsim import _library

TABLE = pathlib.Path(__file__).resolve().parents[2] / "cases.txt"
MODELS = {
    "stuck": faultsim.Model.STUCK_AT,
    "transition": faultsim.Model.TRANSITION,
    "transition-pairs": faultsim.Model.TRANSITION_PAIRS,
}
CAN_REFUSE = hasattr(_library.library, "refuse_allocations")


def _joined(numbers):
    return " ".join(str(int(it)) for it in numbers)


def _tests(firsts):
    return " ".join("-" if int(it) == faultsim.NONE else str(int(it)) for it in firsts)


def _number(number):
    return "-" if number is None else str(number)


def _same(first, second):
    """The one result of two ways to call."""
    return first if first == second else f"{first} and {second}"


class Calls:
    """The jobs of a case, by their handles, and each call of the table as a method."""

    def __init__(self, texts):
        self.texts, self.jobs = texts, {}

    def close(self):
        for job in self.jobs.values():
            job.close()

    def _classes(self, words):
        return None if words == ["all"] else [int(it) for it in words]

    def _lanes(self, job, block):
        """The tests of a block as bits."""
        return (1 << min(64, job.tests - 64 * block)) - 1

    def read(self, handle, model, bench):
        self.jobs[handle] = faultsim.Job(self.texts[bench], MODELS[model])

    def share(self, handle, other):
        self.jobs[handle] = self.jobs[other].share()

    def free(self, handle):
        self.jobs.pop(handle).close()

    def set_text(self, handle, tests):
        self.jobs[handle].set_tests(self.texts[tests])

    def set_words(self, handle, count, *words):
        self.jobs[handle].set_tests([int(it, 16) for it in words], count=int(count))

    def next_words(self, handle, count, *words):
        given = [int(it, 16) for it in words]
        self.jobs[handle].set_tests(given, count=int(count), keep_last=True)

    def set_rows(self, handle, tests):
        """Takes rows as lists, and as an array of numpy, which must be the same tests."""
        job, rows = self.jobs[handle], [list(map(int, it)) for it in self.texts[tests].split()]
        job.set_tests(rows)
        if faultsim.numpy is not None:
            before = [[job.word(b, s) & self._lanes(job, b) for s in range(job.signals)]
                      for b in range(job.blocks)]
            job.set_tests(faultsim.numpy.array(rows))
            after = [[job.word(b, s) & self._lanes(job, b) for s in range(job.signals)]
                     for b in range(job.blocks)]
            return "" if before == after else "other tests by numpy"
        return ""

    def sizes(self, handle):
        job = self.jobs[handle]
        return _joined([job.sources, job.signals, job.faults, job.classes, job.tests, job.blocks])

    def names(self, handle):
        job = self.jobs[handle]
        return " ".join(job.name_of(it) for it in range(job.signals))

    def sources(self, handle):
        return " ".join(self.jobs[handle].source_names())

    def name_of(self, handle, signal):
        return self.jobs[handle].name_of(int(signal))

    def fault_name(self, handle, fault):
        return self.jobs[handle].fault_name(int(fault))

    def fault_names(self, handle):
        return ", ".join(self.jobs[handle].fault_names())

    def classes_of(self, handle):
        return _joined(self.jobs[handle].classes_of())

    def stems_of(self, handle):
        return _joined(self.jobs[handle].stems_of())

    def observers(self, handle):
        return _joined(self.jobs[handle].observers())

    def signal_named(self, handle, name):
        return _number(self.jobs[handle].signal_named(name))

    def kinds_of(self, handle):
        return _joined(faultsim.SignalKind(int(it)) for it in self.jobs[handle].kinds_of())

    def levels_of(self, handle):
        return _joined(self.jobs[handle].levels_of())

    def fan_ins_of(self, handle):
        starts, pins = self.jobs[handle].fan_ins_of()
        return f"{_joined(starts)}, {_joined(pins)}"

    def fan_outs_of(self, handle):
        starts, gates, pins = self.jobs[handle].fan_outs_of()
        return ", ".join([_joined(starts), *map(_joined, zip(gates, pins))])

    def sites_of(self, handle):
        sites = self.jobs[handle].sites_of()
        flat = list(sites if faultsim.numpy is None else sites.reshape(-1))
        return ", ".join(_joined(flat[at : at + 4]) for at in range(0, len(flat), 4))

    def fault_at(self, handle, *site):
        return _number(self.jobs[handle].fault_at(*map(int, site)))

    def values(self, handle, block):
        job = self.jobs[handle]
        words = job.values(int(block))
        return " ".join(f"{int(word) & self._lanes(job, int(block)):x}" for word in words)

    def word(self, handle, block, signal):
        job = self.jobs[handle]
        return f"{job.word(int(block), int(signal)) & self._lanes(job, int(block)):x}"

    def responses(self, handle):
        job = self.jobs[handle]
        observers, words = len(job.observers()), job.responses()
        flat = words if faultsim.numpy is None else words.reshape(-1)
        lanes = [self._lanes(job, at // observers) for at in range(len(flat))]
        return " ".join(f"{int(word) & lane:x}" for word, lane in zip(flat, lanes))

    def simulate(self, handle, *classes):
        asked = self._classes(list(classes))
        found = _tests(self.jobs[handle].simulate(asked))
        return _same(found, _tests(self.jobs[handle].simulate(asked, workers=3)))

    def observed(self, handle, block, *signals):
        words = self.jobs[handle].observed(int(block), self._classes(list(signals)))
        return " ".join(f"{int(word):x}" for word in words)

    def lanes(self, handle, block, *classes):
        words = self.jobs[handle].lanes(int(block), self._classes(list(classes)))
        return " ".join(f"{int(word):x}" for word in words)

    def count(self, handle, block, most, start, *classes):
        job, asked = self.jobs[handle], self._classes(list(classes))
        before = [int(start)] * (job.classes if asked is None else len(asked))
        after = job.count(int(block), int(most), before, asked)
        return _joined(after) if before == [int(start)] * len(before) else "other counts before"

    def detecting(self, handle, class_, block):
        return f"{self.jobs[handle].detecting(int(class_), int(block)):x}"

    def detections(self, handle, most, *classes):
        return _joined(self.jobs[handle].detections(int(most), self._classes(list(classes))))

    def report(self, handle, lines, classes):
        wanted = faultsim.Lines[lines.upper()]
        return self.jobs[handle].report(wanted, classes == "true").replace("\n", "/")

    def coverage(self, handle):
        job = self.jobs[handle]
        return _same("%d of %d" % job.coverage(), "%d of %d" % job.coverage(workers=2))

    def firsts(self, _, model, bench, tests):
        return _tests(faultsim.firsts(self.texts[bench], self.texts[tests], MODELS[model]))

    def version(self, _):
        return str(_library.library.fs_version())

    def error(self, _, kind, place):
        if int(kind) == 0:
            return _library.message(_library.REFUSED, _library.FsFault(0, int(place)))
        return str(faultsim.Error(int(kind), int(place)))

    def status(self, _, status):
        return _library.message(int(status))


def _result(calls, words):
    """What a call returns, or why it fails."""
    handle, name, *arguments = words
    try:
        return getattr(calls, name)(handle, *arguments) or ""
    except MemoryError as error:
        return "memory" if str(error) == _library.message(_library.MEMORY) else repr(error)
    except faultsim.Error as error:
        return f"refused {int(error.kind)} {error.place}"
    except IndexError:
        return "range"
    except RuntimeError:
        return "shared"


def _refused(calls, words):
    """The same, with each allocation of the library refused."""
    _library.library.refuse_allocations(ctypes.c_bool(True))
    try:
        return _result(calls, words)
    finally:
        _library.library.refuse_allocations(ctypes.c_bool(False))


def _read():
    """The texts by name, and the cases, each as a name and lines."""
    texts, cases, text = {}, [], None
    for line in TABLE.read_text(encoding="ascii").splitlines():
        if line.startswith("-- "):
            text = line[3:]
            texts[text] = ""
        elif line.startswith("== "):
            text = None
            cases.append((line[3:], []))
        elif line and not line.startswith("#") and text:
            texts[text] += line + "\n"
        elif line and not line.startswith("#"):
            cases[-1][1].append(line)
    return texts, cases


def _failure(calls, line):
    """What the call of a line returns if it isn't what stands there, or nothing."""
    call, _, wanted = line.partition(" =")
    words = call.split(" ")
    is_refused = words[0] == "refused"
    found = (_refused if is_refused else _result)(calls, words[is_refused:])
    return "" if found == wanted.removeprefix(" ") else f"{line}\n    is {found}"


class Table(unittest.TestCase):
    def test_calls_have_their_results(self):
        (texts, cases), failures = _read(), []
        for _, lines in cases:
            calls = Calls(texts)
            for line in lines:
                if CAN_REFUSE or not line.startswith("refused "):
                    failures.append(_failure(calls, line))
            calls.close()
        failed = [it for it in failures if it]
        self.assertGreater(len(failures), 100)
        if CAN_REFUSE:
            print(f"{len(failures)} calls, {len(failed)} failed")
        self.assertEqual("\n".join(failed), "")


if __name__ == "__main__":
    unittest.main()
