"""Fault simulation of combinational circuits and of circuits with full scan.

>>> import faultsim
>>> with faultsim.Job("INPUT(a)\\nINPUT(b)\\nOUTPUT(z)\\nz = AND(a, b)\\n") as job:
...     job.set_tests("11\\n01\\n")
...     job.coverage()
(5, 6)

Faults, classes, tests, blocks and sources are numbered from 0. Block `b` holds the tests `64 * b`
to `64 * b + 63`. Arrays are numpy's if numpy is there, and else `array.array`.
"""

from __future__ import annotations

import _thread
import ctypes
import enum
import operator
import os
import re
import threading
import weakref
from array import array
from collections import deque
from typing import TYPE_CHECKING, Any, Iterable, Optional, Sequence, Union

from . import _library
from ._library import NONE, Error, FsFault, FsJob, FsSite, FsSizes, Kind, check, library

try:
    import numpy
except ImportError:
    numpy = None  # type: ignore[assignment]

__all__ = [
    "NONE",
    "Error",
    "Job",
    "Kind",
    "LineKind",
    "Lines",
    "Model",
    "SignalKind",
    "firsts",
    "release",
]
__version__ = "0.3.0"

Text = Union[str, bytes]
# What `set_tests` takes: a text, rows of bits, or words. An array of numpy is iterable, too.
Tests = Union[Text, Iterable[Sequence[int]], Iterable[int]]
# What is no number of a list, though Python takes it for one.
_TRUTHS = (bool,) if numpy is None else (bool, numpy.bool_)
if TYPE_CHECKING:
    from numpy import uint32, uint64
    from numpy.typing import NDArray

    # What calls return: an array of numpy, or of the module `array` if numpy isn't there.
    Numbers = Union[NDArray[uint32], "array[int]"]
    Words = Union[NDArray[uint64], "array[int]"]
else:
    Numbers = Words = Any


class Model(enum.IntEnum):
    """A fault model.

    STUCK_AT: a line is stuck at 0 or at 1.
    TRANSITION: a line is slow to rise or to fall; each test is the capture test of the one before
    it.
    TRANSITION_PAIRS: the same; tests 2k and 2k + 1 are a launch/capture pair.
    """

    STUCK_AT = 0
    TRANSITION = 1
    TRANSITION_PAIRS = 2


class Lines(enum.IntEnum):
    """Which faults have a line in a report: none, all, or those that no test detects."""

    NONE = 0
    ALL = 1
    UNDETECTED = 2


class SignalKind(enum.IntEnum):
    """The kind of a signal: a primary input or scan cell, or the kind of its gate."""

    SOURCE = 0
    AND = 1
    NAND = 2
    OR = 3
    NOR = 4
    XOR = 5
    XNOR = 6
    NOT = 7
    BUFF = 8


class LineKind(enum.IntEnum):
    """The kind of a fault's line: the stem of a signal, a pin of a gate, the data pin of a
    flip-flop, or an OUTPUT line."""

    STEM = 0
    PIN = 1
    DATA = 2
    OUTPUT = 3


def _bytes(text: Text) -> bytes:
    if isinstance(text, str):
        return text.encode()
    if isinstance(text, (bytes, bytearray, memoryview)):
        return bytes(text)
    raise TypeError(f"a text is str or bytes, and not {type(text).__name__}")


def _number(value: int) -> int:
    """A number of 32 bits. ctypes would cut off the bits of a greater one."""
    number = operator.index(value)
    if not 0 <= number < 1 << 32:
        raise IndexError(f"{number} is out of range")
    return number


def _is_array(values: Any) -> bool:
    """Whether something is an array of numpy. One with masked items is an error."""
    if numpy is None or not isinstance(values, numpy.ndarray):
        return False
    if isinstance(values, numpy.ma.MaskedArray):
        raise TypeError("a masked array, and not one of numbers")
    return True


def _numbers(values: Iterable[int], code: str) -> Any:
    """Numbers in one piece of memory, of 32 bits ('I') or 64 bits ('Q')."""
    if _is_array(values):
        return _array_numbers(values, code)
    if not (isinstance(values, array) and values.typecode == code):
        values = values if isinstance(values, (range, array)) else list(values)
        if isinstance(values, list) and any(isinstance(it, _TRUTHS) for it in values):
            raise TypeError("a list of truth values, and not of numbers")
        try:
            values = array(code, values)
        except OverflowError as error:
            raise IndexError(f"a number of the list is out of range: {error}") from None
    if numpy is None:
        return values
    return numpy.array(values, {"I": numpy.uint32, "Q": numpy.uint64}[code])


def _array_numbers(values: Any, code: str) -> Any:
    """The same of a numpy array."""
    if values.ndim != 1:
        raise IndexError(f"an array of the shape {values.shape}, and not of one dimension")
    if values.size and values.dtype.kind not in "iu":
        raise TypeError(f"an array of {values.dtype}, and not of integers")
    bits = 32 if code == "I" else 64
    if values.size and not 0 <= int(values.min()) <= int(values.max()) < 1 << bits:
        raise IndexError("a number of the array is out of range")
    kind = {"I": numpy.uint32, "Q": numpy.uint64}[code]
    return numpy.require(values, kind, ["C", "A"])


def _room(count: int, code: str) -> Any:
    """Zeros, to be written by a call."""
    if numpy is not None:
        return numpy.zeros(count, {"I": numpy.uint32, "Q": numpy.uint64}[code])
    return array(code, bytes(count * (4 if code == "I" else 8)))


def _copied(values: Iterable[int]) -> Any:
    """Numbers of 32 bits in memory of their own, to be written by a call."""
    numbers = _numbers(values, "I")
    return numbers[:] if numpy is None else numpy.array(numbers)


_NOTHING = ctypes.c_uint64()


def _address(numbers: Any) -> int:
    """The address of the first number. It is never null, not even of an empty array."""
    if len(numbers) == 0:
        return ctypes.addressof(_NOTHING)
    return numbers.ctypes.data if numpy is not None else numbers.buffer_info()[0]


# Runs of whole regions into which all classes are cut. Of each 16 runs 11 go to a large share, one
# for each thread, and the others to small shares, so many for each thread.
RUNS, SMALL = 256, 3


def _share_of_run(workers: int) -> list[int]:
    """The share of each run. The large shares, which threads take first, have the lowest
    numbers."""
    large, small, shares = 0, 0, []
    for run in range(RUNS):
        if run % 16 < 11:
            shares.append(large % workers)
            large += 1
        else:
            shares.append(workers + small % (SMALL * workers))
            small += 1
    return shares


def _runs_of(stems: Any) -> Any:
    """The run of each class, by the stems of the classes."""
    count = len(stems)
    if numpy is not None:
        order = numpy.argsort(stems, kind="stable")
        by_stem = stems[order]
        begins = numpy.flatnonzero(numpy.diff(by_stem, prepend=by_stem[:1] + 1))
        region = numpy.zeros(count, numpy.int64)
        region[begins[1:]] = numpy.diff(begins)
        runs = numpy.zeros(count, numpy.uint16)
        runs[order] = numpy.cumsum(region) * RUNS // max(count, 1)
        return runs
    runs, begin, last = array("H", bytes(2 * count)), 0, None
    for at, class_ in enumerate(sorted(range(count), key=stems.__getitem__)):
        if stems[class_] != last:
            begin, last = at, stems[class_]
        runs[class_] = begin * RUNS // count
    return runs


def _words_of(rows: Sequence[Any], width: int) -> tuple[int, Any]:
    """The number of tests, and their words: for each block of 64 tests one for each source."""
    if any(len(row) != width for row in rows):
        raise IndexError(f"a test hasn't {width} bits")
    if any(bit not in (0, 1) for row in rows for bit in row):
        raise ValueError("a bit is neither 0 nor 1")
    words = []
    for first in range(0, len(rows), 64):
        block = rows[first : first + 64]
        for source in range(width):
            words.append(sum(int(row[source]) << lane for lane, row in enumerate(block)))
    return len(rows), _numbers(words, "Q")


def _packed(rows: Any, width: int) -> tuple[int, Any]:
    """The same of a numpy array of shape (tests, sources)."""
    if rows.ndim != 2 or rows.shape[1] != width:
        raise IndexError(f"the tests haven't the shape (tests, {width})")
    if rows.dtype.kind not in "biuf" or not ((rows == 0) | (rows == 1)).all():
        raise ValueError("a bit is neither 0 nor 1")
    count = rows.shape[0]
    bits = numpy.zeros((-(-count // 64) * 64, width), numpy.uint8)
    bits[:count] = rows
    lanes = bits.reshape(-1, 64, width).transpose(0, 2, 1)
    packed = numpy.packbits(lanes, axis=2, bitorder="little")
    return count, numpy.ascontiguousarray(packed).reshape(-1).view("<u8")


def _check_text(status: int, fault: FsFault, text: Text) -> None:
    """Raises the exception of a call that takes a text. It names a text that looks like the name of
    a file."""
    try:
        check(status, fault)
    except Error as error:
        raise Error(error.kind, error.place, _hint(text)) from None


def _hint(text: Text) -> str:
    """What an error says of a text that looks like the name of a file."""
    name = text if isinstance(text, str) else bytes(text).decode(errors="replace")
    exists = "\n" not in name and os.path.exists(name)
    if not exists and not re.fullmatch(r"[^\n(]*[./\\][^\n(]*", name):
        return ""
    kind = "is" if exists else "looks like"
    return f" ({name!r} {kind} the name of a file, and a job takes the text in it)"


def _begin(function: Any, arguments: Any, errors: list[BaseException]) -> Any:
    """Calls a function in another thread. Returns a lock that is released at its end; what it
    raises is put into a list. (A thread of `threading` may not start if a signal handler
    raises.)"""
    end = _thread.allocate_lock()
    end.acquire()

    def run() -> None:
        try:
            function(*arguments)
        except BaseException as error:
            errors.append(error)
        finally:
            end.release()

    _thread.start_new_thread(run, ())
    return end


# Each handle that may have a job, with its job. A signal handler that raises as a job is collected
# leaves a handle of no job.
_HANDLES: dict[int, Any] = {}
_HANDLES_LOCK = threading.RLock()


def _free_handles_of_no_job() -> None:
    with _HANDLES_LOCK:
        for key, (job, handle) in list(_HANDLES.items()):
            if job() is None:
                library.fs_job_free(handle)
                _HANDLES.pop(key, None)


class Job:
    """A circuit, its faults in classes, and tests.

    A job is also a context manager, which closes it. A call on a closed job raises `ValueError`,
    and a number out of range `IndexError`. Threads that call one job wait for each other; `share`
    makes another one for another thread. A job can't be copied.

    sources, signals, faults, classes, tests, blocks: how many of each the job has.
    """

    def __init__(self, bench: Text, model: int = Model.STUCK_AT) -> None:
        """Reads a bench file's text (not its path). Raises `Error` if it is wrong, with the line in
        `place`."""
        self.close()
        self._start()
        model, text, fault = _number(model), _bytes(bench), FsFault()
        _check_text(library.fs_job_read(model, text, len(text), self._handle, fault), fault, text)
        self._sizes()

    def _start(self) -> None:
        # A signal handler may call the job that its thread calls, between two calls of the library.
        self._handle, self._lock = FsJob(), threading.RLock()
        _HANDLES[id(self._handle)] = weakref.ref(self), self._handle
        # The jobs of the threads that have simulated.
        self._helpers: list[Job] = []
        # How often tests were taken.
        self._turn = 0
        # What depends on the circuit alone: all classes, their runs, and their shares by threads.
        self._whole: Any = None
        self._cuts: dict[int, list[Any]] = {}
        self._run_of: Any = None
        self._measure(FsSizes())

    def _call(self, function: Any, *arguments: Any) -> int:
        """Gives the handle to one call at a time."""
        with self._lock:
            return function(self._handle, *arguments)

    def _measure(self, sizes: FsSizes) -> None:
        self.sources: int = sizes.sources
        self.signals: int = sizes.signals
        self.faults: int = sizes.faults
        self.classes: int = sizes.classes
        self.tests: int = sizes.tests
        self.blocks: int = sizes.blocks

    def _sizes(self) -> None:
        sizes = FsSizes()
        check(self._call(library.fs_sizes_of, sizes))
        self._measure(sizes)

    def close(self) -> None:
        """Frees the job. A second call does nothing."""
        if hasattr(self, "_run_of"):
            with self._lock:
                self._free_helpers()
                self._call(library.fs_job_free)
                _HANDLES.pop(id(self._handle), None)

    def __reduce__(self) -> Any:
        raise TypeError("a job can't be copied; share makes another one")

    __del__ = close

    def __enter__(self) -> "Job":
        return self

    def __exit__(self, *_: object) -> None:
        self.close()

    def share(self) -> "Job":
        """Makes a second job of the same circuit, faults and tests, for another thread.

        While there are two, `set_tests` raises `RuntimeError`.
        """
        other = Job.__new__(Job)
        other._start()
        try:
            self._share_with(other)
        except BaseException:
            other.close()
            raise
        return other

    def _share_with(self, other: "Job") -> None:
        check(self._call(library.fs_job_share, other._handle))
        other._sizes()

    def set_tests(
        self, tests: Tests, count: Optional[int] = None, keep_last: bool = False
    ) -> None:
        """Takes tests in place of the job's.

        tests: a text with a line of 0s and 1s for each test; or rows of 0 and 1, of the shape
        (tests, sources), as a list or a numpy array; or, with `count`, words: for each block of 64
        tests one for each source, with bit k for test 64 * block + k, in one list or in a numpy
        array of the shape (blocks, sources).

        keep_last: the job's last test stays, as test 0 before the new ones, which are rows or
        words. So under `Model.TRANSITION` the pair of it and the first new test isn't lost. Under
        `Model.TRANSITION_PAIRS` leave it out: it would move the pairs by one test.

        Raises `Error` if a text or words are wrong, `IndexError` if rows have another width or an
        array another shape, `ValueError` if rows have another bit, and `RuntimeError` if `share`
        made another job that isn't closed.
        """
        if isinstance(tests, (str, bytes, bytearray, memoryview)):
            if count is not None or keep_last:
                raise TypeError("count and keep_last don't go with a text")
            text = _bytes(tests)
            self._take(library.fs_set_text, text, len(text), text=text)
        else:
            if count is not None:
                words = self._words(tests, _number(count))
            elif _is_array(tests):
                count, words = _packed(tests, self.sources)
            else:
                count, words = _words_of(list(tests), self.sources)
            call = library.fs_next_words if keep_last else library.fs_set_words
            self._take(call, _number(count), _address(words), len(words))

    def _words(self, words: Any, count: int) -> Any:
        """Words of so many tests, in one list."""
        if _is_array(words) and words.ndim != 1:
            shape = (-(-count // 64), self.sources)
            if words.shape != shape:
                raise IndexError(f"words of the shape {words.shape}, and not {shape}")
            words = words.reshape(-1)
        return _numbers(words, "Q")

    def _take(self, function: Any, *arguments: Any, text: Text = "") -> None:
        """Takes tests, perhaps of a text, by a function of the library, when no other call runs."""
        fault = FsFault()
        with self._lock:
            self._turn += 1
            self._free_helpers()
            status = self._call(function, *arguments, fault)
            if status == _library.SHARED:
                _free_handles_of_no_job()
                status = self._call(function, *arguments, fault)
            _check_text(status, fault, text)
            self._sizes()

    def classes_of(self) -> Numbers:
        """The class of each fault: an array of the shape (faults,)."""
        classes = _room(self.faults, "I")
        check(self._call(library.fs_classes_of, _address(classes), len(classes)))
        return classes

    def stems_of(self) -> Numbers:
        """The stem of each class, the signal at which its fanout-free region ends: an array of the
        shape (classes,)."""
        stems = _room(self.classes, "I")
        check(self._call(library.fs_stems_of, _address(stems), len(stems)))
        return stems

    def _text(self, function: Any, *numbers: Any) -> bytes:
        """Return the bytes of a call whose last argument gets their number."""
        wanted = ctypes.c_size_t()
        status = self._call(function, *numbers, b"", 0, wanted)
        if status != _library.RANGE or wanted.value == 0:
            check(status)
            return b""
        text = ctypes.create_string_buffer(wanted.value)
        check(self._call(function, *numbers, text, len(text), wanted))
        return text.raw

    def name_of(self, signal: int) -> str:
        """The name of a signal."""
        return self._text(library.fs_name_of, _number(signal)).decode()

    def fault_name(self, fault: int) -> str:
        """The name of a fault, as each line of `faultsim faults` begins: `stem G1 sa0`."""
        return self._text(library.fs_fault_text, _number(fault)).decode()

    def fault_names(self) -> list[str]:
        """The name of each fault, in the order of the faults."""
        return [self.fault_name(fault) for fault in range(self.faults)]

    def first_tests(self, workers: int = 1) -> dict[str, Optional[int]]:
        """For each fault by its name the first test that detects it, or `None`, in the order of the
        faults."""
        firsts, of = self.simulate(workers=workers), self.classes_of()
        found = (int(firsts[int(class_)]) for class_ in of)
        return {
            name: None if first == NONE else first
            for name, first in zip(self.fault_names(), found)
        }

    def source_names(self) -> list[str]:
        """The name of each source, in the order of the bits of a test."""
        names, place = [""] * self.sources, ctypes.c_uint32()
        for signal in range(self.signals):
            status = self._call(library.fs_source_of, signal, place)
            if status != _library.RANGE:
                check(status)
                names[place.value] = self.name_of(signal)
        return names

    def signal_named(self, name: Text) -> Optional[int]:
        """The signal of a name, or `None` if no signal has it."""
        text, signal = _bytes(name), ctypes.c_uint32()
        status = self._call(library.fs_signal_named, text, len(text), signal)
        if status == _library.RANGE:
            return None
        check(status)
        return signal.value

    def kinds_of(self) -> Numbers:
        """The kind of each signal, a number of `SignalKind`: an array of the shape (signals,)."""
        kinds = _room(self.signals, "I")
        check(self._call(library.fs_kinds_of, _address(kinds), len(kinds)))
        return kinds

    def levels_of(self) -> Numbers:
        """The level of each signal, 0 for a source, and for the signal of a gate one more than the
        greatest level of the signals that the gate reads: an array of the shape (signals,)."""
        levels = _room(self.signals, "I")
        check(self._call(library.fs_levels_of, _address(levels), len(levels)))
        return levels

    def fan_ins_of(self) -> tuple[Numbers, Numbers]:
        """The fan-in of each signal, the signals that the pins of its gate read: `starts`, an array
        of the shape (signals + 1,), and `pins`. Those of signal s are
        `pins[starts[s]:starts[s + 1]]`."""
        wanted, starts, pins = ctypes.c_size_t(), _room(self.signals + 1, "I"), _room(0, "I")
        for _ in range(2):
            arrays = _address(starts), len(starts), _address(pins), len(pins)
            status = self._call(library.fs_fan_ins_of, *arrays, wanted)
            if status != _library.RANGE or wanted.value == len(pins):
                break
            pins = _room(wanted.value, "I")
        check(status)
        return starts, pins

    def fan_outs_of(self) -> tuple[Numbers, Numbers, Numbers]:
        """The fan-out of each signal, the pins of gates that read it, by the number of the gate's
        signal and then by pin: `starts`, an array of the shape (signals + 1,), and for each pin the
        signal of its gate in `gates` and its number there in `pins`. Those of signal s are
        `gates[starts[s]:starts[s + 1]]` and `pins[starts[s]:starts[s + 1]]`."""
        wanted, starts, pins = ctypes.c_size_t(), _room(self.signals + 1, "I"), _room(0, "I")
        for _ in range(2):
            arrays = _address(starts), len(starts), _address(pins), len(pins) // 2
            status = self._call(library.fs_fan_outs_of, *arrays, wanted)
            if status != _library.RANGE or 2 * wanted.value == len(pins):
                break
            pins = _room(2 * wanted.value, "I")
        check(status)
        return starts, pins[0::2], pins[1::2]

    def sites_of(self) -> Numbers:
        """The site of each fault, as its kind (a number of `LineKind`), the number of its signal,
        gate, flip-flop or OUTPUT line, the pin of a gate, and the bit: an array of the shape
        (4 * faults,), or (faults, 4) with numpy."""
        sites = _room(4 * self.faults, "I")
        check(self._call(library.fs_sites_of, _address(sites), self.faults))
        return sites if numpy is None else sites.reshape(self.faults, 4)

    def fault_at(self, kind: int, at: int, pin: int, stuck: int) -> Optional[int]:
        """The fault of a site, or `None` if the circuit has no such fault. It looks at one fault
        after another: for many sites make a table from `sites_of`."""
        fault = ctypes.c_uint32()
        site = FsSite(_number(kind), _number(at), _number(pin), _number(stuck))
        status = self._call(library.fs_fault_at, site, fault)
        if status == _library.RANGE:
            return None
        check(status)
        return fault.value

    def values(self, block: int) -> Words:
        """The fault-free values of all signals in the tests of a block: an array of the shape
        (signals,). Bits past the last test may be 1."""
        words = _room(self.signals, "Q")
        check(self._call(library.fs_values, _number(block), _address(words), len(words)))
        return words

    def word(self, block: int, signal: int) -> int:
        """The fault-free value of a signal: bit k is that in test 64 * block + k. Bits past the
        last test may be 1."""
        word = ctypes.c_uint64()
        check(self._call(library.fs_word, _number(block), _number(signal), word))
        return word.value

    def observers(self) -> Numbers:
        """The signal of each observer, the OUTPUT lines and then the data pins of the flip-flops:
        an array of the shape (observers,)."""
        wanted, signals = ctypes.c_size_t(), _room(0, "I")
        for _ in range(2):
            status = self._call(library.fs_observers_of, _address(signals), len(signals), wanted)
            if status != _library.RANGE or wanted.value == len(signals):
                break
            signals = _room(wanted.value, "I")
        check(status)
        return signals

    def responses(self) -> Words:
        """The fault-free words of the observers, for each block one for each: an array of the shape
        (blocks * observers,), or (blocks, observers) with numpy. Bits past the last test may be
        1."""
        observers = len(self.observers())
        words = _room(self.blocks * observers, "Q")
        check(self._call(library.fs_responses, _address(words), len(words)))
        return words if numpy is None else words.reshape(self.blocks, observers)

    def report(self, lines: int = Lines.NONE, classes: bool = False) -> str:
        """The report that `faultsim run` writes: a line for each fault that `lines` asks for, the
        coverage, and with `classes` that of the classes."""
        return self._text(library.fs_report, _number(lines), classes).decode()

    def _all(self) -> Any:
        """All classes, in an array that is kept."""
        if self._whole is None:
            self._whole = _numbers(range(self.classes), "I")
        return self._whole

    def simulate(self, classes: Optional[Iterable[int]] = None, workers: int = 1) -> Numbers:
        """The first test that detects each class of a list, or of all: an array of the shape
        (classes,), with `NONE` for a class that no test detects.

        workers: the number of threads that simulate. Each but the caller's has a job of its own,
        which this one shares and keeps until `set_tests` or `close`. They take shares of whole
        regions, so that no two simulate one region, and each takes the next share when it is done
        with one.
        """
        asked = self._all() if classes is None else _numbers(classes, "I")
        found = _room(len(asked), "I")
        workers = max(1, min(workers, len(asked)))
        if workers == 1:
            self._simulate(asked, found)
        else:
            with self._lock:
                turn = self._turn
                shares = deque(self._cut(None if classes is None else asked, workers))
                try:
                    self._simulate_shares(asked, shares, found, workers)
                finally:
                    if turn != self._turn:
                        raise RuntimeError("a signal handler set other tests during the call")
        return found

    def _simulate_shares(self, asked: Any, shares: Any, found: Any, workers: int) -> None:
        """Simulates the shares of a list by this thread and others."""
        errors: list[BaseException] = []
        ends = [
            _begin(job._work, (asked, shares, found), errors)
            for job in self._helpers_for(workers - 1)
        ]
        self._work(asked, shares, found)
        for end in ends:
            end.acquire()
        for error in errors:
            raise error

    def _helpers_for(self, threads: int) -> list["Job"]:
        """Jobs of the same tests for other threads. A new one is kept before it shares the job, so
        that the next tests free it even if a signal handler raises."""
        jobs = [it for it in self._helpers if it._handle.live][:threads]
        while len(jobs) < threads:
            helper = Job.__new__(Job)
            helper._start()
            self._helpers.append(helper)
            self._share_with(helper)
            jobs.append(helper)
        return jobs

    def _free_helpers(self) -> None:
        for helper in list(self._helpers):
            helper.close()
        self._helpers.clear()

    def _work(self, asked: Any, shares: Any, found: Any) -> None:
        """Simulates one share after another, each the places of classes in a list."""
        while True:
            try:
                places = shares.popleft()
            except IndexError:
                return
            if numpy is not None:
                found[places] = self._part(asked[places])
            else:
                firsts = self._part(array("I", map(asked.__getitem__, places)))
                for at, first in zip(places, firsts):
                    found[at] = first

    def _cut(self, asked: Any, workers: int) -> list[Any]:
        """The shares of a list of classes, or of all. Those of all are kept."""
        if asked is not None:
            return self._shares(asked, workers)
        if workers not in self._cuts:
            self._cuts[workers] = self._shares(self._all(), workers)
        return self._cuts[workers]

    def _shares(self, asked: Any, workers: int) -> list[Any]:
        """The places of a list of classes in shares of whole regions, a large one and small ones
        for each thread. A share has regions from all over the circuit, so that large shares take
        about the same time; the small ones make up for what they differ in."""
        runs, share_of_run = self._runs(), _share_of_run(workers)
        count = (1 + SMALL) * workers
        if numpy is not None:
            if len(asked) and int(asked.max()) >= self.classes:
                raise IndexError("a class is out of range")
            share_of = numpy.array(share_of_run, numpy.uint16)[runs[asked]]
            places = numpy.argsort(share_of, kind="stable")
            ends = numpy.cumsum(numpy.bincount(share_of, minlength=count))
            parts = numpy.split(places, ends[:-1])
        else:
            parts = [array("I") for _ in range(count)]
            take = [parts[share].append for share in share_of_run]
            try:
                for at, class_ in enumerate(asked):
                    take[runs[class_]](at)
            except IndexError:
                raise IndexError("a class is out of range") from None
        return [it for it in parts if len(it)]

    def _runs(self) -> Any:
        """The run of each class. The classes by their stems, so that those of a region stand
        together, are cut into runs of whole regions. It depends on the circuit alone, and so is
        kept."""
        if self._run_of is None:
            self._run_of = _runs_of(self.stems_of())
        return self._run_of

    def _part(self, asked: Any) -> Any:
        found = _room(len(asked), "I")
        self._simulate(asked, found)
        return found

    def _simulate(self, asked: Any, found: Any) -> None:
        status = self._call(
            library.fs_simulate, _address(asked), len(asked), _address(found), len(found)
        )
        check(status)

    def observed(self, block: int, signals: Optional[Iterable[int]] = None) -> Words:
        """For each signal of a list, or for all, the tests of a block in which complementing the
        signal is seen at an observer: an array of the shape (signals,). Bit k of a word is 1
        exactly if test 64 * block + k detects the signal stuck at the complement of its fault-free
        value, under every fault model. It simulates signal by signal."""
        asked = _numbers(range(self.signals) if signals is None else signals, "I")
        return self._on_block(library.fs_observed, block, asked)

    def lanes(self, block: int, classes: Optional[Iterable[int]] = None) -> Words:
        """For each class of a list, or for all, the word that `detecting` returns for the class and
        the block: an array of the shape (classes,). It simulates region by region."""
        asked = self._all() if classes is None else _numbers(classes, "I")
        return self._on_block(library.fs_lanes, block, asked)

    def _on_block(self, function: Any, block: int, asked: Any) -> Any:
        """The words of a list on a block."""
        words = _room(len(asked), "Q")
        lists = _address(asked), len(asked), _address(words), len(words)
        check(self._call(function, _number(block), *lists))
        return words

    def count(
        self,
        block: int,
        most: int,
        counts: Iterable[int],
        classes: Optional[Iterable[int]] = None,
    ) -> Numbers:
        """The counts of a list of classes, or of all, each with the number of tests of a block that
        detect the class added, up to `most`: an array of the shape (classes,). `counts` is as it
        was. It simulates region by region."""
        asked = self._all() if classes is None else _numbers(classes, "I")
        added = _copied(counts)
        status = self._call(
            library.fs_count,
            _number(block),
            _address(asked),
            len(asked),
            _number(most),
            _address(added),
            len(added),
        )
        check(status)
        return added

    def detecting(self, class_: int, block: int) -> int:
        """A word: bit k is 1 exactly if test 64 * block + k detects the class."""
        lanes = ctypes.c_uint64()
        check(self._call(library.fs_detecting, _number(class_), _number(block), lanes))
        return lanes.value

    def detections(self, most: int, classes: Optional[Iterable[int]] = None) -> Numbers:
        """How many tests detect each class of a list, or of all, counted up to `most`: an array
        of the shape (classes,). It simulates region by region, and leaves out a class whose count
        is `most`."""
        asked = self._all() if classes is None else _numbers(classes, "I")
        counts = _room(len(asked), "I")
        status = self._call(
            library.fs_detections,
            _address(asked),
            len(asked),
            _number(most),
            _address(counts),
            len(counts),
        )
        check(status)
        return counts

    def coverage(self, workers: int = 1) -> tuple[int, int]:
        """How many faults the tests detect, and how many there are."""
        found: Any = self.simulate(workers=workers)
        of: Any = self.classes_of()
        if numpy is not None:
            return int((found[of] != NONE).sum()), self.faults
        return sum(int(found[int(class_)]) != NONE for class_ in of), self.faults


def release() -> str:
    """The release of the library, such as `0.3.0`, or `0.3.0 (unproved)` if nothing of it was
    proved."""
    return library.fs_release().decode()


def firsts(bench: Text, tests: Text, model: int = Model.STUCK_AT) -> Numbers:
    """The first test of a text that detects each fault of a circuit, in one call: an array of the
    shape (faults,), with `NONE` for a fault that no test detects."""
    model, bench, tests = _number(model), _bytes(bench), _bytes(tests)
    count, fault, found = ctypes.c_uint32(), FsFault(), _room(0, "I")
    for _ in range(2):
        status = library.fs_firsts(
            model, bench, len(bench), tests, len(tests), _address(found), len(found), count, fault
        )
        if status != _library.RANGE or count.value == len(found):
            break
        found = _room(count.value, "I")
    _check_text(status, fault, bench if fault.kind < Kind.TESTS_BYTE else tests)
    return found
