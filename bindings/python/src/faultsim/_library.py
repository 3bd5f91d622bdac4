"""The shared library: its functions by ctypes, and statuses as exceptions."""

import ctypes as c
import enum
import os
import pathlib
from typing import Optional

VERSION = 1
NONE = 0xFFFFFFFF
DONE, NO_JOB, MEMORY, REFUSED, RANGE, SHARED = range(6)


class Kind(enum.IntEnum):
    """What is wrong with a text or words."""

    BENCH_BYTES = 1
    BENCH_SIGNALS = 2
    BENCH_SINKS = 3
    BENCH_SYNTAX = 4
    BENCH_REDEFINED = 5
    BENCH_UNDEFINED = 6
    BENCH_CYCLE = 7
    BENCH_EMPTY = 8
    TESTS_BYTE = 9
    TESTS_WIDTH = 10
    TESTS_MANY = 11
    WORDS_MANY = 12
    WORDS_COUNT = 13
    WORDS_IDLE = 14


class FsJob(c.Structure):
    """A handle: `struct fs_job`."""

    _fields_ = [("live", c.c_bool), ("at", c.c_void_p)]


class FsSizes(c.Structure):
    """How large a job is: `struct fs_sizes`."""

    _fields_ = [
        ("sources", c.c_uint32),
        ("signals", c.c_uint32),
        ("faults", c.c_uint32),
        ("classes", c.c_uint32),
        ("tests", c.c_uint32),
        ("blocks", c.c_uint32),
    ]


class FsFault(c.Structure):
    """Why a text or words are wrong: `struct fs_fault`."""

    _fields_ = [("kind", c.c_uint32), ("place", c.c_uint64)]


class FsPin(c.Structure):
    """A pin of a gate: `struct fs_pin`."""

    _fields_ = [("gate", c.c_uint32), ("pin", c.c_uint32)]


class FsSite(c.Structure):
    """Where a fault is: `struct fs_site`."""

    _fields_ = [
        ("kind", c.c_uint32),
        ("at", c.c_uint32),
        ("pin", c.c_uint32),
        ("stuck", c.c_uint32),
    ]


class Error(ValueError):
    """A text or words are wrong.

    `kind` is a `Kind`. `place` is a line, from 1, or a source, from 0, or 0. `hint` is what the
    message ends with, or nothing.
    """

    def __init__(self, kind: int, place: int, hint: str = "") -> None:
        super().__init__(kind, place, hint)
        self.kind, self.place, self.hint = Kind(kind), place, hint

    def __str__(self) -> str:
        return message(REFUSED, FsFault(self.kind, self.place)) + self.hint


_U32, _SIZE = c.c_uint32, c.c_size_t
# A text, or room for one; the address of an array of 32 or of 64 bits.
_U8S, _CHARS, _U32S, _U64S = c.c_char_p, c.c_char_p, c.c_void_p, c.c_void_p
_JOB, _SIZES, _FAULT = c.POINTER(FsJob), c.POINTER(FsSizes), c.POINTER(FsFault)
# A site, and the addresses of an array of sites and of an array of pins.
_SITE, _SITES, _PINS = c.POINTER(FsSite), c.c_void_p, c.c_void_p
_TO_U32, _TO_U64, _TO_SIZE = (c.POINTER(it) for it in (c.c_uint32, c.c_uint64, c.c_size_t))

# Each function with its result and its parameters, as faultsim.h has them (contrib/check-bindings).
SIGNATURES = {
    "fs_version": (_U32, []),
    "fs_release": (_CHARS, []),
    "fs_message": (_SIZE, [_U32, _FAULT, _CHARS, _SIZE]),
    "fs_job_read": (_U32, [_U32, _U8S, _SIZE, _JOB, _FAULT]),
    "fs_job_free": (None, [_JOB]),
    "fs_job_share": (_U32, [_JOB, _JOB]),
    "fs_sizes_of": (_U32, [_JOB, _SIZES]),
    "fs_set_words": (_U32, [_JOB, _U32, _U64S, _SIZE, _FAULT]),
    "fs_next_words": (_U32, [_JOB, _U32, _U64S, _SIZE, _FAULT]),
    "fs_set_text": (_U32, [_JOB, _U8S, _SIZE, _FAULT]),
    "fs_classes_of": (_U32, [_JOB, _U32S, _SIZE]),
    "fs_stems_of": (_U32, [_JOB, _U32S, _SIZE]),
    "fs_name_of": (_U32, [_JOB, _U32, _U8S, _SIZE, _TO_SIZE]),
    "fs_fault_text": (_U32, [_JOB, _U32, _U8S, _SIZE, _TO_SIZE]),
    "fs_source_of": (_U32, [_JOB, _U32, _TO_U32]),
    "fs_signal_named": (_U32, [_JOB, _U8S, _SIZE, _TO_U32]),
    "fs_kinds_of": (_U32, [_JOB, _U32S, _SIZE]),
    "fs_levels_of": (_U32, [_JOB, _U32S, _SIZE]),
    "fs_fan_ins_of": (_U32, [_JOB, _U32S, _SIZE, _U32S, _SIZE, _TO_SIZE]),
    "fs_fan_outs_of": (_U32, [_JOB, _U32S, _SIZE, _PINS, _SIZE, _TO_SIZE]),
    "fs_sites_of": (_U32, [_JOB, _SITES, _SIZE]),
    "fs_fault_at": (_U32, [_JOB, _SITE, _TO_U32]),
    "fs_word": (_U32, [_JOB, _U32, _U32, _TO_U64]),
    "fs_values": (_U32, [_JOB, _U32, _U64S, _SIZE]),
    "fs_observers_of": (_U32, [_JOB, _U32S, _SIZE, _TO_SIZE]),
    "fs_responses": (_U32, [_JOB, _U64S, _SIZE]),
    "fs_simulate": (_U32, [_JOB, _U32S, _SIZE, _U32S, _SIZE]),
    "fs_observed": (_U32, [_JOB, _U32, _U32S, _SIZE, _U64S, _SIZE]),
    "fs_detecting": (_U32, [_JOB, _U32, _U32, _TO_U64]),
    "fs_lanes": (_U32, [_JOB, _U32, _U32S, _SIZE, _U64S, _SIZE]),
    "fs_count": (_U32, [_JOB, _U32, _U32S, _SIZE, _U32, _U32S, _SIZE]),
    "fs_detections": (_U32, [_JOB, _U32S, _SIZE, _U32, _U32S, _SIZE]),
    "fs_report": (_U32, [_JOB, _U32, c.c_bool, _U8S, _SIZE, _TO_SIZE]),
    "fs_firsts": (
        _U32,
        [_U32, _U8S, _SIZE, _U8S, _SIZE, _U32S, _SIZE, _TO_U32, _FAULT],
    ),
}


def _path() -> str:
    """The shared library: FAULTSIM_LIBRARY, or the file beside this one, or that of a checkout."""
    named = os.environ.get("FAULTSIM_LIBRARY")
    if named:
        return named
    here = pathlib.Path(__file__).resolve()
    beside = here.with_name("libfaultsim.so")
    if beside.exists() or len(here.parents) < 5:
        return str(beside)
    return str(here.parents[4] / "out" / "libfaultsim.so")


def _load() -> c.CDLL:
    try:
        library = c.CDLL(_path())
    except OSError as error:
        raise ImportError(
            f"{error} (contrib/build-library makes it; FAULTSIM_LIBRARY names another file)"
        ) from None
    for name, (result, parameters) in SIGNATURES.items():
        function = getattr(library, name)
        function.restype, function.argtypes = result, parameters
    if library.fs_version() != VERSION:
        raise ImportError(f"{_path()} has version {library.fs_version()}, and not {VERSION}")
    return library


library = _load()


def message(status: int, fault: Optional[FsFault] = None) -> str:
    """What a status says, in words."""
    text = c.create_string_buffer(128)
    library.fs_message(status, fault, text, len(text))
    return text.value.decode()


def check(status: int, fault: Optional[FsFault] = None) -> None:
    """Raises the exception of a status other than DONE."""
    if status == DONE:
        return
    if status == REFUSED and fault is not None:
        raise Error(fault.kind, fault.place)
    if status == NO_JOB:
        raise ValueError("the job is closed")
    if status == MEMORY:
        raise MemoryError(message(status))
    if status == RANGE:
        raise IndexError(message(status))
    raise RuntimeError(message(status))
