"""Prints each gate of a circuit with its level, its value if all inputs are 1, and its readers.

usage: circuit.py BENCH
"""

import sys

import faultsim


def row_of(signal, starts, items):
    """The items of a signal, of rows one after the other."""
    return items[int(starts[signal]) : int(starts[signal + 1])]


def main() -> None:
    with open(sys.argv[1], encoding="ascii") as bench, faultsim.Job(bench.read()) as job:
        job.set_tests([[1] * job.sources])
        names = [job.name_of(signal) for signal in range(job.signals)]
        kinds, levels, values = job.kinds_of(), job.levels_of(), job.values(0)
        starts, pins = job.fan_ins_of()
        reader_starts, gates, _ = job.fan_outs_of()
        for signal, name in enumerate(names):
            kind = faultsim.SignalKind(int(kinds[signal]))
            if kind != faultsim.SignalKind.SOURCE:
                reads = ", ".join(names[int(pin)] for pin in row_of(signal, starts, pins))
                readers = [names[int(gate)] for gate in row_of(signal, reader_starts, gates)]
                value = int(values[signal]) & 1
                print(
                    f"{name} = {kind.name}({reads}), level {levels[signal]}, value {value},",
                    f"read by {', '.join(readers) or 'no gate'}",
                )


main()
