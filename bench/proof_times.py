#!/usr/bin/env python3
"""Lists the slowest modules of the last `rt check` of a crate, by the times of the files that it kept.

A check writes a file as soon as a module is checked, so the time since the file before is about the time
of the module. Run `rt check --jobs 1` (or with `--test`) in the crate first, on a quiet machine.

    bench/proof_times.py CRATE.. [--least SECONDS] [--minutes M]

Files older than M minutes (60) are left out, so that an earlier check doesn't count.
"""

import argparse
import os
import sys
import time


def kept_files(folder, since):
    """The time and the module of each file that was kept since then, the oldest first."""
    found = []
    for at, _, names in os.walk(folder):
        if os.path.basename(at) == "records":
            continue
        for name in names:
            changed = os.stat(f"{at}/{name}").st_mtime_ns / 1e9
            if changed > since:
                found.append((changed, name.removesuffix(".oantt")))
    return sorted(found)


def main():
    parser = argparse.ArgumentParser(description=__doc__.split("\n")[0])
    parser.add_argument("crates", nargs="+")
    parser.add_argument("--least", type=float, default=3.0)
    parser.add_argument("--minutes", type=float, default=60.0)
    given = parser.parse_args()
    root = os.path.dirname(os.path.dirname(os.path.abspath(__file__)))
    for crate in given.crates:
        folder = f"{root}/crates/{crate}/out/incremental"
        if not os.path.isdir(folder):
            sys.exit(f"{crate} has no kept files: run rt check in it first")
        kept = kept_files(folder, time.time() - 60 * given.minutes)
        spans = [(later - earlier, name) for (earlier, _), (later, name) in zip(kept, kept[1:])]
        for seconds, name in sorted(spans, reverse=True):
            if seconds >= given.least:
                print(f"{seconds:7.1f} s  {name}")


if __name__ == "__main__":
    main()
