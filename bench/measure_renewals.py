#!/usr/bin/env python3
"""Measures renewals of a core: bench/measure_renewals.py [--program PROGRAM].

It copies the crates of `steps` with the program of bench/renewals into a folder of its own, proves and builds that
program there by `rt run`, and prints how long a renewal takes over 1,000, 10,000 and 100,000 keys, the least and
the most of ten, and how much memory the process has at most without and with one renewal.
"""

import argparse
import os
import subprocess
import tempfile
from pathlib import Path

from programs import TOP, build, span

CRATES = ("procedure", "phase", "locktable", "record_store", "commitlog", "image", "pipe", "steps")
LINE = "renewals_bench: procedure image steps anyhow"
RENEWALS = 10


def most_memory(program, keys, renewals):
    """The greatest resident memory of a run, in bytes."""
    started = subprocess.Popen([program, str(keys), str(renewals)], stdout=subprocess.DEVNULL)
    _, status, usage = os.wait4(started.pid, 0)
    if status:
        raise SystemExit(f"the program ended with {status}")
    return usage.ru_maxrss * 1024


def measure(program):
    for keys in (1_000, 10_000, 100_000):
        ran = subprocess.run([program, str(keys), str(RENEWALS)], stdout=subprocess.PIPE, check=True)
        yield f"a renewal of {keys:,} keys", f"{span([int(nanos) / 1e3 for nanos in ran.stdout.split()])} us"
        without, beside = (most_memory(program, keys, renewals) / 1e6 for renewals in (0, 1))
        yield "greatest memory without one, with one", f"{without:.1f} MB, {beside:.1f} MB"


def main():
    words = argparse.ArgumentParser(description=__doc__, formatter_class=argparse.RawDescriptionHelpFormatter)
    words.add_argument("--program", type=Path, help="a program that is built already")
    given = words.parse_args()
    with tempfile.TemporaryDirectory(prefix="calcdb-renewals-") as folder:
        program = given.program or build(Path(folder), TOP / "bench" / "renewals", CRATES, LINE, ["10", "1"])
        for what, found in measure(program):
            print(f"{what:48}{found}", flush=True)


if __name__ == "__main__":
    main()
