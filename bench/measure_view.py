#!/usr/bin/env python3
"""Measures a view: bench/measure_view.py [--quick].

It copies the crates of a view with the program of bench/view into a folder of its own, proves and builds that
program there by `rt run`, and prints how many keys a second its readers look up: the least and the most of
three runs. The most alone would say little, since readers are fastest while the publisher gets no processor.
"""

import argparse
import subprocess
import tempfile
from pathlib import Path

from programs import TOP, build, span

CRATES = ("procedure", "image", "view")
LINE = "view_bench: procedure image view anyhow"


def look_ups(program, readers, publishers):
    """How many look-ups a second, and how many publications."""
    ran = subprocess.run([program, str(readers), str(publishers)], stdout=subprocess.PIPE, check=True)
    found, micros, published = map(int, ran.stdout.split())
    return found / micros * 1e6, published / micros * 1e6


def measure(program, runs):
    for publishers in (0, 1):
        for readers in (1, 4):
            rates, published = zip(*(look_ups(program, readers, publishers) for _ in range(runs)))
            beside = f", beside {span(published)} publications" if publishers else ""
            yield f"`get` by {readers} readers, {publishers} publishing", f"{span(rates)} a second{beside}"


def main():
    words = argparse.ArgumentParser(description=__doc__, formatter_class=argparse.RawDescriptionHelpFormatter)
    words.add_argument("--quick", action="store_true", help="one run of each, and not three")
    given = words.parse_args()
    with tempfile.TemporaryDirectory(prefix="calcdb-view-") as folder:
        program = build(Path(folder), TOP / "bench" / "view", CRATES, LINE, ["1", "0"])
        for what, found in measure(program, 1 if given.quick else 3):
            print(f"{what:48}{found}", flush=True)


if __name__ == "__main__":
    main()
