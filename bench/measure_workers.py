#!/usr/bin/env python3
"""Measures runs in threads: bench/measure_workers.py [--quick] [--program PROGRAM].

It copies the crates of `workers` with the program of bench/workers into a folder of its own, proves and builds
that program there by `rt run`, and prints how many calls a second 1, 2, 4 and 8 sessions make over 10,000 keys,
with and without full checkpoints and readers, the least and the most of three runs; and how long one lock is
held at most in a full checkpoint of 100,000 keys.
"""

import argparse
import subprocess
import tempfile
from pathlib import Path

from programs import TOP, build, span

CRATES = (
    "procedure", "phase", "locktable", "record_store", "commitlog", "image", "pipe", "view", "steps", "workers",
)
LINE = "workers_bench may_wait=60: procedure image steps view workers anyhow"
SESSIONS = (1, 2, 4, 8)
# Checkpoints and readers beside the sessions.
BESIDE = ((0, 0), (10, 0), (10, 2))


def printed(program, *words):
    ran = subprocess.run([program, *map(str, words)], stdout=subprocess.PIPE, check=True)
    return list(map(int, ran.stdout.split()))


def calls(program, sessions, checkpoints, readers):
    """How many calls a second, and how many look-ups."""
    answered, nanos, images, looked_up = printed(program, sessions, checkpoints, readers, 10_000)
    if images != checkpoints:
        raise SystemExit(f"{images} images of {checkpoints} checkpoints")
    return answered / nanos * 1e9, looked_up / nanos * 1e9


def measure(program, runs):
    for checkpoints, readers in BESIDE:
        for sessions in SESSIONS:
            rates, looked_up = zip(*(calls(program, sessions, checkpoints, readers) for _ in range(runs)))
            beside = f", beside {span(looked_up)} look-ups" if readers else ""
            what = f"{sessions} sessions, {checkpoints} checkpoints, {readers} readers"
            yield what, f"{span(rates)} calls a second{beside}"
    held = [printed(program, 0, 1, 0, 100_000) for _ in range(runs)]
    for at, what in enumerate(("a step of a phase", "a visit of a place")):
        yield f"one lock in {what}, at most", f"{span([most[at] / 1e3 for most in held])} us"


def main():
    words = argparse.ArgumentParser(description=__doc__, formatter_class=argparse.RawDescriptionHelpFormatter)
    words.add_argument("--quick", action="store_true", help="one run of each, and not three")
    words.add_argument("--program", type=Path, help="a program that is built already")
    given = words.parse_args()
    with tempfile.TemporaryDirectory(prefix="calcdb-workers-") as folder:
        program = given.program or build(Path(folder), TOP / "bench" / "workers", CRATES, LINE, ["1", "1", "0", "9"])
        for what, found in measure(program, 1 if given.quick else 3):
            print(f"{what:48}{found}", flush=True)


if __name__ == "__main__":
    main()
