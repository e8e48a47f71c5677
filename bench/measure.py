#!/usr/bin/env python3
"""Measures a built calcdb: bench/measure.py PROGRAM [--quick].

It builds nothing. It makes scripts and files in a folder of its own, runs the program on them, and prints
a table. Each time is the least of several runs; what a script does before the part that is measured is
taken off by a run without that part.
"""

import argparse
import subprocess
import sys
import tempfile
import time
from pathlib import Path

CALLS = 100_000
LONGEST_SCRIPT = 4_194_304
LARGE_LOG = 143_000
PAIRS = 100_000
CHAIN = 64
DEAD = 20_000
SYNCED = 1_000
SESSIONS = 8

PROCEDURES = """\
proc dep 2
read r0 $0
abort 16 absent r0
add r1 r0 $1
put $0 r1
end
proc del 1
delete $0
end
"""

ENTER_CAPTURE = ["advance", "advance"]
LEAVE_CAPTURE = ["scan", "advance", "image", "advance"]


class Bench:
    def __init__(self, program, runs, folder):
        self.program, self.runs, self.folder = program, runs, Path(folder)

    def file(self, name, text):
        path = self.folder / name
        path.write_text(text)
        return path

    def once(self, *words):
        """The time that the program takes with these words."""
        begun = time.perf_counter()
        ran = subprocess.run([self.program, *map(str, words)], stdout=subprocess.DEVNULL, stderr=subprocess.PIPE)
        took = time.perf_counter() - begun
        if ran.returncode:
            sys.exit(f"{self.program} {' '.join(map(str, words))} ended with {ran.returncode}: {ran.stderr.decode()}")
        return took

    def seconds(self, *words):
        """The least time of several runs."""
        return min(self.once(*words) for _ in range(self.runs))

    def kept_up(self, *words):
        """The least time of runs that are kept up, each in a folder of its own."""
        times = []
        for _ in range(self.runs):
            with tempfile.TemporaryDirectory(dir=self.folder) as folder:
                times.append(self.once(*words, "--out", folder, "--live"))
        return min(times)

    def script(self, lines, opening=None):
        """The least time of a script of these commands."""
        text = PROCEDURES + "\n".join(lines) + "\n"
        assert len(text) <= LONGEST_SCRIPT
        words = ["run", self.file("script", text)]
        return self.seconds(*words, *(["--open", opening] if opening else []))

    def beyond(self, lines, before, behind=(), opening=None):
        """What these commands take between others."""
        whole = self.script([*before, *lines, *behind], opening)
        return max(whole - self.script([*before, *behind], opening), 0.0)

    def opening(self, keys):
        """An image of this many keys."""
        out = self.folder / f"{keys}.img"
        if not out.exists():
            pairs = self.file("pairs", "".join(f"'k{key} #0\n" for key in range(keys)))
            self.seconds("load", pairs, out)
        return out


def deposits(count, keys, first=1, sessions=1):
    """Calls that each add one to some key, in an order that jumps about, of the sessions in turn."""
    return [f"call {at % sessions} {first + at // sessions} dep 'k{at * 7919 % keys} #1" for at in range(count)]


def per(seconds, count):
    return f"{seconds / count * 1e6:10.2f} us each"


def measure(bench):
    yield "a script without commands", f"{bench.script([]) * 1e3:10.1f} ms"
    for keys in (1_000, 10_000, 50_000):
        opening, calls = bench.opening(keys), deposits(CALLS, keys)
        took = bench.beyond(calls, [], opening=opening)
        yield f"calls over {keys} keys", f"{CALLS / took:10.0f} a second"
        took = bench.beyond(calls, ["start full", *ENTER_CAPTURE], LEAVE_CAPTURE, opening)
        yield f"calls over {keys} keys, in a checkpoint", f"{CALLS / took:10.0f} a second"
    for keys in (1_000, 50_000):
        entered = ["start full", *ENTER_CAPTURE]
        took = bench.beyond(["scan"], entered, opening=bench.opening(keys))
        yield f"capture over {keys} keys", per(took, keys)
    for dead in (DEAD // 10, DEAD):
        gone = [f"call 0 {key + 1} del 'k{key}" for key in range(dead)]
        gone += ["start full", *ENTER_CAPTURE, *LEAVE_CAPTURE]
        took = bench.beyond(["reclaim"] * dead, gone, opening=bench.opening(50_000))
        yield f"reclaim of {dead} keys", per(took, dead)

    script = bench.file("large", PROCEDURES + "\n".join(deposits(LARGE_LOG, 1_000)) + "\n")
    size = script.stat().st_size
    opening, out = bench.opening(1_000), bench.folder / "out"
    out.mkdir()
    took = bench.seconds("run", script, "--open", opening)
    yield f"a script of {LARGE_LOG} calls, {size} bytes", f"{took * 1e3:10.1f} ms"
    took = bench.seconds("run", script, "--open", opening, "--out", out)
    yield "the same, with its files written", f"{took * 1e3:10.1f} ms"
    took = bench.kept_up("run", script, "--open", opening)
    yield "the same, kept up", f"{took * 1e3:10.1f} ms"
    shared = bench.file("shared", PROCEDURES + "\n".join(deposits(LARGE_LOG, 1_000, sessions=SESSIONS)) + "\n")
    took = bench.seconds("run", shared, "--open", opening, "--threads")
    yield f"so many calls of {SESSIONS} sessions, in threads", f"{took * 1e3:10.1f} ms"
    took = bench.kept_up("run", shared, "--open", opening, "--threads")
    yield "the same, kept up", f"{took * 1e3:10.1f} ms"
    short = bench.file("short", PROCEDURES + "\n".join(deposits(SYNCED, 1_000)) + "\n")
    took = bench.kept_up("run", short, "--open", opening, "--sync") - bench.seconds("run", short, "--open", opening)
    yield f"each of {SYNCED} calls, kept up and synced", f"{took / SYNCED * 1e3:10.2f} ms more"
    took = bench.seconds("recover", script, out / "log", bench.folder / "recovered", opening)
    yield f"recover of a log of {LARGE_LOG} calls", f"{took * 1e3:10.1f} ms"

    lines = []
    for number in range(1, CHAIN + 1):
        lines += deposits(1_000, 10_000, number * 1_000)
        lines += ["start partial" if number > 1 else "start full", *ENTER_CAPTURE, *LEAVE_CAPTURE]
    chain = bench.file("chain", PROCEDURES + "\n".join(lines) + "\n")
    bench.seconds("run", chain, "--open", bench.opening(10_000), "--out", out)
    images = [out / f"{number}.img" for number in range(1, CHAIN + 1)]
    took = bench.seconds("merge", bench.folder / "merged", *images)
    yield f"merge of {CHAIN} images", f"{took * 1e3:10.1f} ms"

    pairs = bench.file("pairs", "".join(f"'k{key} #{key}\n" for key in range(PAIRS)))
    took = bench.seconds("load", pairs, bench.folder / "loaded")
    yield f"load of {PAIRS} pairs", f"{took * 1e3:10.1f} ms"


def main():
    words = argparse.ArgumentParser(description=__doc__, formatter_class=argparse.RawDescriptionHelpFormatter)
    words.add_argument("program", help="the built program, as crates/calcdb/out/calcdb")
    words.add_argument("--quick", action="store_true", help="one run of each, and not the least of five")
    given = words.parse_args()
    with tempfile.TemporaryDirectory(prefix="calcdb-bench-") as folder:
        for what, found in measure(Bench(Path(given.program).resolve(), 1 if given.quick else 5, folder)):
            print(f"{what:48}{found}", flush=True)


if __name__ == "__main__":
    main()
