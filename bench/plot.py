#!/usr/bin/env python3
"""Draws calls a second over time, beside two checkpoints: bench/plot.py NAME=PROGRAM [NAME=PROGRAM ..] FILE.svg

Each program runs one script of 120,000 calls over 10,000 keys. A full checkpoint goes on in the second quarter
of them and a partial one in the last; its scan visits places between the calls. The answers come through a
pipe, and a call counts when its line arrives. The runs are laid one over another, from their beginnings to their
ends, and each point is the median of theirs.
"""

import statistics
import subprocess
import sys
import tempfile
import time
from pathlib import Path

from measure import ENTER_CAPTURE, LEAVE_CAPTURE, PROCEDURES, deposits

KEYS = 10_000
QUARTER = 30_000
BINS = 32
RUNS = 15
WIDTH, HEIGHT, LEFT, TOP, GAP = 760, 190, 92, 34, 64


def scanned(calls, kind):
    """Calls with a checkpoint of this kind that goes on beside them."""
    each = max(KEYS // len(calls), 1) if kind == "full" else 1
    visits = -(-len(calls) * each // KEYS)
    lines = [f"start {kind}", *ENTER_CAPTURE]
    for at, call in enumerate(calls):
        lines.append(call)
        if at % visits == 0:
            lines += ["capture"] * each
    return lines + LEAVE_CAPTURE


def script():
    calls = deposits(4 * QUARTER, KEYS)
    parts = [calls[at * QUARTER : (at + 1) * QUARTER] for at in range(4)]
    return "\n".join([*parts[0], *scanned(parts[1], "full"), *parts[2], *scanned(parts[3], "partial")])


def arrivals(program, words):
    """When how many calls were answered, and when checkpoints began and ended, in seconds from the first."""
    ran = subprocess.Popen([program, *map(str, words)], stdout=subprocess.PIPE, bufsize=0)
    pieces = []
    while piece := ran.stdout.read(65_536):
        pieces.append((time.perf_counter(), piece))
    if ran.wait():
        sys.exit(f"{program} ended with {ran.returncode}")
    begun = pieces[0][0]
    times, spans, calls, left = [], [], 0, b""
    for now, piece in pieces:
        *lines, left = (left + piece).split(b"\n")
        for line in lines:
            if line.startswith(b"checkpoint"):
                spans.append([now - begun, now - begun])
            elif line == b"phase rest":
                spans[-1][1] = now - begun
            elif line.startswith(b"place"):
                calls += 1
        times.append((now - begun, calls))
    return times, spans


def rates(times):
    """Calls a second in each of the equal parts of the time."""
    end = times[-1][0]
    counts, at, before = [], 0, times[0][1]
    for part in range(1, BINS + 1):
        limit = end * part / BINS
        while at + 1 < len(times) and times[at + 1][0] <= limit:
            at += 1
        counts.append(max(times[at][1] - before, 0) * BINS / end)
        before = times[at][1]
    return counts


def medians(rows):
    """The median of each column."""
    return [statistics.median(column) for column in zip(*rows)]


def laid_over(runs):
    """Of several runs: the time, the calls, the rates in each part of the time, and the spans as parts of it."""
    end = statistics.median(times[-1][0] for times, _ in runs)
    parts = [medians([[at / times[-1][0] for at in spans[which]] for times, spans in runs]) for which in range(2)]
    found = medians([rates(times) for times, _ in runs])
    # Each with its neighbours: lines arrive in pieces of a buffer.
    smooth = [statistics.mean(found[max(at - 1, 0) : at + 2]) for at in range(len(found))]
    return end, runs[0][0][-1][1], smooth, parts


def round_up(value):
    """The next number of one digit and zeros, or 1.5 or 2.5 of these."""
    unit = 10 ** (len(str(int(value))) - 1)
    return next(unit * step for step in (1, 1.5, 2, 2.5, 3, 4, 5, 6, 8, 10) if unit * step >= value)


def panel(top, name, end, calls, found, parts):
    wide, most = WIDTH - LEFT - 30, round_up(max(found) * 1.1)
    across = lambda part: LEFT + wide * part
    down = lambda rate: top + HEIGHT * (1 - rate / most)
    out = [f'<text x="{LEFT}" y="{top - 12}" font-weight="bold">{name}: {calls / end:,.0f} calls a second in all</text>']
    for (first, last), kind in zip(parts, ("full", "partial")):
        out.append(f'<rect x="{across(first):.1f}" y="{top}" width="{across(last) - across(first):.1f}" height="{HEIGHT}" fill="#f2d9a6"/>')
        out.append(f'<text x="{across((first + last) / 2):.1f}" y="{top + 16}" text-anchor="middle" fill="#7a5a10">{kind} checkpoint</text>')
    for step in range(6):
        rate = most * step / 5
        out.append(f'<line x1="{LEFT}" x2="{LEFT + wide}" y1="{down(rate):.1f}" y2="{down(rate):.1f}" stroke="#cccccc"/>')
        out.append(f'<text x="{LEFT - 8}" y="{down(rate) + 4:.1f}" text-anchor="end">{rate / 1e6:.2f} million</text>')
        out.append(f'<text x="{across(step / 5):.1f}" y="{top + HEIGHT + 18}" text-anchor="middle">{end * step / 5 * 1e3:.0f} ms</text>')
    points = " ".join(f"{across((at + 0.5) / BINS):.1f},{down(rate):.1f}" for at, rate in enumerate(found))
    out.append(f'<polyline points="{points}" fill="none" stroke="#1f5fa8" stroke-width="2"/>')
    return out


def main():
    *programs, target = sys.argv[1:]
    if not programs or not target.endswith(".svg"):
        sys.exit(__doc__)
    found = []
    with tempfile.TemporaryDirectory(prefix="calcdb-plot-") as folder:
        folder = Path(folder)
        (folder / "script").write_text(PROCEDURES + script() + "\n")
        (folder / "pairs").write_text("".join(f"'k{key} #0\n" for key in range(KEYS)))
        for each in programs:
            name, program = each.split("=", 1)
            program = str(Path(program).resolve())
            subprocess.run([program, "load", folder / "pairs", folder / "opening"], check=True, stdout=subprocess.DEVNULL)
            words = ["run", folder / "script", "--open", folder / "opening"]
            runs = [arrivals(program, words) for _ in range(RUNS)]
            found.append((name, *laid_over(runs)))
    tall = TOP + len(found) * (HEIGHT + GAP)
    out = [f'<svg xmlns="http://www.w3.org/2000/svg" width="{WIDTH}" height="{tall}" font-family="sans-serif" font-size="12">']
    out.append(f'<rect width="{WIDTH}" height="{tall}" fill="white"/>')
    for at, row in enumerate(found):
        out += panel(TOP + at * (HEIGHT + GAP), *row)
    Path(target).write_text("\n".join([*out, "</svg>"]) + "\n")


if __name__ == "__main__":
    main()
