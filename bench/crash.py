#!/usr/bin/env python3
"""Kills runs that are kept up: bench/crash.py PROGRAM [--times N] [--sync] [--threads].

It runs a script of calls and checkpoints with --live, kills the program by SIGKILL after a random time, and looks at
what was printed and at what is in the folder: each answer that was printed is that of the call which stands at its
place in the log, the calls of each session in the log are its first ones, and every chain of the images recovers with
the log to one table. It does so 200 times, prints how far the runs came, and ends with status 1 at the first one that
lost something. With --threads each session has a thread, and nothing is printed before the end.
"""

import argparse
import random
import subprocess
import sys
import tempfile
import time
from pathlib import Path

SESSIONS, KEYS, CALLS, EVERY = 8, 500, 60_000, 5_000
PROCEDURE = ["proc add 2", "read r0 $0", "add r1 r0 $1", "put $0 r1", "end"]


def commands(in_threads):
    """Each command, and for a call its session and number."""
    for key in range(KEYS):
        yield f"call {key % SESSIONS} {key // SESSIONS + 1} set 'k{key} #0", (key % SESSIONS, key // SESSIONS + 1)
    for call in range(KEYS, CALLS):
        # Each third checkpoint is full.
        kind = "full" if call // EVERY % 3 == 1 else "partial"
        if call % EVERY == 0 and in_threads:
            yield f"checkpoint {kind}", None
        elif call % EVERY == 0:
            yield f"start {kind}", None
            yield "advance", None
        if call % EVERY == 20 and not in_threads:
            for command in ("advance", "scan", "advance", "image", "advance"):
                yield command, None
        session, number = call % SESSIONS, call // SESSIONS + 1
        yield f"call {session} {number} add 'k{call * 7919 % KEYS} #1", (session, number)


def script_of(made):
    return "\n".join([*PROCEDURE, "proc set 2", "put $0 $1", "end", *(command for command, _ in made)]) + "\n"


def killed(program, script, folder, after, words):
    """What a run printed that was killed after so many seconds, and whether it had ended by then."""
    out = folder / "answers"
    with open(out, "wb") as taken:
        run = subprocess.Popen([program, "run", script, "--out", folder, "--live", *words], stdout=taken)
        time.sleep(after)
        ended = run.poll() is not None
        run.kill()
        run.wait()
    return out.read_bytes(), ended


def answered(printed, made):
    """The session and the number of each call whose answer was printed whole, by its place in the log."""
    lines = [line for line in printed.split(b"\n")[:-1] if not line.startswith(b"'")]
    places = {}
    for line, (_, call) in zip(lines, made):
        if call is not None:
            words = line.split()
            if words[0] != b"place":
                sys.exit(f"a call was answered with {line!r}")
            places[int(words[1])] = call
    return places


def logged(program, folder):
    """The session and the number of each call in the log, by its place."""
    shown = subprocess.run([program, "show", folder / "log"], stdout=subprocess.PIPE, stderr=subprocess.DEVNULL)
    if shown.returncode:
        return {}
    records = (line.split() for line in shown.stdout.split(b"\n")[1:-1])
    return {int(words[0]): (int(words[2]), int(words[3])) for words in records if words[1] == b"call"}


def chains(program, folder):
    """The chains of the images that are there: from each full one on, up to each that follows."""
    chain = []
    for number in range(1000):
        image = folder / f"{number}.img"
        if not image.exists():
            return
        head = subprocess.run([program, "show", image], stdout=subprocess.PIPE, check=True).stdout.split(None, 2)
        chain = [image] if head[1] == b"full" else [*chain, image]
        yield chain


def recovered(program, script, folder, chain):
    table = folder / "table"
    done = subprocess.run([program, "recover", script, folder / "log", table, *chain], stdout=subprocess.DEVNULL)
    if done.returncode:
        sys.exit(f"{folder}: not recovered from {[image.name for image in chain]}")
    return table.read_bytes()


def check(program, script, made, folder, printed, in_threads):
    """How many answers were printed, how many records the log has beside, and how many chains agree."""
    places, log = {} if in_threads else answered(printed, made), logged(program, folder)
    for place, call in places.items():
        if log.get(place) != call:
            sys.exit(f"{folder}: the answer at place {place} is lost")
    for session in range(SESSIONS):
        numbers = [number for of, number in (log[place] for place in sorted(log)) if of == session]
        wanted = [number for of, number in (call for _, call in made if call is not None) if of == session]
        if numbers != wanted[: len(numbers)]:
            sys.exit(f"{folder}: the log lacks a call of session {session} before another one")
    if not log:
        return len(places), 0, 0
    tables = [recovered(program, script, folder, chain) for chain in chains(program, folder)]
    if any(table != tables[0] for table in tables):
        sys.exit(f"{folder}: the chains of images recover different tables")
    return len(places), len(log) - len(places), len(tables)


def main():
    words = argparse.ArgumentParser(description=__doc__, formatter_class=argparse.RawDescriptionHelpFormatter)
    words.add_argument("program", type=Path)
    words.add_argument("--times", type=int, default=200)
    words.add_argument("--sync", action="store_true")
    words.add_argument("--threads", action="store_true")
    given = words.parse_args()
    program, made = given.program.resolve(), list(commands(given.threads))
    options = [f"--{name}" for name in ("sync", "threads") if getattr(given, name)]
    with tempfile.TemporaryDirectory(prefix="calcdb-crash-") as top:
        script = Path(top) / "script"
        script.write_text(script_of(made))
        begun = time.monotonic()
        (Path(top) / "whole").mkdir()
        subprocess.run([program, "run", script, "--out", Path(top) / "whole", "--live", *options], stdout=subprocess.DEVNULL, check=True)
        whole = time.monotonic() - begun
        answers, more, agreed, ended = 0, 0, 0, 0
        for time_of in range(given.times):
            folder = Path(top) / str(time_of)
            folder.mkdir()
            # A run in threads makes its calls first, and audits them after.
            until = whole / 2 if given.threads else whole
            printed, had_ended = killed(program, script, folder, random.uniform(0, until), options)
            found = check(program, script, made, folder, printed, given.threads)
            answers, more, agreed, ended = answers + found[0], more + found[1], agreed + found[2], ended + had_ended
            subprocess.run(["rm", "-r", folder], check=True)
    print(f"{given.times} runs, {given.times - ended} killed: {answers:,} answers, each in its log, {more:,} calls more; {agreed:,} chains")


if __name__ == "__main__":
    main()
