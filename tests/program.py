#!/usr/bin/env python3
"""Runs the tables of these tests on the built program: tests/program.py PROGRAM.

The tests of this folder have most of what the program does as text: rows of command lines with the files before and
after them, rows of commands with their answers, and faulty texts with what is said of them. Proved tests run these
tables within the program, where they can also refuse it memory and fail its files. Here they are run on the program
as it was linked, with files, pipes and statuses of the system, and nothing is proved.

`console.rt.txt` says what the lines of a row of command lines are. Of those that want what a system can't be asked
for, `starved` is passed over; `scarce`, `bytewise`, `timeless`, `cramped` and `unsaved` are run once, undisturbed.
Lines of `--progress` depend on the time and aren't compared. Images and logs are made by `formats.py`. Besides, a
table of as many keys as there may be is loaded, captured beside calls and recovered.

It prints how many things were compared, and ends with status 1 at the first one that comes to something else.
"""

import argparse
import os
import random
import re
import shutil
import subprocess
import sys
import tempfile
from pathlib import Path

import formats

TESTS = Path(__file__).resolve().parent / "src"

# The tables of rows of command lines, by their files.
CONSOLE = {
    "runs": ["RUNS", "FILES", "LOADS"],
    "merges": ["MERGES", "LONG_MERGES", "SHOWN", "WORDS"],
    "recoveries": ["RECOVERIES"],
    "new_files": ["KEPT"],
    "thread_runs": ["RUNS", "FILES"],
    "live_runs": ["ROWS"],
    "live_threads": ["ROWS"],
    "examples": ["EXAMPLES"],
}

# The tables of rows of commands.
SCHEDULES = {"schedules": "SCHEDULES", "checkpoints": "CHECKPOINTS", "reclaims": "RECLAIMS", "scripts": "SCRIPTS"}

HELP = {
    "--help": "PROGRAM",
    "help": "PROGRAM",
    "run --help": "RUN",
    "load --help": "LOAD",
    "merge --help": "MERGE",
    "recover --help": "RECOVER",
    "show -h": "SHOW",
}

MOST_KEYS = 100_000

ESCAPES = {"n": "\n", "r": "\r", "t": "\t", "\n": ""}

PROGRESS = re.compile(rb"^err calcdb: \d+ (of \d+ files|bytes|lines|steps)\n", re.M)


def unescaped(found):
    letter = found.group(1)
    return chr(int(letter[2:-1], 16)) if letter.startswith("u{") else ESCAPES.get(letter, letter)


def constant(file, name):
    """The text of a constant of the tests."""
    text = (TESTS / f"{file}.rt.txt").read_text()
    found = re.search(rf'const {name}: &str =\s+"((?:[^"\\]|\\.)*)";', text, re.S)
    return re.sub(r"\\(u\{[0-9a-f]+\}|.)", unescaped, found.group(1), flags=re.S)


def lines_of(text):
    """Lines, of which each `|` ends one."""
    return text.replace("|", "\n") + "\n"


def rows_of(text):
    """The rows of a text, each with the pairs of its opening, and with its commands and what each is answered."""
    rows = []
    for line in text.split("\n"):
        if not line or line.startswith("; "):
            continue
        if line.startswith("# "):
            rows.append(("", []))
            continue
        for part in line.split(" / "):
            pairs, commands = rows[-1]
            command, is_answered, answer = part.partition(" = ")
            if part.startswith(": "):
                rows[-1] = (pairs + lines_of(part[2:]), commands)
            elif is_answered:
                commands.append([command, lines_of(answer)])
            else:
                commands[-1][1] += lines_of(part)
    return rows


def entry_of(word):
    """The entry of a key and of a number that it holds, or `gone`."""
    key, held = word.split("=")
    return formats.entry(key.encode(), None if held == "gone" else formats.number(int(held), 8))


def made_image(header, entries):
    """The image of a header, as the program prints it up to the place, and of entries."""
    kind, *numbers = re.split(" base | place | ", header)
    return formats.seal(formats.header(kind, map(int, numbers), len(entries)), entries)


class Program:
    """The program, in a folder."""

    def __init__(self, path, folder):
        self.path, self.folder, self.count = path, Path(folder), 0

    def expect(self, what, found, wanted):
        self.count += 1
        if found != wanted:
            sys.exit(f"{what!r} comes to\n{found!r}\nand not to\n{wanted!r}")

    def run(self, words, piped=None, stdout=subprocess.PIPE):
        """What the program comes to. Its standard input is a file, or a folder, which can't be read."""
        stdin = os.open(self.folder / (piped or "."), os.O_RDONLY)
        try:
            return subprocess.run(
                [self.path, *words], cwd=self.folder, stdin=stdin, stdout=stdout, stderr=subprocess.PIPE, timeout=60
            )
        finally:
            os.close(stdin)

    def transcript(self, words, piped=None):
        """The status, and the lines of both outputs."""
        ran = self.run(words, piped)
        outputs = [(b"out ", ran.stdout), (b"err ", ran.stderr)]
        lines = [name + line for name, text in outputs for line in text.splitlines(True)]
        return b"%d\n" % ran.returncode + b"".join(lines)

    def size(self, name):
        path = self.folder / name
        return str(path.stat().st_size) if path.is_file() else "none"

    def check_command(self, verb, line, wanted):
        words, piped = line.split(), None
        if words[0] == "piped":
            piped, words = words[1], words[2:]
        words = words[1:]
        if verb == "unwritten":
            with open("/dev/full", "wb") as full:
                ran = self.run(words, piped, full)
            self.expect(line, (ran.returncode, ran.stderr), (1, b"calcdb: cannot write output\n"))
        elif verb == "misused":
            ran = self.run(words, piped)
            self.expect(line, (ran.returncode, ran.stdout, ran.stderr != b""), (2, b"", True))
        elif verb == "bytewise":
            self.expect(line, len(self.run(words, piped).stdout), int(wanted))
        elif verb == "scarce":
            self.run(words, piped)
        elif verb in ("cramped", "unsaved"):
            self.expect(line, self.run(words, piped).returncode, 0)
            for name, size in (it.split() for it in wanted.splitlines()):
                self.expect(line, self.size(name), size)
        elif verb != "starved":
            found, wanted = self.transcript(words, piped), wanted.encode()
            if "--progress" in words:
                found, wanted = PROGRESS.sub(b"", found), PROGRESS.sub(b"", wanted)
            self.expect(line, found, wanted)

    def made(self, verb, path, text):
        """What a file of this name is to have."""
        word = text.strip()
        if verb == "write":
            return text.encode()
        if verb == "image":
            header, words = word.split(":")
            return made_image(header, [entry_of(it) for it in words.split()])
        if verb == "older":
            return formats.older((self.folder / word).read_bytes())
        if verb == "under":
            return formats.under((self.folder / word).read_bytes(), path.read_bytes())
        file, place = bytearray(path.read_bytes()), int(word)
        if verb == "turn":
            file[place] ^= 1
            return bytes(file)
        return bytes(file[:place]).ljust(place, b"\n") if verb == "pad" else bytes(file[:place])

    def check_file(self, verb, name, wanted):
        path, word = self.folder / name, wanted.strip()
        if verb == "size":
            self.expect(f"size {name}", self.size(name), word)
        elif verb == "same":
            self.expect(f"same {name}", path.read_bytes(), (self.folder / word).read_bytes())
        elif verb == "folder":
            path.mkdir()
        elif verb == "link":
            path.symlink_to(word)
        elif verb == "private":
            path.chmod(0o600)
        elif verb == "mode":
            self.expect(f"mode {name}", f"{path.stat().st_mode & 0o777:o}", word)
        elif verb == "remove":
            shutil.rmtree(path) if path.is_dir() and not path.is_symlink() else path.unlink()
        else:
            path.write_bytes(self.made(verb, path, wanted))

    def check_line(self, line, wanted):
        if line.startswith(("calcdb", "piped ")):
            return self.check_command("", line, wanted)
        verb, rest = line.split(" ", 1)
        if rest.startswith(("calcdb", "piped ")):
            self.check_command(verb, rest, wanted)
        else:
            self.check_file(verb, rest, wanted)

    def check_schedule(self, pairs, commands):
        """Runs the commands of a row as a script after the procedures of all, over the opening of its pairs."""
        script = constant("fixtures", "PROCEDURES") + "proc nothing 0\nend\n" + "\n".join(it[0] for it in commands)
        (self.folder / "script").write_bytes(script.encode())
        (self.folder / "pairs").write_bytes(pairs.encode())
        self.expect(pairs, self.run(["load", "pairs", "opening"]).returncode, 0)
        ran = self.run(["run", "script", "--open", "opening"])
        answers = "".join(it[1] for it in commands).encode()
        self.expect(script, (ran.returncode, ran.stdout, ran.stderr), (0, answers, b""))

    def check_text(self, words, text, wanted):
        """What a text that `words` name is faulty for, or that it isn't."""
        (self.folder / "text").write_bytes(text.replace("|", "\n").encode())
        found = self.transcript(words)
        if wanted.startswith("Ok"):
            self.expect(text, found.startswith(b"0\n"), True)
        else:
            line, why = re.match(r"(?:fault )?line (\d+)(?:: |\|)(.*)", wanted).groups()
            self.expect(text, found.decode(), f"1\nout fault line {line}\nerr calcdb: text line {line}: {why}\n")

    def check_pairs(self, text, wanted):
        """The image of a text of pairs, or its fault."""
        if wanted.startswith("fault"):
            return self.check_text(["load", "text", "image"], text, wanted)
        (self.folder / "text").write_bytes(text.replace("|", "\n").encode())
        self.expect(text, self.run(["load", "text", "image"]).returncode, 0)
        self.expect(text, self.run(["show", "image"]).stdout.decode(), lines_of(wanted))


def sides_of(file, name):
    return [it.split(" = ", 1) for it in constant(file, name).strip("\n").split("\n")]


def make_chain(program):
    """The images of the long chains, each in a file that has its number as a name."""
    program.check_line("image 1", "full 1 base 1 place 1: a=1")
    for base in range(1, 65):
        program.check_line(f"image {base + 1}", f"partial {base + 1} base {base} place 1:")


def image_of(values, header="full 0 base 0 place 0"):
    """The image of keys and numbers."""
    return made_image(header, [formats.entry(key, formats.number(value, 8)) for key, value in sorted(values.items())])


def check_large_table(program):
    """A table of as many keys as there may be, which is loaded in no order, captured beside calls and recovered."""
    keys = [b"k%05d" % it for it in range(MOST_KEYS)]
    random.Random(1).shuffle(keys)
    values = {key: at for at, key in enumerate(keys)}
    pairs = [f"'{key.decode()} #{value}" for key, value in values.items()]
    calls = [f"call 0 {at} set {key} #0" for at, key in enumerate(it.split()[0] for it in pairs[:1000])]
    script = ["proc set 2", "put $0 $1", "end", "start full", "advance", "advance", *calls, "scan", "advance", "image"]
    for name, lines in {"pairs": pairs, "many": [*pairs, "'z #0"], "script": script}.items():
        (program.folder / name).write_text("\n".join(lines))
    (program.folder / "large").mkdir()

    def ask(line, last, err=""):
        ran = program.run(line.split())
        found = (ran.returncode, ran.stdout.decode().splitlines()[-1:], ran.stderr.decode())
        program.expect(line, found, (1 if err else 0, [last], err))

    def same(name, wanted):
        program.expect(name, formats.digest((program.folder / name).read_bytes()), formats.digest(wanted))

    line = f"line {MOST_KEYS + 1}"
    ask("load many image", f"fault {line}", f"calcdb: many {line}: over {MOST_KEYS} pairs\n")
    ask("load pairs image", f"image full 0 base 0 place 0 count {MOST_KEYS}")
    same("image", image_of(values))
    ask("run script --open image --out large", f"'{max(keys).decode()} #{values[max(keys)]}")
    same("large/0.img", image_of(values))
    same("large/1.img", image_of(values, "full 1 base 1 place 1"))
    changed = values | dict.fromkeys(keys[:1000], 0)
    for image in "0.img", "1.img":
        ask(f"recover script large/log table large/{image}", f"recovered calls 1000 clean count {MOST_KEYS}")
        same("table", image_of(changed))


def check_all(program):
    for file, names in CONSOLE.items():
        for name in names:
            if name == "LONG_MERGES":
                make_chain(program)
            for _pairs, commands in rows_of(constant(file, name)):
                for line, wanted in commands:
                    program.check_line(line, wanted)
    for file, name in SCHEDULES.items():
        for pairs, commands in rows_of(constant(file, name)):
            program.check_schedule(pairs, commands)
    for text, wanted in sides_of("texts", "SCRIPTS"):
        program.check_text(["run", "text"], text, wanted)
    for text, wanted in sides_of("texts", "THREAD_SCRIPTS"):
        program.check_text(["run", "text", "--threads"], text, wanted)
    for text, wanted in sides_of("texts", "PAIRS"):
        program.check_pairs(text, wanted)
    for word, shown in sides_of("texts", "VALUES"):
        program.check_pairs(f"'a {word}", f"image full 0 base 0 place 0 count 1|'a {shown}")
    for words, name in HELP.items():
        program.expect(words, program.run(words.split()).stdout.decode(), constant("help", name))
    check_large_table(program)


def main():
    parser = argparse.ArgumentParser(description=__doc__.splitlines()[0])
    parser.add_argument("program", type=os.path.abspath)
    path = parser.parse_args().program
    with tempfile.TemporaryDirectory() as folder:
        program = Program(path, folder)
        check_all(program)
        print(f"{program.count} comparisons: as expected")


if __name__ == "__main__":
    main()
