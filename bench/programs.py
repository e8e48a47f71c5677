"""Builds a program of bench/ against crates of this repository, in a folder of its own."""

import shutil
import subprocess
import sys
from pathlib import Path

TOP = Path(__file__).resolve().parent.parent
# Under other endings, since each .rt and .antt file of the repository belongs to one of its crates.
FILES = {"main.rt.txt": "src/main.rt", "Invariants.antt.txt": "proofs/main/Invariants.antt"}


def workspace(folder, source, crates, line):
    """A repository of the crates and of the program whose line of crates.txt this is."""
    lines = (TOP / "crates.txt").read_text().splitlines()
    kept = [kept for kept in lines if kept.replace(":", " ").split()[:1] and kept.replace(":", " ").split()[0] in crates]
    (folder / "crates.txt").write_text("\n".join([*kept, line]) + "\n")
    shutil.copy(TOP / "HANDLES", folder)
    subprocess.run(["git", "init", "-q", folder], check=True)
    for name in crates:
        shutil.copytree(TOP / "crates" / name, folder / "crates" / name)
    crate = folder / "crates" / line.replace(":", " ").split()[0]
    for name, place in FILES.items():
        if (source / name).exists():
            (crate / place).parent.mkdir(parents=True, exist_ok=True)
            shutil.copy(source / name, crate / place)
    return crate


def build(folder, source, crates, line, words):
    """Proves and builds the program, and runs it with these words. It returns the program."""
    crate = workspace(folder, source, crates, line)
    if subprocess.run(["rt", "run", "--", *words], cwd=crate, stdout=subprocess.DEVNULL).returncode:
        sys.exit("the program was not built")
    return crate / "out" / crate.name


def span(values):
    """The least and the most."""
    return f"{min(values):,.0f} to {max(values):,.0f}"
