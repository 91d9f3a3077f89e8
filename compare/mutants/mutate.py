#!/usr/bin/env python3
"""The wrong judges of the lists beside this file, and the sources of each.

    mutate.py names LIST..            one line for each: W or S, and its name
    mutate.py make NAME FROM TO LIST..  a copy of the sources FROM in TO, made wrong

How a list is written stands at the head of README.md. W is a wrong judge, S one
that is said to judge the same ("same:" and the reason)."""

import shutil
import sys
from pathlib import Path


class Bad(Exception):
    """Something is wrong with a list, or it doesn't fit the sources."""


class Hunk:
    """Lines of one file that follow each other, before and after the edit."""

    def __init__(self, place):
        self.file, _, self.start = place.strip().partition(" ")
        self.before, self.after = [], []

    def take(self, line):
        sign, text = line[0], line[1:].strip()
        if sign in " -":
            self.before.append(text)
        if sign in " +":
            self.after.append(text)

    def edit(self, folder):
        path = folder / self.file
        lines = path.read_text().split("\n")
        shown = [line.strip() for line in lines]
        start = next((at for at, line in enumerate(lines) if self.start in line), None)
        if start is None:
            raise Bad(f"{self.file} has no line with '{self.start}'")
        size = len(self.before)
        for at in range(start, len(lines) - size + 1):
            if shown[at : at + size] == self.before:
                lines[at : at + size] = self.after
                path.write_text("\n".join(lines))
                return
        wanted = "\n".join(self.before)
        raise Bad(f"{self.file} has no such lines from '{self.start}' on:\n{wanted}")


class Mutant:
    def __init__(self, name):
        self.name, self.same, self.hunks = name, False, []


def mutants(files):
    """All mutants of the lists, in their order."""
    found = []
    for file in files:
        for number, line in enumerate(Path(file).read_text().split("\n"), 1):
            if not line.strip() or line.startswith("#"):
                continue
            if line.startswith("== "):
                found.append(Mutant(line[3:].strip()))
            elif line.startswith("same:") and found:
                found[-1].same = True
            elif line.startswith("@ ") and found:
                found[-1].hunks.append(Hunk(line[2:]))
            elif line[0] in " -+" and found and found[-1].hunks:
                found[-1].hunks[-1].take(line)
            else:
                raise Bad(f"{file}, line {number}: {line}")
    names = [mutant.name for mutant in found]
    twice = sorted({name for name in names if names.count(name) > 1})
    if twice:
        raise Bad(f"twice: {twice}")
    return found


def make(name, source, target, files):
    chosen = [mutant for mutant in mutants(files) if mutant.name == name]
    if not chosen or not chosen[0].hunks:
        raise Bad(f"no such mutant: {name}")
    shutil.rmtree(target, ignore_errors=True)
    shutil.copytree(source, target)
    for hunk in chosen[0].hunks:
        hunk.edit(Path(target))


def main(words):
    match words:
        case ["names", *files]:
            for mutant in mutants(files):
                print("S" if mutant.same else "W", mutant.name)
        case ["make", name, source, target, *files]:
            make(name, source, target, files)
        case _:
            raise Bad(__doc__)


try:
    main(sys.argv[1:])
except Bad as bad:
    sys.exit(f"mutate: {bad}")
