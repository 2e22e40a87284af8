"""What checks/expected.tsv says that there has to be, and which wrong bodies are due at a commit.

The list is written by hand, a line for each crate: its name, how many test functions it has, how often its program is run, as by
LLVM and by Rattle's own compiler, and the names of those of its wrong bodies that the gate tries. It isn't made of what is there.

A crate with one such body has to be proved once more for it alone. So it is tried at a tenth of the commits, by their number; the
others wait. The bodies of the other crates are tried again at a third of the commits, although it is noted how they ended.
"""
from __future__ import annotations

import subprocess
import sys
from dataclasses import dataclass

from sources import TOP

LIST = TOP / "checks/expected.tsv"
HEAD = "crate\ttests\truns\twrong bodies"
# A crate with one wrong body is tried at one of so many commits.
TURNS = 10
# The noted bodies of a crate are tried again at one of so many.
TURNS_OF_NOTED = 3


@dataclass(frozen=True)
class Has:
    """What a crate has."""

    tests: int = 0
    runs: int = 0
    edits: frozenset = frozenset()


def expected():
    """What each crate of the list has to have."""
    head, *lines = LIST.read_text(encoding="utf-8").splitlines()
    if head != HEAD:
        sys.exit(f"expected: {LIST.name} begins with another line than '{HEAD}'")
    has = {}
    for name, tests, runs, edits in (line.split("\t") for line in lines):
        has[name] = Has(int(tests), int(runs), frozenset(edits.split()))
    return has


def number_of_commit():
    """How many commits lead to the present one, or none where this isn't a repository with all of them."""
    how = {"cwd": TOP, "stdin": subprocess.DEVNULL, "stdout": subprocess.PIPE, "stderr": subprocess.DEVNULL, "text": True}
    is_shallow = subprocess.run(["git", "rev-parse", "--is-shallow-repository"], **how)
    counted = subprocess.run(["git", "rev-list", "--count", "HEAD"], **how)
    is_known = is_shallow.stdout.strip() == "false" and counted.returncode == 0
    return int(counted.stdout) if is_known else None


def waiting(wanted, number):
    """The crates whose one wrong body isn't tried at the commit of this number; none where it isn't known."""
    alone = sorted(name for name, its in wanted.items() if len(its.edits) == 1)
    return {name for at, name in enumerate(alone) if number is not None and number % TURNS != at % TURNS}


def due(wanted, number):
    """The crates whose bodies are tried at the commit of this number although they are noted; all where it isn't known."""
    several = sorted(name for name, its in wanted.items() if len(its.edits) > 1)
    return {name for at, name in enumerate(several) if number is None or number % TURNS_OF_NOTED == at % TURNS_OF_NOTED}
