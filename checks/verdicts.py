"""What a check of a crate says of one of its functions, in the prover's own words: what `checks/wrong-bodies` judges by.

A function isn't proved for one of several reasons, of which only the first speaks of its contract:
- at a clause, of its own or of what it calls, or at its type's invariant, the facts known there allow values at which the goal is
  false: antt found such values and checked them;
- a goal is left open, since the search found nothing or gave up at one of its limits: it may hold;
- the text of the function's proof doesn't fit: it names what is gone, or an answer there no longer proves its goal.

Where a function isn't proved the prover makes its goals once more, to offer the text of their answers, which takes as long as the
search did. It offers none where that text has a fault of its own. So a check has one planted there, which is no answer: a function
with it never counts as proved, and what the prover says of its goals is the same.
"""
from __future__ import annotations

import re
from dataclasses import dataclass
from pathlib import Path

# The line on a function that isn't proved for a reason of its own, and not since something that it calls isn't.
UNPROVED = re.compile(r"^(?:fn|impl) (\S+): (?:not proved|no proof)(?!.*(?:it calls|it passes|a call of))", re.M)
ERROR = re.compile(r"^(?:\./)?(?P<file>\S+?):(?P<line>\d+):\d+: error: (?P<goal>`[^`]*`: )?(?P<said>.*)", re.M)
# A goal that is left open: the place of its function or of a statement there, its name, and why.
OPEN = re.compile(r"^note: (?:\./)?(?P<file>src/\S+?):(?P<line>\d+):\d+: it is not proved that .*\(`(?P<goal>[^`]+)`\)(?P<why>.*)$", re.M)
FALSE = "the facts known there allow values at which this goal is false"
# The goals of clauses: what a function ensures where it returns, what a call in it asks for, and what a type keeps.
AT_CLAUSE = re.compile(r"^returns|\brequires\b|^invariant_of\b")
# A name that is no longer there; with the name, where it is one of another module.
NAME_GONE = re.compile(r"has no field|can be named from here|is not in scope")
GONE = re.compile(r"has no `([^`]+)` that can be named from here")
NOT_COVERED = re.compile(r"(?:borrow checker|generated proof) does not cover|no proof is generated|gets no generated proof|because of a bug in rattle")
IS_UNREAD = re.compile(r"is not in scope|has no field|is no name|operand is missing|expected the end|cannot continue")
# The files of a function's own proof, an answer to a goal in one, and a line there that names goals.
OWN_FILES = ("Answers.antt", "Proof.antt", "Invariants.antt")
ANSWER = re.compile(r"(?:abbrev |unfoldable )*pub (\S+) : goal\.")
# What is planted, and the goal that its fault is told of.
PLANTED_GOAL = "left-to-see"
PLANTED = f"\npub {PLANTED_GOAL} : Type 0\n"
# The goals of a function that aren't tried, since it calls one that isn't proved.
WAITING = re.compile(r"^note: `search` has not tried the goals of `(\S+)`", re.M)
USE_OF_GOALS = re.compile(r"use \S+\.(?:Goals|Given)\.\{(?P<names>[^}]*)\}\s*$")


@dataclass
class Said:
    """What a check said: its status, and its text."""

    status: int
    text: str

    @property
    def has_verdict(self):
        return re.search(r"^(?:logic=(?:not-)?proved|only=\d+ proved=)", self.text, re.M) is not None

    @property
    def is_refusal(self):
        """Whether it ended with something that isn't proved, and not at a limit or with what can't be read."""
        is_told = re.search(r"^(?:logic=not-proved|only=\d+ proved=)", self.text, re.M) is not None
        return self.status == 1 and is_told and UNPROVED.search(self.text) is not None

    def unread(self):
        """The first line on a text that can't be read: its place is in src/ or specs/, and it is of no goal."""
        for it in ERROR.finditer(self.text):
            if it["file"].startswith(("src/", "specs/")) and (not it["goal"] or IS_UNREAD.search(it["said"])):
                return it[0]
        return None

    def is_not_covered(self, functions):
        """Whether it says of one of these functions, or of any where there are none, that its form isn't covered."""
        lines = [it for it in self.text.split("\n") if NOT_COVERED.search(it)]
        return any(not functions or any(its.name in it for its in functions) for it in lines)

    def unproved(self, functions, files):
        """Whether one of these functions, or any where there are none, isn't proved for a reason of its own. `files` has the file
        that declares each type."""
        paths = UNPROVED.findall(self.text)
        return bool(paths) if not functions else any(it.is_meant_by(path, files) for it in functions for path in paths)

    def is_false_at_a_clause(self, functions):
        """Whether a goal of a clause of one of these functions, or of any where there are none, is shown to be false."""
        goals = [it for it in OPEN.finditer(self.text) if FALSE in it["why"] and AT_CLAUSE.search(it["goal"])]
        return any(not functions or any(is_at(its, it) for its in functions) for it in goals)

    def shows_why(self, functions):
        """Whether a goal of one of these functions is left open, or its own proof doesn't fit."""
        return any(is_at(its, it) for its in functions for it in OPEN.finditer(self.text)) or bool(self.own_errors(functions))

    def waits(self, functions, files):
        """Whether goals of one of these functions weren't tried."""
        return any(its.is_meant_by(path, files) for its in functions for path in WAITING.findall(self.text))

    def own_errors(self, functions):
        """What it says against the text of the proof of these functions, or of any where there are none, but for what is planted: by
        file, the lines and the names that are gone."""
        found = {}
        for it in ERROR.finditer(self.text):
            path = Path(it["file"])
            if it["goal"] == f"`{PLANTED_GOAL}`: ":
                continue
            if path.name in OWN_FILES and (not functions or any(is_proof_of(its, path) for its in functions)):
                gone = GONE.findall(it["said"]) or (["?"] if NAME_GONE.search(it["said"]) else [])
                found.setdefault(it["file"], []).append((int(it["line"]), gone))
        return found


def is_at(function, place):
    """Whether a line of a check is of a place in this function."""
    return place["file"] == function.file and function.first_line <= int(place["line"]) <= function.last_line


def is_proof_of(function, path):
    """Whether a file of proofs/ is of this function: in the folder of its name, below that of its type where it has one."""
    folders = [it.lstrip("+") for it in path.parts[:-1]]
    return function.name in folders[-1:] and (not function.owner or any(it.startswith(function.owner) for it in folders[:-1]))


def owners_of(text):
    """For each line of a file of answers, the goal to whose answer it belongs, or None."""
    owners = []
    for line in text.split("\n"):
        begun = ANSWER.match(line)
        # what closes an answer stands at the beginning of a line, and belongs to it
        is_head = line and not line[0].isspace() and line[0] not in ")}]"
        before = owners[-1] if owners else None
        owners.append(begun[1] if begun else before if not is_head or line.split()[0] == before else None)
    return owners


def without(text, lines, names):
    """A file of answers without the answers in which these lines stand or which name these goals, and without the names in its
    head; or None where a line is neither in an answer nor in a head that names goals."""
    parts, owners = text.split("\n"), owners_of(text)
    heads = {at for at, line in enumerate(parts) if USE_OF_GOALS.match(line)}
    if any(owners[line - 1] is None and line - 1 not in heads for line in lines):
        return None
    mentions = re.compile("|".join(rf"(?<![\w-]){re.escape(it)}(?![\w-])" for it in sorted(names)) or r"(?!)")
    gone = {owners[line - 1] for line in lines} | {owner for line, owner in zip(parts, owners) if mentions.search(line)}
    kept = []
    for at, (line, owner) in enumerate(zip(parts, owners)):
        if at in heads:
            head = USE_OF_GOALS.match(line)
            left = [it for it in head["names"].split(", ") if it not in names]
            line = line[: head.start("names")] + ", ".join(left) + "}" if left else ""
        if owner is None or owner not in gone:
            kept.append(line)
    return "\n".join(kept)


def set_aside(texts, errors):
    """The texts of these files of proofs without what the errors are of: None for one that goes as a whole, since what is wrong
    stands in none of its answers."""
    left = {}
    for file, its in errors.items():
        lines = [line for line, _ in its]
        names = {it for _, gone in its for it in gone} - {"?"}
        left[file] = without(texts[file], lines, names) if texts.get(file) else None
    return left
