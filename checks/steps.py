"""What checks/steps.tsv says of the gate: its lines and checks, with their time limits and what each has to print, and how much there
is of what they count.

The list is written by hand, and isn't made of what is there. So what is taken out of the gate, or out of what it counts, stands in the
diff twice. Where a line stands:
- `run`: a line of .ci/run, word for word; one with a limit in seconds is a step;
- `side`: a check of checks/side-by-side, with its limit;
- `count`: how much there is of something that the sources have;
- `figure`: the last ratio of a benchmark that a page names.

In what a step prints, and of what is counted, a number is the least that there may be, after `=` the only one, and after `<` the
greatest. `*` stands for any number, and `..` for any text.
"""
from __future__ import annotations

import ast
import re
import sys
from dataclasses import dataclass

from expectations import expected
from sources import EDITS, TOP, lines_of_crates, settled_of
from tried import UNTRIED, notes

LIST = TOP / "checks/steps.tsv"
HEAD = "where\tseconds\twhat\twhat it prints"
PLACES = ("run", "side", "count", "figure")
NONE = "-"
# A part of what is printed: a number with its mark, any number, or any text.
PART = re.compile(r"(?P<mark>[=<]?)(?<![\w.,])(?P<number>\d+(?:\.\d+)?)(?![\w]|[.,]\d)|(?P<any>\*)|(?P<text>\.\.)")
NUMBER = r"(-?\d+(?:\.\d+)?)"
# What is noted by hand as settled, without a row or a check of the repository.
BY_VALUES = "at "
LAST = re.compile(r"\d+ passed, \d+ failed$")


@dataclass(frozen=True)
class Step:
    """A line of the list."""

    where: str
    seconds: str
    what: str
    prints: str


def steps():
    """The lines of the list, by where they stand."""
    head, *lines = LIST.read_text(encoding="utf-8").splitlines()
    if head != HEAD:
        sys.exit(f"expected: {LIST.name} begins with another line than '{HEAD}'")
    found = {place: [] for place in PLACES}
    for line in lines:
        step = Step(*line.split("\t"))
        found[step.where].append(step)
    return found


# The gate's own lines


def lines_of_run():
    """The lines of .ci/run, without comments."""
    lines = (it.strip() for it in (TOP / ".ci/run").read_text(encoding="utf-8").splitlines())
    return [it for it in lines if it and not it.startswith("#")]


def checks_beside():
    """The checks of checks/side-by-side, with their limits."""
    tree = ast.parse((TOP / "checks/side-by-side").read_text(encoding="utf-8"))
    of = (it.value for it in tree.body if isinstance(it, ast.Assign) and getattr(it.targets[0], "id", "") == "CHECKS")
    return {name: str(seconds) for it in of for name, seconds in ast.literal_eval(it).items()}


def faults_of_lines(listed):
    """Where the gate's lines are others than those of the list."""
    wanted = [it.what if it.seconds == NONE else f"checks/within {it.seconds} {it.what}" for it in listed["run"]]
    there = lines_of_run()
    for line in [it for it in wanted if it not in there]:
        yield f".ci/run hasn't the line '{line}' of {LIST.name}"
    for line in [it for it in there if it not in wanted]:
        yield f".ci/run has the line '{line}', and {LIST.name} hasn't"
    if sorted(there) == sorted(wanted) and there != wanted:
        yield f"the lines of .ci/run stand in another order than in {LIST.name}"
    checks, named = checks_beside(), {it.what: it.seconds for it in listed["side"]}
    for name in sorted(checks.keys() | named.keys()):
        if checks.get(name) != named.get(name):
            yield f"checks/side-by-side: {name} has the limit {checks.get(name, 'none')}, and {named.get(name, 'none')} in {LIST.name}"


# What is counted


def counts_there():
    """How much there is of what the list counts."""
    rows = dict(re.findall(r"^(\w+)_COUNT = (\d+)$", (TOP / "checks/tables/__init__.py").read_text(encoding="utf-8"), re.M))
    edits = [it for name, below in lines_of_crates() if below is not None for it in (TOP / "crates" / name / EDITS).glob("*.edit")]
    wanted = expected().values()
    return {
        "rows": int(rows["ROW"]),
        "tables of rows": int(rows["TABLE"]),
        "wrong bodies": len(edits),
        "wrong bodies settled by values alone": sum(settled_of(it).startswith(BY_VALUES) for it in edits),
        "wrong bodies noted as tried": sum(it.count for it in notes().values() if it.made != UNTRIED),
        "wrong bodies of the gate": sum(len(it.edits) for it in wanted),
        "tests of the gate": sum(it.tests for it in wanted),
    }


def last_ratios():
    """The last ratio of each benchmark."""
    lines = (line.split("\t") for line in (TOP / "bench/RESULTS.tsv").read_text(encoding="utf-8").splitlines()[1:])
    return {bench: ratio for _, _, _, bench, ratio, _ in lines if ratio != NONE}


def faults_of_counts(listed):
    """Where there is another count or ratio than the list has."""
    there, named = counts_there(), [it.what for it in listed["count"]]
    if sorted(there) != sorted(named):
        yield f"{LIST.name} counts {', '.join(sorted(set(named) ^ set(there)))}, or one of them twice"
    for it in listed["count"]:
        if it.what in there and not is_printed(it.prints, str(there[it.what])):
            yield f"{there[it.what]} {it.what} are there, and {it.prints} in {LIST.name}"
    ratios = last_ratios()
    for it in listed["figure"]:
        if ratios.get(it.what) != it.prints:
            yield f"'{it.what}' is {ratios.get(it.what, 'missing')} in bench/RESULTS.tsv, and {it.prints} in {LIST.name}"


def faults_of_gate():
    """Where the gate, or what it counts, is another than the list has it."""
    listed = steps()
    yield from faults_of_lines(listed)
    yield from faults_of_counts(listed)


# What the gate printed


def shape_of(prints):
    """The expression of what a step prints, with a group for each of its numbers."""
    parts, at = [], 0
    for it in PART.finditer(prints):
        parts += [re.escape(prints[at : it.start()]), ".*" if it["text"] else NUMBER]
        at = it.end()
    return re.compile("".join([*parts, re.escape(prints[at:])]))


def bounds_of(prints):
    """For each number of what a step prints, how it is bounded, and by what; or none where it is any."""
    return [(it["mark"], float(it["number"])) if it["number"] else None for it in PART.finditer(prints) if not it["text"]]


def is_printed(prints, line):
    """Whether a line is what a step has to print."""
    found = shape_of(prints).fullmatch(line)
    if not found:
        return False
    holds = {"": lambda came, bound: came >= bound, "=": lambda came, bound: came == bound, "<": lambda came, bound: came <= bound}
    return all(it is None or holds[it[0]](float(came), it[1]) for it, came in zip(bounds_of(prints), found.groups()))


def faults_of_printed(text):
    """Where the gate printed something else than the list has."""
    listed, lines = steps(), text.splitlines()
    for step in (*listed["run"], *listed["side"]):
        if step.prints != NONE and not any(is_printed(step.prints, line) for line in lines):
            near = next((it for it in reversed(lines) if shape_of(step.prints).fullmatch(it)), "no such line")
            yield f"{step.what} has to print '{step.prints}', and the gate printed: {near}"
    for step in listed["side"]:
        ended = re.compile(rf"checks/{re.escape(step.what)}: status 0 after \d+ s")
        if not any(ended.fullmatch(line) for line in lines):
            yield f"checks/{step.what} didn't end with status 0"


def last_line(text):
    """The last line of what `rt ci` printed, if that is one."""
    last = text.rstrip("\n").rpartition("\n")[2]
    return last if LAST.match(last) else None
