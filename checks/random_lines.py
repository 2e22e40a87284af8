"""Random lines for `percobpf_keep`, of each kind that docs/KEEPING.md describes, and random manifests, for `checks/keep`.

Lines are about few cells, so that conditions meet changes.
"""
from __future__ import annotations

from pathlib import Path

from random_texts import line_of, manifest_for_one, manifest_from

TOP = Path(__file__).resolve().parent.parent
LAST = 2**64 - 1

# Examples whose observers come to rest, and one whose observer never does.
AT_REST = ("copy", "counter", "chain", "watch", "meter", "grader", "copier", "no-observers")
ENDLESS = "endless"
NO_OBSERVERS = TOP / "examples/no-observers.json"

# How often a line of each kind comes, and how often within a group.
QUESTIONS = {"get": 12, "since": 7, "list": 4, "quiet?": 4, "stats": 4, "compact": 2, "copy": 2}
ALONE = {"change": 34, "condition": 16, "begin": 8, **QUESTIONS, "faulty": 12, "turned": 4, "long": 1}
GROUPED = {"change": 70, "condition": 4, "begin": 2, **QUESTIONS, "faulty": 14, "turned": 6, "long": 1, "end": 30}

# Lines of which nearly all are refused; where `{}` stands, a change is put.
FAULTY = (
    *("", " ", "#", "# a remark", "end ", " end", "end 1", "begin ", "nothing", "PUT 7 0 2a", "begin 7", "\x00"),
    *("put", "del", "put 7 0", "put 7 0 ", "put 7 0 2", "put 7 0 2A", "put 7 0 2g", "put 7 0 2a 2a", "put 7 16 2a", "put 7 x 2a"),
    *("put  7 0 2a", "del 7", "del 7 0 1", "put 18446744073709551616 0 2a", "put 7 0 2a;", "put 7 0 2a; ", "put 7 0 2a;del 7 1"),
    *("put 7 0 2a ; del 7 1", "; put 7 0 2a", "put 7 0 2a; put 7 0 2b", "put 7 0 2a; del 7 0"),
    *("get", "since", "list ", "list 7", "quiet", "quiet? 1", "get 7", "get 7 0 1", "get 7 16", "get 07 0", "get -7 0", "get +7 0"),
    *("get 18446744073709551616 0", "get  7 0", "get 7 0; get 8 0", "get 99999999999999999999 16", "get 16 99999999999999999999"),
    *("list; list", "since -1", "since 01", "since 18446744073709551616", "since 1 2", "since x", "since 99999999999999999999 9"),
    *("since  1", "since 1; list", "stat", "stats ", "stats 7", "stats; stats", " stats", "Stats"),
    *("compact ", " compact", "compact 7", "compacts", "Compact", "compact; compact", "--compact"),
    *("copy", "copy ", "copy 7 8", "copy  7", "copy 07", "copy -7", "copy x", "copy /tmp/7", "copy ../7", "Copy 7", "copy 7; copy 8"),
    *("copy 18446744073709551616", "copy 99999999999999999999 9"),
    *("if", "if 7 0 0; end", "if 7 0 0; begin", "if 7 0; put 7 0 2a", "if 7 0 0", "if 7 16 0", "if 7 0 0; ", "if 7 0 0;"),
    *("if 7 0 x; put 7 0 2a", "if 7 0 18446744073709551616; put 7 0 2a", "if 7 0 0; get 7 0", "if 7 0 0; # put 7 0 2a"),
    *("if 7 0 0; put 7 0 2", "if 7 0 0; if 7 1 0; put 7 0 2a", "if 7 0 0 0; put 7 0 2a", "if 7 0 9; put 7 16 2a"),
    *("if 7 0 00; put 7 0 2a", "if  7 0 0; put 7 0 2a"),
    *("{}\r", "\ufeff{}", "{}\x00", "\t{}", " {}", "{} ", "{}; {}", "#{}", "{};; put 9 9 00", "if 7 0 0; {}; end", "get 7 0; {}"),
    "{}\u2028{}",
)
NOT_TEXT = (b"\xff", b"put 7 0 2a\x80", b"\xc0\xaf", b"\xed\xa0\x80", b"get 7 \xf5", b"\xf0\x9f\x98", b"end\xfe")
BYTES = b" ;;0123456789abcdefx\r\t\0\xff#{put del if get"

# Lengths about the limit of a line, and about what the program reads at once.
LENGTHS = (4095, 4096, 4097, 5000, 65_535, 65_536, 65_537, 200_000)


def manifest_of(pick, field):
    """A manifest: of an example, or of random programs."""
    chance = pick.random()
    if chance < 0.5:
        return (TOP / f"examples/{pick.choice(AT_REST)}.json").read_text()
    if chance < 0.55:
        return (TOP / f"examples/{ENDLESS}.json").read_text()
    return manifest_for_one(pick) if chance < 0.8 else few_from(pick, field)


def few_from(pick, field):
    """Two observers at most, with random programs, which may mark one another's cells without end."""
    while True:
        manifest = manifest_from(pick, field)
        if manifest.count('"name"') <= 2:
            return manifest


def cell_from(pick, field):
    return pick.choice(field.rows), pick.choice(field.columns)


def change_from(pick, field):
    """A change; now and then one of as many cells as a line may have, each with a whole value, or of one more."""
    if pick.random() < 0.97:
        return line_of(pick, field)
    row = pick.choice((0, LAST - 1))
    return "; ".join(f"put {row + cell // 16} {cell % 16} {pick.randbytes(32).hex()}" for cell in range(pick.choice((16, 16, 17))))


def condition_from(pick, field, kept):
    """A change with a condition, which holds in half of them, outside of groups."""
    row, column = cell_from(pick, field)
    its = kept.commit_of(row, column)
    wrong = (0, 1, max(its - 1, 0), its + 1, pick.randrange(kept.table.clock + 1), LAST)
    commit = its if pick.random() < 0.5 else pick.choice(wrong)
    operations = pick.choice(FAULTY) if pick.random() < 0.05 else change_from(pick, field)
    return f"if {row} {column} {commit}; {operations}"


def since_from(pick, kept):
    clock = kept.table.clock
    return f"since {pick.choice((0, clock, max(clock - 1, 0), max(clock - 20, 0), pick.randrange(clock + 1), LAST))}"


def turned(pick, line):
    """A line of which a byte is taken out, put in, or another one."""
    at, other = pick.randrange(len(line) + 1), bytes([pick.choice(BYTES)])
    return pick.choice((line[:at] + line[at + 1 :], line[:at] + other + line[at:], line[:at] + other + line[at + 1 :]))


def faulty_from(pick, field):
    if pick.random() < 0.15:
        return pick.choice(NOT_TEXT)
    return pick.choice(FAULTY).replace("{}", line_of(pick, field)).encode()


def long_from(pick):
    """A line of many bytes: of a number, of operations, or of blanks."""
    length = pick.choice(LENGTHS)
    return (pick.choice((b"since 1", b"put 7 0 2a", b"get ", b"")) + pick.choice((b"0", b"; put 7 0 2a", b" ", b"\xff")) * length)[:length]


def line_from(pick, field, kept):
    """The kind of a line, and its bytes, after what a table has taken."""
    kinds = ALONE if kept.waiting is None else GROUPED
    (kind,) = pick.choices(list(kinds), list(kinds.values()))
    if kind == "change":
        return kind, change_from(pick, field).encode()
    if kind == "condition":
        return kind, condition_from(pick, field, kept).encode()
    if kind == "get":
        return kind, "get {} {}".format(*cell_from(pick, field)).encode()
    if kind == "since":
        return kind, since_from(pick, kept).encode()
    if kind == "copy":
        return kind, f"copy {len(kept.copies)}".encode()
    if kind == "faulty":
        return kind, faulty_from(pick, field)
    if kind == "turned":
        line = pick.choice((line_of(pick, field), condition_from(pick, field, kept), "quiet?", "list", "stats", "compact", "end", "begin"))
        return kind, turned(pick, line.encode())
    if kind == "long":
        return kind, long_from(pick)
    if kind == "end" or kept.waiting is not None or pick.random() < 0.95:
        return kind, kind.encode()
    # one that stands in no group
    return "end", b"end"
