"""Workers: what `test_workers` prints for those that take turns, that come to the end of the journal or of the clock, that are
stopped at each of their steps, and whose tablets are swapped meanwhile; and which seats `finish` accepts.

All is worked out by hand from docs/TABLE.md. What several workers leave differs from time to time, and so does how often a
spare is changed: such a row has the facts that hold each time.
"""
from __future__ import annotations

import re
from collections.abc import Callable
from dataclasses import dataclass

from tables import COPIED, NOBODY, ONE, ROWS, WATCHED, Row, Tables, manifest_of, observer

# an observer that deletes the cell that it runs on, and so is due again in each pass
AGAIN = manifest_of(observer("again", 0, "3", "7912080000000000791100000000000085000000030000009500000000000000"))

LAST, LIMIT = 2**64 - 1, 1_000_000
CHOICES = ("ll", "ls", "sl", "ss")


def words_of(
    how: str, manifest: str, script: str, workers: int = 1, last: int = 0, limit: int = LIMIT, turns: str = "free",
    sorts: str = "ll", refused: int | str = "-", spares: tuple[str, ...] = (),
) -> list[str]:
    """The words of a task."""
    return [how, turns, *map(str, (workers, last, limit)), sorts, str(refused), manifest, script, *spares]


def numbers(word: str, items: list[int]) -> str:
    return " ".join([word, *map(str, items)]) + "\n"


def left(refusals: list[int], seats: list, unfinished: list[int]) -> str:
    """What is printed for seats that were refused with these numbers, or with 0, and received so many entries."""
    lines = "".join(f"seat {number} received {count}\n" for number, count in enumerate(seats))
    total = "*" if "*" in seats else sum(seats)
    return f"{numbers('refusals', refusals)}{lines}{numbers('unfinished', unfinished)}entries {total} theirs\n"


SEAT = re.compile(r"seat (\d+) received (\d+|\*)\n")


def ended_as(text: str) -> str:
    """What is printed for workers, with the end of it where no spare is swapped in: each seat passes the gate with each of its
    steps, also with the one that it is refused."""
    refusals = text.partition("\n")[0].split()[1:]
    passed = [count if count == "*" else str(int(count) + (code != "0")) for code, (_, count) in zip(refusals, SEAT.findall(text))]
    return f"{text}turns kept\npassed {' '.join(passed)}\nchanged\n"


def told(words: list[str], text: str) -> Row:
    """Workers for which this is printed, where no spare is swapped in."""
    return Row(["workers", *words], out=ended_as(text).encode(), program=ROWS)


@dataclass(frozen=True)
class Entry:
    """An entry of a journal: its step with the start and the number of the change in it, and its answer with a timestamp."""

    seat: int
    step: str
    start: int
    number: int
    answer: str
    ts: int


@dataclass(frozen=True)
class Account:
    """What is printed for workers: refusals by seat, how much each received, the changes that are left, the journal where it is
    listed, the report, and how often each spare was changed."""

    refusals: list[int]
    seats: list[int]
    unfinished: list[int]
    journal: list[Entry]
    report: list[str]
    changed: list[int]

    def steps(self, seat: int, *words: str) -> list[Entry]:
        """The entries of these steps of a seat."""
        return [entry for entry in self.journal if entry.seat == seat and entry.step in words]

    def counts(self, word: str) -> list[int]:
        """How many such steps each seat has."""
        return [len(self.steps(seat, word)) for seat in range(len(self.seats))]

    def stamps(self, seat: int) -> list[int]:
        return [entry.ts for entry in self.steps(seat, "stamp")]

    def is_whole(self) -> bool:
        """Whether no seat was refused, and all changes are committed."""
        return not any(self.refusals) and not self.unfinished

    def undone(self, count: int, workers: int) -> list[int] | None:
        """The numbers of the changes that the journal has not committed, or None where one is committed twice, or by another's
        worker."""
        declared = {entry.start: entry.number for entry in self.journal if entry.step == "declare"}
        commits = [entry for entry in self.journal if entry.step == "commit" and entry.answer == "committed"]
        made = [(declared[entry.start], entry.seat) for entry in commits if entry.start in declared]
        numbers = {number for number, _ in made}
        if len(numbers) < len(made) or any(seat != number % workers + 1 for number, seat in made):
            return None
        return sorted(set(range(count)) - numbers)


ACCOUNT = re.compile(
    r"refusals((?: \d+)+)\n((?:seat \d+ received \d+\n)+)unfinished((?: \d+)*)\nentries (\d+) theirs\n((?:entry .*\n)*)"
    r"accepted\n((?:(?:cell|runs|marks) .*\n)*(?:quiet\n)?)turns kept\npassed((?: \d+)+)\nchanged((?: \d+)*)\n"
)

ENTRY = re.compile(r"entry (\d+) ([a-z-]+) (\d+) (\d+) ([a-z-]+) (\d+)\n")


def is_step_of(seat: int, code: int) -> bool:
    """Whether what a seat was refused with this number is a step, which passes the gate, and not a swap."""
    return code > 0 if seat else code in (40, 44)


def account_of(text: str) -> Account | None:
    """The account that a text is: of turns that were kept, and of seats that `finish` accepts, each with the journal's entries of
    it, and that passed the gate with each of their steps."""
    found = ACCOUNT.fullmatch(text)
    if not found:
        return None
    refusals, unfinished, passed, changed = ([int(it) for it in found[part].split()] for part in (1, 3, 7, 8))
    seats = [(int(number), int(count)) for number, count in SEAT.findall(found[2])]
    journal = [Entry(int(seat), step, int(start), int(number), answer, int(ts))
               for seat, step, start, number, answer, ts in ENTRY.findall(found[5])]
    counts = [count for _, count in seats]
    is_counted = sum(counts) == int(found[4]) and len(journal) in (0, sum(counts)) and len(refusals) == len(seats)
    if not is_counted or [number for number, _ in seats] != list(range(len(seats))):
        return None
    if passed != [count + is_step_of(seat, code) for seat, (count, code) in enumerate(zip(counts, refusals))]:
        return None
    return Account(refusals, counts, unfinished, journal, found[6].splitlines(), changed)


def judged(words: list[str], facts: Callable[[Account], dict[str, bool]]) -> Row:
    """Workers of whom these facts hold, each time."""

    def judge(out: bytes) -> list[str]:
        account = account_of(out.decode())
        if account is None:
            return ["no account of kept turns and accepted seats, each step of which passed the gate"]
        return [f"it isn't so that {fact}" for fact, holds in facts(account).items() if not holds]

    return Row(["workers", *words], out=None, judge=judge, program=ROWS)


def starred(words: list[str], text: str) -> Row:
    """Workers for which this is printed, where a star stands for any number."""
    pattern = re.compile(re.escape(ended_as(text)).replace(r"\*", r"\d+"))
    return Row(["workers", *words], out=None, judge=lambda out: [] if pattern.fullmatch(out.decode()) else [f"wanted {text}"], program=ROWS)


def spares_of(sorts: str, count: int) -> tuple[str, ...]:
    """So many spares, for the first place and the second in turn, each of the other sort than the one that it replaces."""
    return tuple(f"{n % 2}{'ls'[(sorts[n % 2] == 'l') ^ (n // 2 % 2)]}" for n in range(count))


def numbered(count: int, rows: int) -> str:
    """So many changes of column 0, each of the row that its number is modulo so many. Each writes its number, in two bytes."""
    return "".join(f"put {number % rows} 0 {number:04x}\n" for number in range(count))


MADE_ONE = "cell 7 0 commit 2 value 2a\n"
COPIED_ONE = "cell 7 0 commit 2 value 2a\ncell 7 1 commit 4 value 2a\nruns copy 1\n"

# a worker's change takes two timestamps, and the main seat none; it makes five entries, the worker's pass one more, and that of
# the main seat another
BY_NUMBER = [
    told(words_of("told", NOBODY, ONE, last=LAST), left([0, 40], [1, 0], [0]) + "accepted\nquiet\n"),
    told(words_of("told", NOBODY, ONE, last=LAST - 1), left([0, 40], [1, 3], [0]) + "accepted\nmarks 0 locks 1\n"),
    told(
        words_of("told", NOBODY, ONE, last=LAST - 2),
        left([0, 0], [1, 6], []) + f"accepted\ncell 7 0 commit {LAST} value 2a\nquiet\n",
    ),
    told(words_of("told", NOBODY, "", last=LAST), left([0, 0], [1, 1], []) + "accepted\nquiet\n"),
    told(words_of("told", NOBODY, ONE, limit=0), left([44, 44], [0, 0], [0]) + "accepted\nquiet\n"),
    told(words_of("told", NOBODY, ONE, limit=4), left([44, 44], [0, 4], [0]) + "accepted\nmarks 0 locks 1\n"),
    told(words_of("told", NOBODY, ONE, limit=5), left([44, 44], [0, 5], []) + f"accepted\n{MADE_ONE}quiet\n"),
    told(words_of("told", NOBODY, ONE, limit=6), left([44, 0], [0, 6], []) + f"accepted\n{MADE_ONE}quiet\n"),
    told(words_of("told", NOBODY, ONE, limit=7), left([0, 0], [1, 6], []) + f"accepted\n{MADE_ONE}quiet\n"),
    told(words_of("told", NOBODY, f"{ONE}del 7 0\n", limit=6), left([44, 44], [0, 6], [1]) + f"accepted\n{MADE_ONE}quiet\n"),
    told(words_of("told", NOBODY, "", limit=0), left([44, 44], [0, 0], []) + "accepted\nquiet\n"),
    told(words_of("told", NOBODY, "", limit=1), left([44, 0], [0, 1], []) + "accepted\nquiet\n"),
    told(words_of("told", NOBODY, "", limit=2), left([0, 0], [1, 1], []) + "accepted\nquiet\n"),
    # the number that is lower is reported
    told(words_of("told", NOBODY, ONE, last=LAST, limit=0), left([44, 40], [0, 0], [0]) + "accepted\nquiet\n"),
]


def full_journal(account: Account) -> dict[str, bool]:
    return {
        "each seat finds the journal full": account.refusals == [44] * 64,
        "it has a hundred entries": len(account.journal) == 100,
        "the changes are left that it has not committed": account.unfinished == account.undone(1260, 63),
    }


def ended_clock(last_line: str) -> Callable[[Account], dict[str, bool]]:
    return lambda account: {
        "main has nothing to do, and each worker no timestamp": account.refusals == [0] + [40] * 63,
        "each change is left": account.unfinished == list(range(63)),
        f"{last_line} is told": account.report == [last_line],
    }


def few_changes(account: Account) -> dict[str, bool]:
    return {
        "all is made": account.is_whole() and len(account.seats) == 64,
        "the first three workers have a change": account.counts("begin") == [0, 1, 1, 1] + [0] * 60,
        "each makes a pass": all(account.seats),
        "each change is watched": account.report[-2:] == ["runs watch 3", "quiet"],
    }


def one_cell(account: Account) -> dict[str, bool]:
    undone = account.undone(126, 63)
    return {
        "none is refused": account.refusals == [0] * 64,
        "the changes are left that the journal has not committed": account.unfinished == undone,
        "some are committed": undone is not None and len(undone) < 126,
        "one cell is told": account.report[0].startswith("cell 0 0 commit ") and account.report[1:] == ["quiet"],
    }


# a pass has a mark, a run of ten, and no mark after it; the change has five
def thousand_passes(account: Account) -> dict[str, bool]:
    return {
        "all is made": account.is_whole(),
        "both make a thousand passes": account.counts("first-mark") == [1000, 1000],
        "each pass has twelve entries": account.seats == [12_000, 12_005],
        "a mark is left": account.report == ["cell 7 0 commit 4002 deleted", "runs again 2000", "marks 1 locks 0"],
    }


def passes_at_most(account: Account) -> dict[str, bool]:
    passes = account.counts("first-mark")
    return {
        "all is made": account.is_whole() and len(account.seats) == 5,
        "main makes a thousand passes": passes[0] == 1000,
        "each makes one, and a thousand at most": all(0 < count <= 1000 for count in passes),
        "work is left": account.report[-1] == "marks 1 locks 0",
    }


# of 63 workers each has twenty changes, which need a hundred entries: none comes to its end; with one timestamp left one worker
# begins, and its lock stays
ENDS = [
    judged(words_of("listed", NOBODY, numbered(1260, 1260), 63, limit=100), full_journal),
    judged(words_of("told", NOBODY, numbered(63, 63), 63, last=LAST), ended_clock("quiet")),
    judged(words_of("told", NOBODY, numbered(63, 63), 63, last=LAST - 1), ended_clock("marks 0 locks 1")),
    judged(words_of("listed", WATCHED, numbered(3, 3), 63), few_changes),
    judged(words_of("listed", NOBODY, numbered(126, 1), 63), one_cell),
    judged(words_of("listed", AGAIN, ONE), thousand_passes),
    judged(words_of("listed", AGAIN, ONE, 4), passes_at_most),
]


def sixty_changes() -> str:
    """Sixty changes of six rows, many of them of two cells."""
    lines = []
    for change in range(60):
        row, other = change % 6, change % 5 + 1
        more = "" if row == other else f"; del {other} 0"
        lines.append(f"put {row} 0 {change:02x}{more}\n")
    return "".join(lines)


# each asks for a mark, and a worker's fifteen changes have three entries at least
def many_entries(account: Account) -> dict[str, bool]:
    return {
        "none is refused": account.refusals == [0] * 5,
        "each received as many at least": all(count >= least for count, least in zip(account.seats, [1, 46, 46, 46, 46])),
    }


def listing(asks: int, writes: int) -> str:
    """What is listed of a change and its run, by one worker, and of main's question for a mark: the run reads so many cells more,
    and writes so many."""
    change = ["begin 0 0 at 1", "declare 1 10752 other 0", "prewrite 1 0 other 0", "stamp 1 0 at 2", "commit 1 0 committed 0"]
    mark = ["first-mark 0 0 other 0"]
    run = ["begin-run 0 0 at 3", *["other 0 0 other 0"] * (2 + asks), "declare-run 3 0 other 0"]
    run += ["prewrite 3 0 other 0"] * (1 + writes)
    run += ["stamp 3 0 at 4", "commit 3 0 committed 0", *["other 0 0 other 0"] * writes, "other 0 0 other 0"]
    end = ["other 0 0 no-mark 0", "first-mark 0 0 no-mark 0"]
    lines = [f"entry 1 {line}\n" for line in [*change, *mark, *run, *end]]
    return "".join(lines) + "entry 0 first-mark 0 0 no-mark 0\n"


def of_run(helpers: str, digits: str, asks: int = 0, writes: int = 0, written: str = "") -> Row:
    """A change and its run, which reads so many cells more than its own and its acknowledgement, and writes so many."""
    words = words_of("listed", manifest_of(observer(helpers=helpers, digits=digits)), ONE)
    report = f"accepted\n{written}{MADE_ONE}runs watch 1\nquiet\n"
    return told(words, left([0, 0], [1, 16 + asks + 2 * writes], []) + listing(asks, writes) + report)


ASKS = "b701000007000000b702000001000000bfa300000000000007030000e0ffffff8500000001000000"
DELETES = "b701000005000000b70200000f0000008500000003000000"
EXIT = "9500000000000000"
DELETED = "cell 5 15 commit 4 deleted\n"

# it asks, which is a read more; it writes a cell, which is prewritten and committed too; both; what it writes isn't kept,
# since it ends with 1; it ends with its start; no helper is called; none may be called
RUNS = [
    of_run("1,2,3,4", ASKS + EXIT, asks=1),
    of_run("1,2,3,4", DELETES + EXIT, writes=1, written=DELETED),
    of_run("1,2,3,4", ASKS + DELETES + EXIT, 1, 1, DELETED),
    of_run("1,2,3,4", f"{DELETES}b700000001000000{EXIT}"),
    of_run("4", f"8500000004000000{EXIT}"),
    of_run("1,2,3,4", f"b700000000000000{EXIT}"),
    of_run("", f"b700000000000000{EXIT}"),
    judged(words_of("told", COPIED, sixty_changes(), 4), many_entries),
    told(words_of("told", NOBODY, ""), left([0, 0], [1, 1], []) + "accepted\nquiet\n"),
]


# the second worker's commit stands before the first one's
def crossed(account: Account) -> dict[str, bool]:
    cells = ["cell 1 0 commit 4 value 01", "cell 1 1 commit 4 value 02", "cell 2 0 commit 3 value 03"]
    return {
        "all is made": account.is_whole() and len(account.seats) == 3,
        "the second has its stamp first": (account.stamps(1), account.stamps(2)) == ([4], [3]),
        "it commits first": [entry.seat for entry in account.journal if entry.answer == "committed"] == [2, 1],
        "the report has both": account.report == [*cells, "quiet"],
    }


# a try is three steps, and a pass follows
def stubborn(account: Account) -> dict[str, bool]:
    tries = [(entry.step, entry.start, entry.answer, entry.ts) for entry in account.steps(2, "begin", "begin-run", "prewrite")]
    conflicts = [[("begin", 0, "at", start), ("prewrite", start, "conflict", 0)] for start in range(2, 102)]
    return {
        "the second change is left": account.unfinished == [1] and account.refusals == [0, 0, 0],
        "the first has its stamp behind all tries": account.stamps(1) == [102],
        "each of a hundred tries is a conflict": tries == [step for steps in conflicts for step in steps],
        "nothing else is asked but for a mark": account.seats[2] == 301,
        "the first change is told": account.report == ["cell 1 0 commit 102 value 01", "quiet"],
    }


def together(account: Account) -> dict[str, bool]:
    runs = account.counts("declare-run")
    return {
        "all is made": account.is_whole() and len(account.seats) == 3,
        "both declare a run": runs[1] > 0 and runs[2] > 0,
        "each change is watched": account.report[-2:] == ["runs watch 2", "quiet"],
    }


def gathered(workers: int) -> Callable[[Account], dict[str, bool]]:
    """All were there at once, before any made a step."""
    return lambda account: {"all is made": account.is_whole() and len(account.seats) == workers + 1}


TURNS = [
    *(
        judged(words_of("listed", NOBODY, "put 1 0 01; put 1 1 02\nput 2 0 03\n", 2, turns="crossing", sorts=sorts), crossed)
        for sorts in CHOICES
    ),
    judged(words_of("listed", NOBODY, "put 1 0 01\nput 1 0 02\n", 2, turns="stubborn"), stubborn),
    judged(words_of("listed", WATCHED, "put 1 0 01\nput 2 0 02\n", 2, turns="together"), together),
    *(
        judged(words_of("told", NOBODY, script, workers, turns="gathered"), gathered(workers))
        for workers in (3, 8, 63)
        for script in ("", numbered(2 * workers, 2 * workers))
    ),
]

# a change is made by the first, and each makes a pass
EACH_NUMBER = [
    told(
        words_of("told", NOBODY, ONE, workers),
        left([0] * (workers + 1), [1, 6] + [1] * (workers - 1), []) + f"accepted\n{MADE_ONE}quiet\n",
    )
    for workers in range(1, 64)
]


def copied(code: int, *changed: range, row: int = 7) -> Callable[[Account], dict[str, bool]]:
    """What is left of a change and its copy beside spares, the first refusal of which has this number, or 0 for none, and of each
    of which it is known how often it is changed."""
    report = [*COPIED_ONE.replace("cell 7", f"cell {row}").splitlines(), "quiet"]
    return lambda account: {
        "the change is made and copied": account.report == report and not account.unfinished,
        f"main's refusal is {code}": account.refusals == [code, 0],
        "the worker made all passes": [entry.answer for entry in account.steps(0, "first-mark")] == ["no-mark"]
        and account.seats == [1, 18],
        "the spares are changed as often": all(count in at for count, at in zip(account.changed, changed, strict=True)),
    }


NEVER, ONCE, SOME, ANY = range(1), range(1, 2), range(1, 100), range(100)


def beside(code: int, spares: str, *changed: range, row: int = 7, **words: str) -> Row:
    """A change of a row and its copy beside these spares."""
    script = f"put {row} 0 2a\n"
    return judged(words_of("listed", COPIED, script, spares=tuple(spares.split()), **words), copied(code, *changed, row=row))


# swapped in after the last step a spare is changed once too, when the entries are copied into it; the first refusal is reported,
# for a place that there isn't, and not the second, for what is in it, into which only the mark was put before; and the other way
# round
SPARES = [
    beside(0, "0l", SOME),
    beside(0, ""),
    beside(5, "2l 0lm 0l", NEVER, ONCE, SOME),
    beside(4, "1l 0lm 2l", ANY, ONCE, NEVER),
    # the second place, which has the rows from 1,000 on: a spare there is changed, and one of the first place isn't
    beside(0, "1l", SOME, row=1000),
    beside(0, "1s", SOME, row=2**64 - 1, sorts="sl"),
    beside(0, "0s 1s 1l", NEVER, ANY, SOME, row=1000, sorts="ls"),
    beside(0, "1l 0l", NEVER, SOME, row=999),
    beside(0, "1l", NEVER),
]

# more than the two of a spare into which the lock is copied and which is emptied at once
MORE = range(4, 100)

# the first spare takes the first tablet's place before the worker has its stamp, and the second before it goes on, so that the
# lock is copied into it, and the commit comes to it; where it refuses the copy, that is main's refusal, and all else is as
# without it; in the last rows the second spare takes the second tablet's place, where the lock is
MEANWHILE = [
    *(beside(0, spares, SOME, MORE, turns="swapping", sorts=sorts) for sorts in CHOICES for spares in ("0l 0s", "0s 0l")),
    *(beside(1, f"0l 0{sort}r", MORE, ONCE, turns="swapping") for sort in "ls"),
    beside(1, "0l 0sr 0l", SOME, ONCE, SOME, turns="swapping"),
    beside(1, "0s 0lr 2l 0lm 1l", MORE, ONCE, NEVER, ONCE, NEVER, turns="swapping"),
    *(beside(0, spares, NEVER, MORE, turns="swapping", sorts=sorts, row=1000) for sorts in CHOICES for spares in ("0l 1s", "0s 1l")),
]


def nothing(account: Account) -> dict[str, bool]:
    return {"there is nothing to do": account.is_whole() and account.report == ["quiet"]}


def many_swaps(account: Account) -> dict[str, bool]:
    return {
        "all is made": account.is_whole() and len(account.seats) == 64,
        "each change is watched": account.report[-2:] == ["runs watch 1260", "quiet"],
    }


# each change is of a row of its own, some below and some above the second tablet's first row
SWAPS = [
    *(
        judged(words_of("listed", COPIED, ONE, sorts=sorts, spares=spares_of(sorts, swaps)), copied(0, *[ANY] * swaps))
        for sorts in CHOICES
        for swaps in (0, 1, 2, 7)
        if (sorts, swaps) != ("ll", 0)
    ),
    *(judged(words_of("told", NOBODY, "", 2, sorts=sorts, spares=spares_of(sorts, 3)), nothing) for sorts in CHOICES),
    judged(
        words_of("told", WATCHED, numbered(1260, 1260), 63, sorts="ls", spares=spares_of("ls", 1000)),
        many_swaps,
    ),
]


def finish(other: str, operations: str) -> Row:
    """A change by the first of two workers, whose seats `finish` accepts once they are moved so, beside those of another script."""
    words = ["finish", NOBODY, ONE, other, *operations.split()]
    return Row(["workers", *words], out=f"accepted\n{MADE_ONE}quiet\n".encode(), program=ROWS)


# a seat left out; a seat twice, each list of which is the journal's, without and beside the third; and a list of another table,
# the first of which differs in what is declared alone, and the others in how much was received
REFUSED_SEATS = [
    *(finish(ONE, f"-{place} f +") for place in range(3)),
    finish(ONE, "-2 o1 f + f x2"),
    *(finish(other, "-1 o1 f x2 +") for other in ("put 7 0 2b\n", "put 7 0 2a\nput 8 0 2a\nput 9 0 2a\n", "")),
]

ANY_ORDER = [finish(ONE, operations) for operations in ("s01", "s02", "s12", "s01 s02", "s01 s12")]

TABLES: Tables = {
    "one worker is refused by number": BY_NUMBER,
    "how workers end": ENDS,
    "so many entries of a change and its run": RUNS,
    "turns": TURNS,
    "each number of workers": EACH_NUMBER,
    "spares in their places": SPARES,
    "spares while a worker is held": MEANWHILE,
    "swaps beside workers": SWAPS,
    "seats that finish refuses": REFUSED_SEATS,
    "seats in any order": ANY_ORDER,
}
