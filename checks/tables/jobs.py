"""Jobs of several seats, which take turns over one shared table: what `test_jobs` prints for what each does, and what stands in
the table at the end.

The turns are written as the program takes them. All is worked out by hand from docs/TABLE.md.
"""
from __future__ import annotations

from dataclasses import dataclass, field

from tables import COPY, ROWS, START, WATCH, Row, Tables, encoded

# asks for cell 7 1 with its fifth instruction, and ends with the sixth: with 0 where there is a value, else with 1
ASK = "b701000007000000b702000001000000bfa300000000000007030000e0ffffff85000000010000009500000000000000"

# deletes cells 7 1 and 7 2, in seven instructions
DELETE_TWO = "b701000007000000b7020000010000008500000003000000b701000007000000b70200000200000085000000030000009500000000000000"


def jobs(digits: str, tasks: str, turns: str, text: str, first: int = 0) -> Row:
    """Jobs that take these turns over a table of an observer, as they say: the journal has this of the seats from that one on."""
    return Row(["jobs", digits, str(first), tasks, turns], out=text.encode(), program=ROWS)


# the result of a run: a number, one that is -1 with its sign, and its start
ENDS = [("b7000000070000009500000000000000", 7), ("b7000000ffffffff9500000000000000", 2**64 - 1), (START, 3)]


def ended_with(end: int) -> str:
    """A run that ends with this result."""
    return f"""\
1 begin run watch 7 -> at 3
1 read 3 7 0 -> found 1 2 value 2a
1 read 3 ack watch 7 0 -> absent
1 declare 3 run watch result {end} -> done
1 prewrite 3 ack watch 7 0 -> done
1 stamp 3 -> at 4
1 commit 3 -> committed
1 sweep 7 0 -> done
marks 0 locks 0
"""


# Runs where nobody is in the way: they commit, or there is nothing newer for them.

# a change and its run
WATCHED = """\
0 begin script -> at 1
0 declare 1 script; 7 0 value 2a -> done
0 prewrite 1 7 0 -> done
0 stamp 1 -> at 2
0 commit 1 -> committed
1 begin run watch 7 -> at 3
1 read 3 7 0 -> found 1 2 value 2a
1 read 3 ack watch 7 0 -> absent
1 declare 3 run watch result 0 -> done
1 prewrite 3 ack watch 7 0 -> done
1 stamp 3 -> at 4
1 commit 3 -> committed
1 sweep 7 0 -> done
marks 0 locks 0
"""

# a run that also writes a cell
COPIED = """\
1 begin run watch 7 -> at 3
1 read 3 7 0 -> found 1 2 value 2a
1 read 3 ack watch 7 0 -> absent
1 declare 3 run watch result 0; 7 1 value 2a -> done
1 prewrite 3 ack watch 7 0 -> done
1 prewrite 3 7 1 -> done
1 stamp 3 -> at 4
1 commit 3 -> committed
1 commit 3 7 1 -> done
1 sweep 7 0 -> done
marks 0 locks 0
"""

# a run that asks for a cell which isn't there
ASKED = """\
1 begin run watch 7 -> at 3
1 read 3 7 0 -> found 1 2 value 2a
1 read 3 ack watch 7 0 -> absent
1 read 3 7 1 -> absent
1 declare 3 run watch result 1 -> done
1 prewrite 3 ack watch 7 0 -> done
1 stamp 3 -> at 4
1 commit 3 -> committed
1 sweep 7 0 -> done
marks 0 locks 0
"""

# a run that asks for a cell which was written with the changed one
TOLD = """\
1 begin run watch 7 -> at 3
1 read 3 7 0 -> found 1 2 value 2a
1 read 3 ack watch 7 0 -> absent
1 read 3 7 1 -> found 1 2 value 2a
1 declare 3 run watch result 0 -> done
1 prewrite 3 ack watch 7 0 -> done
1 stamp 3 -> at 4
1 commit 3 -> committed
1 sweep 7 0 -> done
marks 0 locks 0
"""

# a change that commits while a run goes on, which the next run handles
CHANGED_AGAIN = """\
0 begin script -> at 1
0 declare 1 script; 7 0 value 2a -> done
0 prewrite 1 7 0 -> done
0 stamp 1 -> at 2
0 commit 1 -> committed
1 begin run watch 7 -> at 3
1 read 3 7 0 -> found 1 2 value 2a
1 read 3 ack watch 7 0 -> absent
0 begin script -> at 4
0 declare 4 script; 7 0 value 2a -> done
0 prewrite 4 7 0 -> done
0 stamp 4 -> at 5
0 commit 4 -> committed
1 declare 3 run watch result 0 -> done
1 prewrite 3 ack watch 7 0 -> done
1 stamp 3 -> at 6
1 commit 3 -> committed
1 sweep 7 0 -> still behind
2 begin run watch 7 -> at 7
2 read 7 7 0 -> found 4 5 value 2a
2 read 7 ack watch 7 0 -> found 3 6 stamp 3
2 declare 7 run watch result 0 -> done
2 prewrite 7 ack watch 7 0 -> done
2 stamp 7 -> at 8
2 commit 7 -> committed
2 sweep 7 0 -> done
marks 0 locks 0
"""

# the cell has no version
NOT_THERE = """\
1 begin run watch 7 -> at 1
1 read 1 7 0 -> absent
1 sweep 7 0 -> no mark
marks 0 locks 0
"""

# it has none in the snapshot of the run
TOO_LATE = """\
1 begin run watch 7 -> at 1
0 begin script -> at 2
0 declare 2 script; 7 0 value 2a -> done
0 prewrite 2 7 0 -> done
0 stamp 2 -> at 3
0 commit 2 -> committed
1 read 1 7 0 -> absent
1 sweep 7 0 -> still behind
marks 1 locks 0
"""

# a run that stops before its sweep, which another takes over
ACKNOWLEDGED = """\
1 begin run watch 7 -> at 3
1 read 3 7 0 -> found 1 2 value 2a
1 read 3 ack watch 7 0 -> absent
1 declare 3 run watch result 0 -> done
1 prewrite 3 ack watch 7 0 -> done
1 stamp 3 -> at 4
1 commit 3 -> committed
2 begin run watch 7 -> at 5
2 read 5 7 0 -> found 1 2 value 2a
2 read 5 ack watch 7 0 -> found 3 4 stamp 3
2 sweep 7 0 -> done
1 sweep 7 0 -> no mark
marks 0 locks 0
"""

ALONE = [
    jobs(WATCH, "c0 r1", "0:5 1:3 1/2 1:5 1=0", WATCHED),
    jobs(COPY, "c0 r1", "0:5 1:3 1/16 1:7 1=0", COPIED, 1),
    *(jobs(digits, "c0 r1", f"0:5 1:3 1/2 1:5 1={end}", ended_with(end), 1) for digits, end in ENDS),
    jobs(ASK, "c0 r1", "0:5 1:3 1/5 1:1 1/1 1:5 1=1", ASKED, 1),
    jobs(ASK, "c01 r1", "0:7 1:3 1/5 1:1 1/1 1:5 1=0", TOLD, 1),
    # from wherever it stands before its ask
    *(jobs(ASK, "c01 r1", f"0:7 1:3 1/{done} 1> 1:1 1> 1:5 1=0", TOLD, 1) for done in range(5)),
    jobs(WATCH, "c0 r1 c0 r2", "0:5 1:3 1/2 2:5 1:5 1=0 3:3 3/2 3:5 3=0", CHANGED_AGAIN),
    jobs(WATCH, "r1", "0:3 0=clean", NOT_THERE),
    jobs(WATCH, "r1 c0", "0:1 1:5 0:2 0=clean", TOO_LATE),
    jobs(WATCH, "c0 r1 r2", "0:5 1:3 1/2 1:4 2:4 2=clean 1:1 1=0", ACKNOWLEDGED, 1),
]


# asks for cells 7 1 and 7 2, and ends with the flag of the record: whether the cell had a value at the acknowledged timestamp
ASK_TWICE = encoded(
    "mov64 r6, r1; mov64 r3, r10; add64 r3, -32; mov64 r1, 7; mov64 r2, 1; call 1; mov64 r3, r10; add64 r3, -64; mov64 r1, 7; "
    "mov64 r2, 2; call 1; ldxdw r0, [r6+80]; exit"
)

# a run after the first change, whose record has no value of before, and one after the second, whose record has the first
TOLD_OF_BEFORE = """\
1 begin run watch 7 -> at 3
1 read 3 7 0 -> found 1 2 value 2a
1 read 3 ack watch 7 0 -> absent
1 read 3 7 1 -> absent
1 read 3 7 2 -> absent
1 declare 3 run watch result 0 -> done
1 prewrite 3 ack watch 7 0 -> done
1 stamp 3 -> at 4
1 commit 3 -> committed
1 sweep 7 0 -> done
1 begin run watch 7 -> at 7
1 read 7 7 0 -> found 5 6 value 2a
1 read 7 ack watch 7 0 -> found 3 4 stamp 3
1 read 7 7 0 at 3 -> found 1 2 value 2a
1 read 7 7 1 -> absent
1 read 7 7 2 -> absent
1 declare 7 run watch result 1 -> done
1 prewrite 7 ack watch 7 0 -> done
1 stamp 7 -> at 8
1 commit 7 -> committed
1 sweep 7 0 -> done
marks 0 locks 0
"""


def of_before(slots: int) -> Row:
    """Both runs of a program of so many slots, in profile 2, for the second version of the record."""
    code = encoded("mov64 r0, 0") * (slots - len(ASK_TWICE) // 8) + ASK_TWICE
    turns = "0:5 1:3 1> 1:1 1> 1:1 1> 1:5 1=0 2:5 3:4 3> 3:1 3> 3:1 3> 3:5 3=1"
    return jobs(f"2:{code.hex()}", "c0 r1 c0 r1", turns, TOLD_OF_BEFORE, 1)


BEFORE = [of_before(slots) for slots in (13, 17, 31, 64, 511, 512, 513, 1_000, 2_049, 3_002, 3_999, 4_095, 4_096)]


# Runs of two seats that are in one another's way, and changes in the way of a run.

# two runs for one change: the second meets the lock of the first
IN_TURNS = """\
1 begin run watch 7 -> at 3
2 begin run watch 7 -> at 4
1 read 3 7 0 -> found 1 2 value 2a
2 read 4 7 0 -> found 1 2 value 2a
1 read 3 ack watch 7 0 -> absent
2 read 4 ack watch 7 0 -> absent
1 declare 3 run watch result 0 -> done
2 declare 4 run watch result 0 -> done
1 prewrite 3 ack watch 7 0 -> done
2 prewrite 4 ack watch 7 0 -> conflict
1 stamp 3 -> at 5
1 commit 3 -> committed
1 sweep 7 0 -> done
marks 0 locks 0
"""

# it meets the write record of the first
AFTER_IT = """\
1 begin run watch 7 -> at 3
2 begin run watch 7 -> at 4
2 read 4 7 0 -> found 1 2 value 2a
2 read 4 ack watch 7 0 -> absent
1 read 3 7 0 -> found 1 2 value 2a
1 read 3 ack watch 7 0 -> absent
1 declare 3 run watch result 0 -> done
1 prewrite 3 ack watch 7 0 -> done
1 stamp 3 -> at 5
1 commit 3 -> committed
2 declare 4 run watch result 0 -> done
2 prewrite 4 ack watch 7 0 -> conflict
marks 1 locks 0
"""

# a change has a lock on the last of three cells, so that the run undoes the others
ON_ITS_WAY = """\
0 begin script -> at 1
0 declare 1 script; 7 0 value 2a -> done
0 prewrite 1 7 0 -> done
0 stamp 1 -> at 2
0 commit 1 -> committed
0 begin script -> at 3
0 declare 3 script; 7 2 value 2a -> done
1 begin run watch 7 -> at 4
1 read 4 7 0 -> found 1 2 value 2a
1 read 4 ack watch 7 0 -> absent
1 declare 4 run watch result 0; 7 1 deleted; 7 2 deleted -> done
1 prewrite 4 ack watch 7 0 -> done
1 prewrite 4 7 1 -> done
0 prewrite 3 7 2 -> done
1 prewrite 4 7 2 -> conflict
1 settle ack watch 7 0 -> rolled back
1 clear 7 1 -> rolled back
marks 1 locks 1
"""

# another settles the acknowledgment once the run has its commit timestamp
SETTLED = """\
0 begin script -> at 1
0 declare 1 script; 7 0 value 2a -> done
0 prewrite 1 7 0 -> done
0 stamp 1 -> at 2
0 commit 1 -> committed
1 begin run watch 7 -> at 3
1 read 3 7 0 -> found 1 2 value 2a
1 read 3 ack watch 7 0 -> absent
1 declare 3 run watch result 0; 7 1 value 2a -> done
1 prewrite 3 ack watch 7 0 -> done
1 prewrite 3 7 1 -> done
1 stamp 3 -> at 4
0 settle ack watch 7 0 -> rolled back
1 commit 3 -> lost
1 clear 7 1 -> rolled back
marks 1 locks 0
"""

# the same before the other cell is prewritten
SETTLED_EARLY = """\
0 begin script -> at 1
0 declare 1 script; 7 0 value 2a -> done
0 prewrite 1 7 0 -> done
0 stamp 1 -> at 2
0 commit 1 -> committed
1 begin run watch 7 -> at 3
1 read 3 7 0 -> found 1 2 value 2a
1 read 3 ack watch 7 0 -> absent
1 declare 3 run watch result 0; 7 1 value 2a -> done
1 prewrite 3 ack watch 7 0 -> done
0 settle ack watch 7 0 -> rolled back
1 prewrite 3 7 1 -> done
1 stamp 3 -> at 4
1 commit 3 -> lost
1 clear 7 1 -> rolled back
marks 1 locks 0
"""

# the second of two runs takes the lock of the first off the acknowledgment
TAKEN_OVER = """\
1 begin run watch 7 -> at 3
1 read 3 7 0 -> found 1 2 value 2a
1 read 3 ack watch 7 0 -> absent
1 declare 3 run watch result 0; 7 1 value 2a -> done
1 prewrite 3 ack watch 7 0 -> done
1 prewrite 3 7 1 -> done
2 begin run watch 7 -> at 4
2 read 4 7 0 -> found 1 2 value 2a
2 read 4 ack watch 7 0 -> locked 3 ack watch 7 0
2 clear ack watch 7 0 -> waits
2 settle ack watch 7 0 -> rolled back
2 clear ack watch 7 0 -> absent
2 read 4 ack watch 7 0 -> absent
1 stamp 3 -> at 5
1 commit 3 -> lost
1 clear 7 1 -> rolled back
2 declare 4 run watch result 0; 7 1 value 2a -> done
2 prewrite 4 ack watch 7 0 -> done
2 prewrite 4 7 1 -> done
2 stamp 4 -> at 6
2 commit 4 -> committed
2 commit 4 7 1 -> done
2 sweep 7 0 -> done
marks 0 locks 0
"""

RIVALS = [
    jobs(WATCH, "c0 r1 r2", "0:5 1:1 2:1 1:1 2:1 1:1 2:1 1/1 2/1 1/1 2/1 1:1 2:1 1:1 2:1 2=conflicted 1:3 1=0", IN_TURNS, 1),
    jobs(WATCH, "c0 r1 r2", "0:5 1:1 2:3 1:2 1/2 1:4 2/2 2:2 2=conflicted", AFTER_IT, 1),
    jobs(DELETE_TWO, "c0 c2 r1", "0:5 1:2 2:3 2/7 2:3 1:1 2:3 2=conflicted", ON_ITS_WAY),
    jobs(COPY, "c0 r1", "0:5 1:3 1/16 1:4 sa 1:2 1=lost", SETTLED),
    jobs(COPY, "c0 r1", "0:5 1:3 1/16 1:2 sa 1:4 1=lost", SETTLED_EARLY),
    jobs(COPY, "c0 r1 r2", "0:5 1:3 1/16 1:3 2:7 2/16 1:3 1=lost 2:7 2=0", TAKEN_OVER, 1),
]


# Locks that the reads of a run meet, each cleared in one way.

# the lock of a change that is committed: the run goes straight to its read again
COMMITTED = """\
1 begin run watch 7 -> at 3
1 read 3 7 0 -> locked 1 7 1
1 clear 7 0 -> committed at 2
1 read 3 7 0 -> found 1 2 value 2a
1 read 3 ack watch 7 0 -> absent
1 declare 3 run watch result 0 -> done
1 prewrite 3 ack watch 7 0 -> done
1 stamp 3 -> at 4
1 commit 3 -> committed
1 sweep 7 0 -> done
marks 0 locks 0
"""

# the lock of a change whose primary was settled
ROLLED_BACK = """\
1 begin run watch 7 -> at 2
1 read 2 7 0 -> locked 1 7 1
1 clear 7 0 -> rolled back
1 read 2 7 0 -> absent
1 sweep 7 0 -> no mark
marks 0 locks 0
"""

# the lock of a change whose primary is locked, which the run settles
WAITED = """\
0 begin script -> at 1
0 declare 1 script; 7 1 value 2a; 7 0 value 2a -> done
0 prewrite 1 7 1 -> done
0 prewrite 1 7 0 -> done
1 begin run watch 7 -> at 2
1 read 2 7 0 -> locked 1 7 1
1 clear 7 0 -> waits
1 settle 7 1 -> rolled back
1 clear 7 0 -> rolled back
1 read 2 7 0 -> absent
1 sweep 7 0 -> no mark
0 stamp 1 -> at 3
0 commit 1 -> lost
0 clear 7 0 -> absent
marks 0 locks 0
"""

# the change commits before the run settles its primary
OUTRUN = """\
0 begin script -> at 1
0 declare 1 script; 7 1 value 2a; 7 0 value 2a -> done
0 prewrite 1 7 1 -> done
0 prewrite 1 7 0 -> done
1 begin run watch 7 -> at 2
1 read 2 7 0 -> locked 1 7 1
1 clear 7 0 -> waits
0 stamp 1 -> at 3
0 commit 1 -> committed
1 settle 7 1 -> absent
1 clear 7 0 -> committed at 3
1 read 2 7 0 -> absent
1 sweep 7 0 -> still behind
marks 1 locks 0
"""

# the change commits the cell itself before the run clears it
GONE = """\
0 begin script -> at 1
0 declare 1 script; 7 1 value 2a; 7 0 value 2a -> done
0 prewrite 1 7 1 -> done
0 prewrite 1 7 0 -> done
0 stamp 1 -> at 2
0 commit 1 -> committed
1 begin run watch 7 -> at 3
1 read 3 7 0 -> locked 1 7 1
0 commit 1 7 0 -> done
1 clear 7 0 -> absent
1 read 3 7 0 -> found 1 2 value 2a
1 read 3 ack watch 7 0 -> absent
1 declare 3 run watch result 0 -> done
1 prewrite 3 ack watch 7 0 -> done
1 stamp 3 -> at 4
1 commit 3 -> committed
1 sweep 7 0 -> done
marks 0 locks 0
"""

# a lock of a later start is none for the run
LATER = """\
1 begin run watch 7 -> at 1
0 begin script -> at 2
0 declare 2 script; 7 0 value 2a -> done
0 prewrite 2 7 0 -> done
1 read 1 7 0 -> absent
1 sweep 7 0 -> no mark
marks 0 locks 1
"""

CLEARS = [
    jobs(WATCH, "c10 r1", "0:6 1:5 1/2 1:5 1=0 0:1", COMMITTED, 1),
    jobs(WATCH, "c10 r1", "0:4 s1 1:5 1=clean", ROLLED_BACK, 1),
    jobs(WATCH, "c10 r1", "0:4 1:7 1=clean 0:3", WAITED),
    jobs(WATCH, "c10 r1", "0:4 1:3 0:2 1:4 1=clean", OUTRUN),
    jobs(WATCH, "c10 r1", "0:6 1:2 0:1 1:3 1/2 1:5 1=0", GONE),
    jobs(WATCH, "r1 c0", "0:1 1:3 0:2 0=clean", LATER),
]


# How many locks the reads of a run meet.

CELL, ACKNOWLEDGMENT, ASKED_CELL = "7 0", "ack watch 7 0", "7 1"

# up to its declaration
DECLARES = "{0}:3 {0}/5 {0}:1 {0}/1 {0}:1"


@dataclass
class Story:
    """A change of cell 7 0 at 2, then jobs that have begun and will lock a cell, and a run by seat 2 that begins after them and
    meets their locks: the turns, and what the run receives. The run's job is the first, the change's the second. Each of the
    others begins one above its place.
    """

    tasks: list[str]
    turns: list[str] = field(default_factory=list)
    lines: list[str] = field(default_factory=list)

    def __post_init__(self) -> None:
        """Each task but the first begins and declares, in order, and then the first begins."""
        self.start = len(self.tasks) + 1
        self.turns.append("1:5")
        for place, task in enumerate(self.tasks[2:], 2):
            self.turns.append(f"{place}:2" if task[0] == "c" else DECLARES.format(place))
        self.asks(f"begin run watch 7 -> at {self.start}")

    def asks(self, line: str) -> None:
        """The run's next step, and the answer to it."""
        self.turns.append("0:1")
        self.lines.append(f"2 {line}\n")

    def reads(self, cell: str, answer: str) -> None:
        self.asks(f"read {self.start} {cell} -> {answer}")

    def meets(self, place: int, cell: str) -> None:
        """The job of this place locks the cell, as its own primary, and the run reads the cell."""
        self.turns.append(f"{place}:1")
        self.reads(cell, f"locked {place + 1} {cell}")

    def clears(self, first: int, end: int, cell: str) -> None:
        """The jobs of these places lock the cell, one after another, and the run takes each of the locks off."""
        for place in range(first, end):
            self.meets(place, cell)
            for line in (f"clear {cell} -> waits", f"settle {cell} -> rolled back", f"clear {cell} -> absent"):
                self.asks(line)

    def finds_cell(self) -> None:
        self.reads(CELL, "found 1 2 value 2a")

    def finds_acknowledgment(self) -> None:
        """It has no acknowledgment, and its machine goes on to its ask."""
        self.reads(ACKNOWLEDGMENT, "absent")
        self.turns.append("0/5")

    def ends(self, locks: int) -> Row:
        """The cell that it asks for is absent, and it goes on to its end."""
        self.reads(ASKED_CELL, "absent")
        self.turns += ["0/1", "0:5", "0=1"]
        start = self.start
        self.lines += [
            f"2 declare {start} run watch result 1 -> done\n",
            f"2 prewrite {start} ack watch 7 0 -> done\n",
            f"2 stamp {start} -> at {start + 1}\n",
            f"2 commit {start} -> committed\n",
            "2 sweep 7 0 -> done\n",
        ]
        return self.row(f"marks 0 locks {locks}")

    def is_blocked(self, locks: int) -> Row:
        """It is blocked, and the locks that stand are these."""
        self.turns.append("0=blocked")
        return self.row(f"marks 1 locks {locks}")

    def row(self, last: str) -> Row:
        return jobs(ASK, " ".join(self.tasks), " ".join(self.turns), f"{''.join(self.lines)}{last}\n", 2)


def story(first: int, second: int, third: int, more: tuple[str, ...] = ()) -> Story:
    """Of the jobs at the places from 2 on, those up to the first of these lock the cell, those up to the second the
    acknowledgment, and those up to the third the cell that is asked for."""
    return Story(["r2", "c0", *["c0"] * (first - 2), *["r1"] * (second - first), *["c1"] * (third - second), *more])


def by_63(first: int, second: int) -> Row:
    """A run that gets by 63 locks."""
    it = story(first, second, 65)
    it.clears(2, first, CELL)
    it.finds_cell()
    it.clears(first, second, ACKNOWLEDGMENT)
    it.finds_acknowledgment()
    it.clears(second, 65, ASKED_CELL)
    return it.ends(0)


def blocked_on_cell() -> Row:
    it = story(66, 66, 66)
    it.clears(2, 65, CELL)
    it.meets(65, CELL)
    return it.is_blocked(1)


def blocked_on_acknowledgment(first: int) -> Row:
    it = story(first, 66, 66)
    it.clears(2, first, CELL)
    it.finds_cell()
    it.clears(first, 65, ACKNOWLEDGMENT)
    it.meets(65, ACKNOWLEDGMENT)
    return it.is_blocked(1)


def blocked_on_ask(first: int, second: int) -> Row:
    it = story(first, second, 66)
    it.clears(2, first, CELL)
    it.finds_cell()
    it.clears(first, second, ACKNOWLEDGMENT)
    it.finds_acknowledgment()
    it.clears(second, 65, ASKED_CELL)
    it.meets(65, ASKED_CELL)
    return it.is_blocked(1)


def settled_around() -> Story:
    """Of the jobs 62 lock the cell, then one of it and cell 7 3, its primary, one of cells 7 2 and 7 3, and one more of the cell.
    The run meets 63 locks. Between its last `Clear` and its `Settle` another change takes the primary of the 63rd."""
    it = story(64, 64, 64, ("c30", "c23", "c0"))
    it.clears(2, 64, CELL)
    it.turns.append("64:2")
    it.reads(CELL, "locked 65 7 3")
    it.asks("clear 7 0 -> waits")
    it.turns += ["s3", "65:2"]
    it.asks("settle 7 3 -> locked 66 7 2")
    it.asks("clear 7 0 -> rolled back")
    return it


def uncounted() -> Row:
    """A lock that settling meets does not count."""
    it = settled_around()
    it.finds_cell()
    it.finds_acknowledgment()
    return it.ends(2)


def blocked_after_it() -> Row:
    it = settled_around()
    it.meets(66, CELL)
    return it.is_blocked(3)


LOCKS = [
    *(by_63(*places) for places in ((65, 65), (2, 65), (2, 2), (23, 44))),
    blocked_on_cell(),
    *(blocked_on_acknowledgment(first) for first in (2, 34)),
    *(blocked_on_ask(*places) for places in ((2, 2), (23, 44))),
    uncounted(),
    blocked_after_it(),
]

TABLES: Tables = {
    "runs alone": ALONE,
    "runs told of the value of before": BEFORE,
    "rival runs": RIVALS,
    "locks that runs clear": CLEARS,
    "how many locks a run meets": LOCKS,
}
