"""What the clients in Python and C do with answers that are none, with lines that aren't sent, and in callers that have little left, for
`checks/clients`.

- answers: at each call, of each answer that is none, both report that the table has gone, and so does each call after it.
- lines: a text with a newline in it isn't sent, and each line after it gets its own answer.
- callers: two tables in one process, processes that were forked, and standard streams that were closed.
"""
from __future__ import annotations

import os
import socket
import subprocess
import sys
import threading

from clients_room import COPY, SECONDS, TOP, expect
from percobpf import Cell, Gone, Made, Refused, Table

TOO_HIGH = 1 << 64

# What is no answer to any line.
NONE = (
    b"", b"\n", b"made 2 runs 1", b"made\n", b"made 2\n", b"made 2 runs\n", b"made 2 runs 1 more\n", b"made 2 runs 1 \n",
    b" made 2 runs 1\n",
    b"made  2 runs 1\n", b"made -1 runs -1\n", b"made +2 runs 1\n", b"made 02 runs 1\n", b"made 2 unquiet 1\n", b"made 2 runs 1\r\n",
    b"made 2 runs %d\n" % TOO_HIGH, b"made %d unquiet\n" % TOO_HIGH, b"made " + b"9" * 400 + b" runs 1\n", b"made 2 runs 1\0\n",
    "made \u0662 runs 1\n".encode(), b"refused\n", b"refused x\n", b"refused 7\n", b"refused 770\n", b"refused 77\n", b"refused 77 x\n",
    b"refused 71 5\n", b"refused 99999999999\n", b"refused 77 %d\n" % TOO_HIGH, b"refused -1\n", b"unmade\n", b"unmade commit\n",
    b"unmade commit x\n", b"unmade commit %d\n" % TOO_HIGH, b"value 2 commit 4\n", b"value 2g commit 4\n", b"value 2A commit 4\n",
    b"value " + b"00" * 33 + b" commit 4\n", b"value  commit 4\n", b"value 2a commit\n", b"deleted\n", b"deleted commit x\n", b"absent x\n",
    b"quiet?\n", b"marks 1\n", b"marks 1 locks %d\n" % TOO_HIGH, b"compacted\n", b"compacted x\n", b"compacted %d\n" % TOO_HIGH,
    b"cell 7 0 commit\n", b"cell 7 0 commit 2\n", b"cell 7 0 commit 2 value\n", b"cell %d 0 commit 2 deleted\n" % TOO_HIGH,
    b"runs copy\n", b"stats copy runs 1\n", b"log x\n", b"entries\n", b"hello\n", b"\xff\n", b"x" * 5_000 + b"\n", b"x" * 5_000,
)  # fmt: skip

# Each call of the client in Python, and answers that are none to it, though to others.
CALLS = {
    "change": (lambda table: table.change("put 7 0 2a"), (b"absent\n", b"quiet\n", b"end\n", b"begun\n", b"value 2a commit 4\n")),
    "changes": (lambda table: table.changes(["put 7 0 2a"] * 20_000), (b"absent\n", b"end\n", b"made 2 runs 1\nquiet\n")),
    "group": (lambda table: table.group(["put 7 0 2a"]), (b"made 2 runs 1\n", b"begun\nended\n", b"begun\nmade 2 runs 1\nmade 4 runs 1\n")),
    "get": (lambda table: table.get(7, 0), (b"made 2 runs 1\n", b"quiet\n", b"end\n", b"unmade commit 2\n")),
    "since": (
        lambda table: table.since(0),
        (b"made 2 runs 1\n", b"runs copy 1\n", b"cell 7 0 commit 2 deleted\nquiet\n", b"cell 7 16 commit 2 deleted\n"),
    ),
    "list": (lambda table: table.list(), (b"made 2 runs 1\n", b"log 5\n", b"quiet\nrefused 70\n", b"quiet\n")),
    "stats": (lambda table: table.stats(), (b"made 2 runs 1\n", b"quiet\n", b"log 5\n")),
    "is_quiet": (lambda table: table.is_quiet(), (b"made 2 runs 1\n", b"absent\n", b"end\n", b"quiet 1\n")),
    "compact": (lambda table: table.compact(), (b"made 2 runs 1\n", b"quiet\n", b"absent\n")),
    "copy": (lambda table: table.copy(7), (b"made 2 runs 1\n", b"compacted 3\n", b"quiet\n")),
}

MOST = TOO_HIGH - 1
# The longest answers that there are.
LONGEST_CELL = f"cell {MOST} 15 commit {MOST} value {'f0' * 32}"
LONGEST_STATS = f"stats {'a' * 32} runs {MOST} nonzero {MOST} conflicts {MOST} asks {MOST} instructions {MOST}"
DISTINCT = bytes(range(1, 33)).hex()

# Answers to the client in C, with the kind, the commit, the runs and the code of its result, and the digits of its value.
KNOWN = (
    (b"made 2 runs 1", "0 2 1 0", ""), (b"made 18446744073709551615 unquiet", "1 18446744073709551615 0 0", ""),
    (b"unmade commit 0", "2 0 0 0", ""),
    (b"refused 70", "3 0 0 70", ""), (b"refused 77 8", "3 8 0 77", ""), (b"value 2a commit 4", "4 4 0 0", "2a"),
    (b"value " + b"f0" * 32 + b" commit 4", "4 4 0 0", "f0" * 32), (f"value {DISTINCT} commit {MOST}".encode(), f"4 {MOST} 0 0", DISTINCT),
    (b"deleted commit 6", "5 6 0 0", ""), (b"absent", "6 0 0 0", ""),
    (b"compacted 5", "7 0 0 0", ""), (b"copied 5", "7 0 0 0", ""), (b"marks 1 locks 0", "7 0 0 0", ""), (b"cell 7 0 commit 2 value 2a", "7 0 0 0", ""),
    (b"stats co-py1 runs 1 nonzero 0 conflicts 0 asks 0 instructions 16080", "7 0 0 0", ""), (b"end", "7 0 0 0", ""),
    (LONGEST_CELL.encode(), "7 0 0 0", ""), (LONGEST_STATS.encode(), "7 0 0 0", ""),
)  # fmt: skip


def shown(head, value=""):
    """What checks/clients_faults.c prints of a result, whose value has zeros after these digits."""
    return f"{head} {value.ljust(64, '0')}"


GONE, UNSENT = shown("8 0 0 0"), shown("9 0 0 0")


class Server:
    """Listens at a socket, and sends each client that comes the next of these texts, after what it sent at once; then ends the connection.
    Where nothing more was sent, the client meets an end after the text, and no fault of the connection."""

    def __init__(self, path, texts):
        self.texts, self.server = texts, socket.socket(socket.AF_UNIX, socket.SOCK_STREAM)
        self.server.bind(os.fspath(path))
        self.server.listen()
        self.server.settimeout(SECONDS)
        self.thread = threading.Thread(target=self.serve, daemon=True)

    def serve(self):
        for text in self.texts:
            end, _ = self.server.accept()
            with end:
                end.settimeout(SECONDS)
                end.recv(1 << 16)
                end.sendall(text)

    def __enter__(self):
        self.thread.start()
        return self

    def __exit__(self, kind, *_ended):
        # where the check has failed, nobody comes any more
        if kind is None:
            self.thread.join()
        self.server.close()


def kind_of(call, table):
    """What a call raises, or None."""
    try:
        call(table)
    except Exception as fault:
        return type(fault)
    return None


# Answers


def try_answers(folder):
    """Each call of the client in Python, of each answer that is none."""
    texts = [(name, text) for name, (_, others) in CALLS.items() for text in (*NONE, *others)]
    met = 0
    with Server(folder / "answers", [text for _, text in texts]):
        for name, text in texts:
            with Table.connect(folder / "answers") as table:
                call = CALLS[name][0]
                expect(f"{name} that is answered {text[:60]!r}", kind_of(call, table), Gone)
                expect(f"a call after {name} that was answered {text[:60]!r}", kind_of(lambda it: it.get(7, 0), table), Gone)
                met += 1
    expect("answers that are none", met, len(CALLS) * len(NONE) + sum(len(others) for _, others in CALLS.values()))
    expect("a socket at which nobody listens", kind_of(Table.connect, folder / "answers"), Gone)
    expect("a socket that isn't there", kind_of(Table.connect, folder / "nowhere"), Gone)
    for said in ("open x", "open", f"open {TOO_HIGH}", "open 1 1", "made 2 runs 1", ""):
        program = folder / "beginning"
        program.write_text(f"#!/bin/sh\nprintf '{said}\\n'\nexec sleep {10 * SECONDS}\n")
        program.chmod(0o755)
        expect(f"a program that begins with {said!r}", kind_of(lambda it: Table.start(COPY, folder / "no.log", it), program), Gone)


def try_c_answers(folder, made):
    """The client in C, of answers that are none, and of all kinds that there are."""
    with Server(folder / "c-answers", NONE):
        for text in NONE:
            ended = run_c(made, "asked", folder / "c-answers", "get 7 0", "get 7 0")
            expect(f"what is answered {text[:60]!r} in C", ended, [GONE, GONE])
    for number, (text, head, value) in enumerate(KNOWN):
        with Server(folder / f"c-known-{number}", [text + b"\n"]):
            expect(f"what is answered {text!r} in C", run_c(made, "asked", folder / f"c-known-{number}", "get 7 0"), [shown(head, value)])


# Lines


def try_lines(program, folder):
    """Texts with a newline, wherever a caller hands one in."""
    both, log = "put 7 0 2a\nput 666 0 66", folder / "lines.log"
    calls = (
        lambda it: it.change(both), lambda it: it.change("put 7 0 2a", "put 8 0 2b\n"),
        lambda it: it.change("put 7 0 2a", when=(7, 0, "0; put 6 0 66\n")),
        lambda it: it.changes(["put 7 0 2a", both]), lambda it: it.group(["put 7 0 2a", both]), lambda it: it.get("7 0\nget 8", 0),
        lambda it: it.since("0\nquiet?"),
    )  # fmt: skip
    with Table.start(COPY, log, program) as table:
        for number, call in enumerate(calls):
            expect(f"text {number} with a newline", kind_of(call, table), ValueError)
            expect("what was made of it", [table.get(row, 0) for row in (6, 7, 8, 666)], [None] * 4)
        expect("a change after these", table.change("put 7 0 2a"), Made(2, 1))
        expect("a cell after these", table.get(7, 0), Cell(7, 0, 2, b"\x2a"))
        expect("a line that isn't known", kind_of(lambda it: it.change("nothing"), table), Refused)
        expect("a line with another answer than that of a change", kind_of(lambda it: it.change("get 7 0"), table), Gone)
        expect("a call after that", kind_of(lambda it: it.get(7, 0), table), Gone)
    expect("a table that was closed", kind_of(lambda it: it.get(7, 0), table), Gone)


# Callers


def run_c(made, *words):
    """The lines that checks/clients_faults.c prints."""
    ended = subprocess.run([made, *map(os.fspath, words)], stdout=subprocess.PIPE, timeout=SECONDS, text=True)
    expect(f"the status of {words[0]}", ended.returncode, 0)
    return ended.stdout.splitlines()


def try_c_callers(program, folder, made):
    logs = [folder / f"c-faults-{number}.log" for number in range(8)]
    change = shown("0 2 1 0")
    expect("two tables", run_c(made, "two", program, COPY, *logs[:2]), [change, "first 0", change, "second 0"])
    expect("a table of forked processes", run_c(made, "forked", program, COPY, logs[2]), [change, shown("0 6 1 0"), "closed 0"])
    for number, digits in enumerate(("0", "1", "2", "01", "012"), 3):
        expect(f"closed streams {digits}", run_c(made, "closed", program, COPY, logs[number], digits), [change, "closed 0"])
    with Table.start(COPY, logs[0], program) as table:
        expect("the log of a caller in C", table.get(7, 1), Cell(7, 1, 4, b"\x2a"))


CALLER = """
import os, sys
for digit in sys.argv[5]:
    os.close(int(digit))
sys.path.insert(0, sys.argv[1])
from percobpf import Table
first, second = (Table.start(sys.argv[3], f"{sys.argv[4]}{name}", sys.argv[2]) for name in "ab")
first.change("put 7 0 2a")
child = os.fork()
if child == 0:
    first.close()
    os._exit(0)
os.waitpid(child, 0)
holding = os.fork()
if holding == 0:
    os.execvp("sleep", ["sleep", "600"]) if sys.argv[5] else __import__("time").sleep(600)
try:
    assert first.get(7, 1).value == b"*"
    first.close()
    assert second.change("put 7 0 2b").commit == 2
    second.close()
finally:
    os.kill(holding, 9)
    os.waitpid(holding, 0)
sys.exit(7)
"""


def try_callers(program, folder):
    """Two tables of a caller in Python with closed streams, and processes that were forked from it."""
    for digits in ("", "0", "1", "2", "01", "012"):
        words = [sys.executable, "-c", CALLER, TOP / "clients", program, COPY, folder / f"python-{digits}", digits]
        ended = subprocess.run(words, timeout=SECONDS, stderr=subprocess.DEVNULL if "2" in digits else None)
        expect(f"the status of a caller in Python without the streams {digits}", ended.returncode, 7)


def compiled(folder):
    """The callers in C that have little left."""
    made = folder / "faults"
    words = ["cc", "-std=c11", "-D_DEFAULT_SOURCE", "-Wall", "-Wextra", "-pedantic", "-Werror", "-O2", "-o", made]
    subprocess.run([*words, TOP / "checks/clients_faults.c", TOP / "clients/percobpf_client.c"], check=True)
    return made


def try_faults(program, folder):
    made = compiled(folder)
    try_answers(folder)
    try_c_answers(folder, made)
    try_lines(program, folder)
    with_newline = run_c(made, "asked", answering(folder), "put 7 0 2a\nput 666 0 66")
    expect("a line with a newline in C", with_newline, [UNSENT])
    try_c_callers(program, folder, made)
    try_callers(program, folder)


def answering(folder):
    """A socket at which the next client is let in, and isn't answered."""
    server = socket.socket(socket.AF_UNIX, socket.SOCK_STREAM)
    server.bind(os.fspath(folder / "silent"))
    server.listen()
    server.settimeout(SECONDS)
    threading.Thread(target=lambda: (server.accept()[0].recv(1), server.close())).start()
    return folder / "silent"
