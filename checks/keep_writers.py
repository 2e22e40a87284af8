"""Clients of `percobpf_keep` that die within a line, for `checks/keep`: what stands after the last newline is no line, and nothing is done
with it.

- fronts: an input ends after each byte of a line of a change, before its newline. So do lines of other kinds, in a group too, and where
  questions alone are answered.
- killed: a client that writes lines of 16 cells to a pipe is killed. The lines that came whole are made, and nothing else.
- parted: a client sends the front of its next line with each, and waits for the answer before it goes on.
"""
from __future__ import annotations

import os
import select
import subprocess
import sys
from collections import Counter

import logs
from keep_ends import expect
from keep_questions import ALONE

# A line that is made, and one of which only a front comes. Nobody observes their columns.
WHOLE, FRONT = b"put 9 5 01\n", b"put 7 5 2a2b; put 8 5 2c"

# Other lines without their newline, and one that is longer than a line may be.
OTHERS = (b"get 9 5", b"since 0", b"list", b"quiet?", b"stats", b"compact", b"begin", b"end", b"if 9 5 2; put 7 5 2a", b"nothing", b"#", b"\xff", b"x" * 5000)

# What a client writes over and over that is killed, how many bytes have come by then, at least, and how often one is.
WRITER = """
import os
lines = [b"; ".join(b"put %d %d " % (row, column) + b"%02x" % (row + 1) * 32 for column in range(16)) for row in range(200)]
while True:
    os.write(1, b"\\n".join(lines) + b"\\n")
"""
CAME, KILLS = 3_000, 12

# What a client sends that waits for each answer, and how long it waits.
IN_TURN, SECONDS = (b"put 9 5 01", b"get 9 5", b"nothing", b"put 9 5 02", b"begin", b"end", b"quiet?"), 20


def is_left_out(room, what, text, printed, made, options=()):
    """An input of this text is answered by these lines, and the log has these changes then."""
    log = room.log("front")
    if options:
        room.run(log, ["put 9 5 01"])
    expect(what, room.send(log, text, options=options), (0, printed, ""))
    expect(f"the log after {what}", logs.changes_in(log.read_bytes(), room.manifest.read_bytes()), made)


def try_fronts(room):
    """Ends inputs within lines. Answers how many there were."""
    whole, made = WHOLE.decode().rstrip("\n"), ["open 0", "made 2 runs 0"]
    for front in (*(FRONT[:count] for count in range(1, len(FRONT) + 1)), *OTHERS):
        is_left_out(room, f"{front[:30]!r} without a newline", WHOLE + front, made, [whole])
    for front in (FRONT, b"end"):
        is_left_out(room, f"{front!r} in a group without a newline", WHOLE + b"begin\n" + WHOLE + front, made, [whole])
        is_left_out(room, f"{front!r} alone", front, ["open 0"], [])
    for front in (b"get 9 5", b"put 7 5 2a", b"nothing"):
        is_left_out(room, f"{front!r} where questions alone are answered", b"quiet?\n" + front, ["open 1 of 1", "quiet"], [whole], ALONE)
    return len(FRONT) + len(OTHERS) + 4 + 3


def cut_off(number):
    """What came of a client that was killed."""
    with subprocess.Popen([sys.executable, "-c", WRITER], stdout=subprocess.PIPE) as client:
        came = client.stdout.read(CAME + 1009 * number)
        client.kill()
        return came + client.stdout.read()


def try_killed(room):
    """Kills a client so often. Answers how many lines came whole, and of how many a part came."""
    whole = parts = 0
    for number in range(KILLS):
        log, came = room.log("cut-off"), cut_off(number)
        status, out, errors = room.send(log, came)
        *lines, front = came.decode().split("\n")
        answers = [line.split(" ")[0] for line in out[1:]]
        expect("a client that was killed", (status, out[:1], answers, errors), (0, ["open 0"], ["made"] * len(lines), ""))
        expect("the changes of a client that was killed", logs.changes_in(log.read_bytes(), room.manifest.read_bytes()), lines)
        whole += len(lines)
        parts += front != ""
    return whole, parts


def came_of(running, count):
    """What a program prints, up to so many lines, or as much as comes in time."""
    came = b""
    while came.count(b"\n") < count and select.select([running.stdout], [], [], SECONDS)[0]:
        some = os.read(running.stdout.fileno(), 4096)
        if not some:
            break
        came += some
    return came


def try_parted(room):
    """Sends lines so. Answers how many answers came while the front of the next line was there. Those of a group come after its `end`."""
    count, held = 0, b""
    with room.start(room.log("parted")) as running:
        expect("a client that waits", came_of(running, 1), b"open 0\n")
        for line, following in zip(IN_TURN, (*IN_TURN[1:], b"")):
            front, wanted = following[: len(following) // 2], {b"begin": 0, b"end": 2}.get(line, 1)
            running.stdin.write(line[len(held) :] + b"\n" + front)
            running.stdin.flush()
            held = front
            came = came_of(running, wanted)
            expect(f"the answers to {line!r} while a front of the next line waits: {came!r}", came.count(b"\n"), wanted)
            count += wanted
    return count


def try_all(room):
    """Tries all of it, and counts what was met."""
    met = Counter({"inputs that end within a line": try_fronts(room), "answers before a line is whole": try_parted(room)})
    met["lines of clients that were killed"], met["parts of a line"] = try_killed(room)
    return met
