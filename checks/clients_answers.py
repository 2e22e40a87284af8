"""What the clients in Python and C do with each answer of a change, and how what they started ends, for `checks/clients`.

- conditions: one with the commit 0 holds of a cell that was never written, and of no other.
- refused: where lines are refused or unmade, all answers of a call are read, and the next call gets its own.
- ends: a program that ends within an answer, with a status of its own, or by a signal.
- groups: those of two clients at once, and answers that a client takes late.
"""
from __future__ import annotations

import time

from clients_faults import compiled, run_c, shown
from clients_room import COPY, NO_OBSERVERS, SECONDS, Client, Relay, expect
from percobpf import Cell, Gone, Made, Refused, Table, Unmade

# How many rows a table has whose lists are taken late, how many lists there are, and how long nobody takes them, in seconds.
ROWS, LISTS, LATE = 500, 40, 0.5

# Programs that answer one line, and how each ends: what the client in C prints of the answer and of the end.
ENDING = {
    "status": ("printf 'made 2 runs 1\\n'\ncat >/dev/null\nexit 3", [shown("0 2 1 0"), "closed 3"]),
    "signal": ("printf 'made 2 runs 1\\n'\ncat >/dev/null\nkill -9 $$", [shown("0 2 1 0"), "closed -1"]),
    "within": ("printf 'made 2 runs 1'\nexit 0", [shown("8 0 0 0"), "closed 0"]),
    "before": ("exit 4", [shown("8 0 0 0"), "closed 4"]),
}


def fault_of(call):
    """What a call raises of what was refused or unmade: the code or the commit; or None."""
    try:
        call()
    except Refused as fault:
        return f"code {fault.code}"
    except Unmade as fault:
        return f"commit {fault.commit}"
    return None


def try_conditions(table):
    expect("a change", table.change("put 9 0 01"), Made(2, 1))
    expect("no write, of a cell that was written", fault_of(lambda: table.change("put 9 0 02", when=(9, 0, 0))), "commit 2")
    expect("what it left", table.get(9, 0), Cell(9, 0, 2, b"\x01"))
    expect("no write, of a cell that wasn't written", table.change("put 8 0 01", when=(8, 0, 0)), Made(6, 1))
    expect("a write that is gone", fault_of(lambda: table.change("del 8 0", when=(8, 0, 2))), "commit 6")


def try_refused(table):
    """After the changes of try_conditions, whose last run has the commit 8."""
    lines = ["put 1 0 01", "put 1 16 01", "if 9 0 0; put 1 0 02", "put 2 0 02"]
    expect("a refused line among others", fault_of(lambda: table.changes(lines)), "code 71")
    expect("the one after it", table.get(2, 0), Cell(2, 0, 14, b"\x02"))
    expect("the one before it", table.get(1, 0), Cell(1, 0, 10, b"\x01"))
    lines = ["if 9 0 0; put 3 0 03", "put 3 16 01", "put 3 0 04"]
    expect("an unmade line before others", fault_of(lambda: table.changes(lines)), "commit 2")
    expect("the last one", table.get(3, 0), Cell(3, 0, 18, b"\x04"))
    lines = ["put 4 0 04", "put 4 16 04", "put 5 0 05"]
    expect("a refused line of a group", fault_of(lambda: table.group(lines)), "code 71")
    expect("the others of the group", [table.get(row, 0).value for row in (4, 5)], [b"\x04", b"\x05"])
    expect("a change after these", table.change("put 7 0 2a"), Made(30, 1))


# Ends


def program_of(folder, name, text):
    made = folder / name
    made.write_text(f"#!/bin/sh\nprintf 'open 0\\n'\nread line\n{text}\n")
    made.chmod(0o755)
    return made


def is_gone(call):
    try:
        call()
    except Gone:
        return True
    return False


def try_endings(folder):
    made = compiled(folder)
    for name, (text, said) in ENDING.items():
        program = program_of(folder, name, text)
        expect(f"a program that ends: {name}, in C", run_c(made, "closed", program, COPY, folder / "no.log", ""), said)
        with Table.start(COPY, folder / "no.log", program) as table:
            is_answered = said[0] != shown("8 0 0 0")
            expect(f"a program that ends: {name}", is_gone(lambda: table.change("put 7 0 2a")), not is_answered)
    for name, text, status in (("three", "exit 3", 3), ("killed", "kill -9 $$", 128 + 9)):
        relay = Relay(program_of(folder, name, text), folder, f"relay-{name}", NO_OBSERVERS).start()
        with Client(relay) as client:
            expect("an answer of a program that ends", client.ask("put 7 0 2a"), None)
        expect(f"the status of a relay whose program ends: {name}", relay.running.wait(SECONDS), status)
        expect("what it wrote", relay.errors, "")


# Groups, and answers that are taken late


def try_groups_at_once(program, folder):
    with Relay(program, folder, "groups", NO_OBSERVERS) as relay, Client(relay) as one, Client(relay) as other, Client(relay) as third:
        one.send(b"begin\nput 1 0 01\n")
        other.send(b"begin\nput 2 0 02\n")
        expect("a change while two groups are open", third.ask("put 3 0 03"), "made 2 runs 0")
        other.send(b"put 2 1 21\nend\n")
        expect("the group that ends first", [other.read() for _ in range(4)], ["begun", "made 4 runs 0", "made 6 runs 0", "ended"])
        expect("what the other one has left so far", third.ask("get 1 0"), "absent")
        one.send(b"end\n")
        expect("the group that ends last", [one.read() for _ in range(3)], ["begun", "made 8 runs 0", "ended"])
        try_late(relay)


def try_late(relay):
    """A client that doesn't take its answers for a while gets all of them."""
    with Client(relay) as client:
        client.send(b"".join(b"put %d 2 %s\n" % (row, b"ab" * 32) for row in range(ROWS)))
        expect("rows of a table", [client.read()[:5] for _ in range(ROWS)], ["made "] * ROWS)
        client.send(b"list\n")
        lines = list(iter(client.read, "end"))
        client.send(b"list\n" * LISTS)
        time.sleep(LATE)
        for number in range(LISTS):
            expect(f"the list {number} that is taken late", list(iter(client.read, "end")) == lines, True)


def try_answers_of_all(program, folder):
    with Table.start(COPY, folder / "answers.log", program) as table:
        try_conditions(table)
        try_refused(table)
    with Relay(program, folder, "by-relay") as relay, Table.connect(relay.socket) as table:
        try_conditions(table)
        try_refused(table)
    try_endings(folder)
