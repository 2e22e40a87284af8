"""Attacks on `clients/relay`, for `checks/clients`: what one client does is its own loss, and no other waits for it.

- others: while a client doesn't read, floods, or never ends a line or a group, others are answered soon.
- limits: one that has too much is dropped by name; and others are served while more come than there are descriptors.
- parts: a client that dies within a line, or in a group, leaves nothing of it, and one that has ended its lines gets their answers.
- mixed: clients that mix groups, long questions, refused lines and lines that are too long get their own answers.
"""
from __future__ import annotations

import random
import re
import socket
import subprocess
import sys
import threading
import time
from collections import Counter
from concurrent.futures import ThreadPoolExecutor
from contextlib import suppress

from clients_room import ATTACK, NO_OBSERVERS, PROGRAM, SECONDS, Client, Relay, at_least, dropped, expect, undisturbed

# How often a client is killed within a line.
KILLS = 8
# How many clients mix their lines, for how many seconds, and how many answers have to come.
MIXED, MIX, LEAST_MIXED = 8, 2, 500

# Others


def try_others(program, folder):
    with Relay(program, folder, "others", NO_OBSERVERS) as relay, Client(relay) as filler:
        for begin in range(0, 2_000, 500):
            filler.send(b"".join(b"put %d 1 %s\n" % (row, b"ab" * 32) for row in range(begin, begin + 500)))
            expect("rows", [filler.read()[:5] for _ in range(500)], ["made "] * 500)
        try_unread(relay)
        try_flood(relay)
        try_endless(relay)
        expect("a cell after all attacks", filler.ask("get 7 1")[:8], "value ab")


def try_unread(relay):
    with undisturbed("while one doesn't read 40 lists", relay), Client(relay) as deaf:
        deaf.send(b"list\n" * 40)
        time.sleep(ATTACK)
    with undisturbed("while one doesn't read", relay), Client(relay) as deaf:
        deaf.end.settimeout(ATTACK)
        with suppress(TimeoutError):
            deaf.send_until_closed(b"nothing\n" * 8_192, 1 << 24)
    expect("a client that is dropped though it has little", dropped(relay, "dropped: .*"), 0)


def try_flood(relay):
    line = "; ".join(f"put 8 {column} {'2a' * 32}" for column in range(16)).encode() + b"\n"
    with undisturbed("while one floods", relay), Client(relay) as flood:
        # so that little is on its way when it ends
        flood.end.setsockopt(socket.SOL_SOCKET, socket.SO_SNDBUF, 4_096)
        deadline, sent = time.monotonic() + ATTACK, 0

        def send():
            nonlocal sent
            while time.monotonic() < deadline:
                flood.send(line * 10)
                sent += 10

        sender = threading.Thread(target=send)
        sender.start()
        answered = 0
        while sender.is_alive() or answered < sent:
            answered += flood.read()[:5] == "made "
        sender.join()
    expect("changes of a flood", answered, sent)
    at_least("changes of a flood", sent, 50)


def try_endless(relay):
    for text, begin, why in (
        (b"\n" * 65_536, b"begin\n", "dropped: a group of more than 16384 lines"),
        (b"x" * 65_536, b"", "dropped: a line or a group of more than 17825792 bytes"),
        (b"y" * 65_536, b"begin\n", "dropped: a line or a group of more than 17825792 bytes"),
    ):
        there = dropped(relay, why)
        with undisturbed(why, relay), Client(relay) as endless:
            endless.send(begin)
            expect(f"{why}: whether it is closed", endless.send_until_closed(text, 32 << 20), True)
        expect(f"who is named, {why}", dropped(relay, why) - there, 1)


def try_limits(program, folder):
    """Limits of answers that aren't read, of all clients together, and of how many there are, on a program that answers at once."""
    made = folder / "answering"
    made.write_text(PROGRAM)
    made.chmod(0o755)
    with Relay(made, folder, "unread", 0) as relay, Client(relay) as other, Client(relay) as deaf:
        deaf.send(b"list 900000\n")
        deadline = time.monotonic() + SECONDS
        while not (count := dropped(relay, "dropped: more than 67108864 bytes of answers that it doesn't read")):
            expect("another one", other.ask("put 7 0 2a"), "made 2 runs 0")
            expect("whether one that doesn't read its answers is dropped in time", time.monotonic() < deadline, True)
            time.sleep(0.01)
        expect("who is dropped", count, 1)
    few = ("MOST_OF_ALL=3000000", "MOST_CLIENTS=5")
    with Relay(made, folder, "all", 0, few) as relay, Client(relay) as other:
        held = [Client(relay) for _ in range(4)]
        for count, client in enumerate(held, 4):
            with suppress(ConnectionError):
                client.send(b"begin\n" + b"z" * 200_000 * count)
        why = "dropped: all have more than 3000000 bytes here, and it has the most"
        # of 800,000, 1,000,000, 1,200,000 and 1,400,000 bytes the last is dropped, and then the one before
        expect("who is closed", [client.read() for client in held[3:]], [None])
        expect("another one", other.ask("put 7 0 2a"), "made 2 runs 0")
        with Client(relay) as comes:
            expect("who comes in the place of one that was dropped", comes.ask("put 7 0 2a"), "made 2 runs 0")
        at_least("who is dropped", dropped(relay, why), 1)
        more = [Client(relay) for _ in range(6)]
        expect("those that are too many", more[-1].read(), None)
        at_least("those that are too many", dropped(relay, "closed: 5 clients are there"), 1)
        for client in (*held, *more):
            client.__exit__()


def try_descriptors(program, folder):
    with Relay(program, folder, "descriptors", descriptors=40) as relay, Client(relay) as first:
        expect("the first of many", first.ask("put 7 0 2a"), "made 2 runs 1")
        with undisturbed("while more come than there are descriptors", relay):
            many = [Client(relay) for _ in range(60)]
            expect("the last of many", many[-1].read(), None)
            expect("the first of many, again", first.ask("get 7 0"), "value 2a commit 2")
        at_least("those that are closed", dropped(relay, "closed: Too many open files"), 20)
        for client in many:
            client.__exit__()
        with Client(relay) as late:
            expect("one that comes when there is room", late.ask("get 7 0"), "value 2a commit 2")


# Parts


def try_parts(program, folder):
    with Relay(program, folder, "parts", NO_OBSERVERS) as relay:
        for text in (b"put 1 0 01", b"put 2 0 02; put 2 1", b"begin\nput 3 0 03\n", b"begin\nput 4 0 04\nend"):
            with Client(relay) as client:
                client.send(text)
        with Client(relay) as client:
            client.send(b"put 5 0 05\n" + b"list\n" * 50)
        with Client(relay) as client:
            client.send(b"put 6 0 06\nbegin\nput 6 1 61\nlist\nend\nget 6 1\nput 6 2")
            client.end.shutdown(socket.SHUT_WR)
            answers = [client.read() for _ in range(8)]
            shapes = ["made", "begun", "made", "refused 76", "ended", "value 61", None, None]
            kinds = [it and re.sub(r"^(made|value \w+) .*", r"\1", it) for it in answers]
            expect("the answers of one that has ended its lines", kinds, shapes)
        with Client(relay) as client:
            found = [client.ask(f"get {row} 0") for row in range(1, 7)]
            expect("what is left of those that were cut off", [it.split(" ")[0] for it in found], ["absent"] * 4 + ["value"] * 2)
            expect("a line that isn't ended", client.ask("get 6 2"), "absent")
            long = "; ".join(f"put 9 {column} {'09' * 32}" for column in range(16)) + " " * 4_000
            client.send(b"begin\n" + long.encode() + b"\n\nput 9 0 09\nend\n")
            answers = [client.ask(long), *(client.read() for _ in range(4))]
            expect("a line in a group that is too long, and an empty one", answers[:3], ["begun", "refused 70", "refused 70"])
            expect("the others then", (answers[3][:5], *answers[4:], client.read()), ("made ", "ended", "refused 70"))
        try_killed_clients(relay)


def try_killed_clients(relay):
    """Clients that are killed while they write lines of 16 cells: each is there whole, or not at all."""
    writer = (
        "import socket, sys\nend = socket.socket(socket.AF_UNIX)\nend.connect(sys.argv[1])\nprint(flush=True)\n"
        "line = lambda row: '; '.join(f'put {row} {column} {row:064x}' for column in range(16)) + '\\n'\n"
        "end.sendall(''.join(line(int(sys.argv[2]) + row) for row in range(200)).encode()[: -int(sys.argv[3])])\ninput()\n"
    )
    for number in range(KILLS):
        words = [sys.executable, "-c", writer, relay.socket, str(10_000 * (number + 1)), str(1 + 97 * number)]
        with subprocess.Popen(words, stdin=subprocess.PIPE, stdout=subprocess.PIPE) as running:
            running.stdout.readline()
            time.sleep(0.005 * (number % 4))
            running.kill()
    with Client(relay) as client:
        client.send(b"list\n")
        cells = [line.split(" ") for line in iter(client.read, "end") if line.startswith("cell ")]
        rows = Counter(row for _, row, *_ in cells if int(row) >= 10_000)
        expect("rows of lines that were cut off", {count for count in rows.values()} <= {16}, True)
        at_least("rows of clients that were killed", len(rows), KILLS)


# Mixed


def mixed_lines(chosen, row, last):
    """Lines of a client with the answers that they have to get, by shape; `last` has the value of the client's row."""
    value = f"{chosen.randrange(1, 1 << 24):06x}01"
    put, made = f"put {row} 0 {value}", r"made \d+ runs 0"
    kind = chosen.randrange(6)
    if kind == 0:
        return [put, f"get {row} 0"], [made, f"value {value} commit .*"], value
    if kind == 1:
        return [f"get {row} 0"], [f"value {last} commit .*" if last else "absent"], last
    if kind == 2:
        return ["begin", put, "list", "begin", "end"], ["begun", made, "refused 76", "refused 76", "ended"], value
    if kind == 3:
        return [chosen.choice(["nothing", "", "list x", "since x", "x" * 5_000]), "quiet?"], ["refused 70", "quiet"], last
    if kind == 4:
        return ["end", f"if {row} 0 1; put {row} 0 00"], ["refused 76", "unmade commit .*"], last
    return ["stats", f"since {(1 << 64) - 1}"], [r"log \d+", r"entries \d+", "end", "end"], last


def mix(relay, number, deadline):
    """Sends lines in parts, and counts the answers."""
    chosen, last, count = random.Random(number), None, 0
    with Client(relay) as client:
        while time.monotonic() < deadline:
            lines, shapes = [], []
            for _ in range(chosen.choice((1, 3, 10))):
                more, their, last = mixed_lines(chosen, 1_000 + number, last)
                lines += more
                shapes += their
            text = "".join(f"{line}\n" for line in lines).encode()
            cut = chosen.randrange(len(text))
            client.send(text[:cut])
            client.send(text[cut:])
            for shape in shapes:
                answer = client.read()
                if answer is None or not re.fullmatch(shape, answer):
                    sys.exit(f"clients: a client that mixes its lines: {answer!r}, wanted {shape!r}")
            count += len(shapes)
    return count


def try_mixed(program, folder):
    with Relay(program, folder, "mixed", NO_OBSERVERS) as relay, ThreadPoolExecutor(MIXED) as pool:
        deadline = time.monotonic() + MIX
        at_least("answers to mixed lines", sum(pool.map(lambda number: mix(relay, number, deadline), range(MIXED))), LEAST_MIXED)


def try_relay(program, folder):
    try_others(program, folder)
    try_limits(program, folder)
    try_descriptors(program, folder)
    try_parts(program, folder)
    try_mixed(program, folder)
