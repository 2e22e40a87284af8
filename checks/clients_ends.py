"""How `clients/relay` begins and ends, for `checks/clients`.

- whole: a relay that is killed has written whole lines alone to its program.
- ends: SIGTERM under load, to the relay and to its group, ends both with status 0, and nothing that was answered is lost.
- sockets: one that was left is removed, one that is served and what is no socket aren't; its mode and its group are as given.
"""
from __future__ import annotations

import os
import stat
import subprocess
import sys
import threading
import time
from concurrent.futures import ThreadPoolExecutor
from contextlib import suppress

from clients_room import COPY, PROGRAM, SECONDS, Client, Relay, at_least, expect

# How often a relay is killed under load, and how often it is asked to end, so many at a time.
KILLS, ENDS, AT_ONCE = 8, 20, 4
# How many clients a relay has when it is asked to end, for how long they have sent, and how many answers all have at least.
SENDERS, LOAD, LEAST_ANSWERED = 8, 0.15, 100


def try_whole(folder):
    """A relay that is killed while its program reads slowly: what that one has read are whole lines."""
    made = folder / "answering"
    line = ("; ".join(f"put 7 {column} {'2a' * 32}" for column in range(16)) + "\n").encode()
    longest = line[:-1].ljust(4_096, b"0") + b"\n"
    for number in range(KILLS):
        with Relay(made, folder, f"whole-{number}", 0) as relay:
            with Client(relay) as client:
                client.end.settimeout(0.05 + 0.01 * number)
                with suppress(TimeoutError):
                    client.send((line * 7 + longest) * 500)
                relay.kill()
        # the last that it does is to make this
        wait_for("the end of a program whose relay is killed", relay.log.with_suffix(".log.end").exists)
        lines = relay.log.read_bytes().split(b"\n")
        # a line of 4,096 bytes is written before its newline
        expect("what a program of a killed relay has read", set(lines) <= {line[:-1], longest[:-1], b""}, True)
        at_least("lines of a program whose relay is killed", len(lines), 2)


def wait_for(what, is_so):
    deadline = time.monotonic() + SECONDS
    while not is_so():
        if time.monotonic() > deadline:
            sys.exit(f"clients: {what}: it took over {SECONDS} s")
        time.sleep(0.01)


# Ends


def send_on(relay, number, answered):
    """Sends changes of a row, one higher each time, until the relay has ended, two at a time, and counts those that were made."""
    with suppress(ConnectionError), Client(relay) as client:
        while True:
            count = answered[number]
            client.send(b"".join(b"put %d 5 %08x\n" % (number, it) for it in (count + 1, count + 2)))
            for _ in range(2):
                answer = client.read()
                if answer is None:
                    return
                answered[number] += answer.startswith("made ")


def end_under_load(program, folder, number):
    """Ends a relay while clients send, and returns how many changes were answered."""
    relay, answered = Relay(program, folder, f"end-{number}"), [0] * SENDERS
    with relay:
        senders = [threading.Thread(target=send_on, args=(relay, sender, answered)) for sender in range(SENDERS)]
        for sender in senders:
            sender.start()
        time.sleep(LOAD)
        expect("the status of a relay that ends under load", relay.end(is_group=bool(number % 2)), 0)
        for sender in senders:
            sender.join(SECONDS)
        expect("what it wrote", relay.errors, "")
        expect("what it left", relay.socket.exists(), False)
    words = [program, COPY, relay.log]
    lines = "".join(f"get {sender} 5\n" for sender in range(SENDERS))
    ended = subprocess.run(words, input=lines, stdout=subprocess.PIPE, timeout=SECONDS, text=True, check=True)
    for sender, line in enumerate(ended.stdout.splitlines()[1:]):
        there = int(line.split(" ")[1].ljust(8, "0"), 16) if line.startswith("value ") else 0
        expect("changes that are there, of those that were answered", answered[sender] <= there <= answered[sender] + 2, True)
    return sum(answered)


def try_ends(program, folder, count=ENDS):
    with ThreadPoolExecutor(AT_ONCE) as pool:
        answered = list(pool.map(lambda number: end_under_load(program, folder, number), range(count)))
    expect("relays that were ended", len(answered), count)
    at_least("changes that were answered", sum(answered), LEAST_ANSWERED)


def try_slow(folder):
    """Relays whose program hasn't opened its log yet: they are ended all the same, and have made no socket."""
    for is_group in (False, True):
        relay = Relay(folder / "answering", folder, f"slow-{is_group}", SECONDS).start()
        wait_for(f"the program of a relay: {relay.errors}", relay.log.exists)
        expect("the status of a relay whose log isn't opened", relay.end(is_group), 0)
        expect("what it wrote and made", (relay.errors, relay.socket.exists()), ("", False))


# Sockets


def refused(relay):
    """Starts a relay that has to refuse its socket, and returns what it writes after the socket's name."""
    relay.start()
    expect("the status of a relay that is refused a socket", relay.running.wait(SECONDS), 1)
    return relay.errors.removeprefix(f"relay: {relay.socket}: ")


def try_left(program, folder):
    """A socket that a killed relay left is removed; one that is served isn't."""
    with Relay(program, folder, "left") as relay:
        with Client(relay) as client:
            expect("a change", client.ask("put 7 0 2a"), "made 2 runs 1")
            relay.kill()
            expect("an answer of a relay that was killed", client.read(), None)
        expect("a socket that is left", relay.socket.exists(), True)
        with Relay(program, folder, "left") as again, Client(again) as client:
            expect("a change of before", client.ask("get 7 0"), "value 2a commit 2")
            other = Relay(program, folder, "other")
            other.socket = again.socket
            other.words[other.words.index(folder / "other.socket")] = again.socket
            expect("a socket that is served", refused(other), "a relay listens there already\n")
            expect("the log of the one that was refused", other.log.exists(), False)
            expect("what is answered there", client.ask("get 7 0"), "value 2a commit 2")
            with Client(again) as late:
                expect("what another one is answered there", late.ask("get 7 0"), "value 2a commit 2")


def try_in_the_way(program, folder):
    """What is no socket stays as it is."""
    kept = b"kept\n"
    (folder / "kept").write_bytes(kept)
    for name, make in (
        ("file", lambda at: at.write_bytes(kept)),
        ("folder", lambda at: at.mkdir()),
        ("link", lambda at: at.symlink_to(folder / "kept")),
        ("dangling", lambda at: at.symlink_to(folder / "nothing")),
    ):
        relay = Relay(program, folder, name)
        make(relay.socket)
        before = os.lstat(relay.socket)
        expect(f"a {name} in the way", refused(relay), "it is there, and is no socket\n")
        expect(f"a {name} that was in the way", os.lstat(relay.socket), before)
        expect(f"what the program has made where a {name} was in the way", relay.log.exists(), False)
    expect("a file to which a link leads", (folder / "kept").read_bytes(), kept)


def try_rights(program, folder):
    # a group that this process may give
    group = os.getgid() if os.getuid() else os.getgid() + 1
    for name, options, mode, its in (
        ("own", [], 0o600, os.getgid()),
        ("open", ["--mode", "0666"], 0o666, os.getgid()),
        ("group", ["--group", str(group)], 0o660, group),
        ("both", ["--mode", "0620", "--group", str(group)], 0o620, group),
    ):
        with Relay(program, folder, f"rights-{name}", options=options) as relay, Client(relay) as client:
            client.ask("get 7 0")
            there = os.lstat(relay.socket)
            expect(f"a socket: {name}", stat.S_ISSOCK(there.st_mode), True)
            expect(f"mode and group of a socket: {name}", (oct(stat.S_IMODE(there.st_mode)), there.st_gid), (oct(mode), its))
    for umask, mode in ((0o022, 0o644), (0o077, 0o600)):
        before = os.umask(umask)
        try:
            with Relay(program, folder, f"umask-{umask:o}") as relay:
                expect(f"the mode of a log under the umask {umask:o}", oct(stat.S_IMODE(os.lstat(relay.log).st_mode)), oct(mode))
        finally:
            os.umask(before)
    for options in (["--mode", "0999"], ["--mode", "-1"], ["--group", "there-is-no-such-group"]):
        relay = Relay(program, folder, "rights-bad", options=options).start()
        expect(f"the status for {options}", relay.running.wait(SECONDS), 2)


def try_no_program(folder):
    relay = Relay(folder / "no-program", folder, "no-program").start()
    expect("the status of a relay without a program", relay.running.wait(SECONDS), 1)
    expect("what it wrote", relay.errors, f"relay: {folder / 'no-program'}: No such file or directory\n")


def try_relay_ends(program, folder):
    (folder / "answering").write_text(PROGRAM)
    (folder / "answering").chmod(0o755)
    try_whole(folder)
    try_ends(program, folder)
    try_slow(folder)
    try_no_program(folder)
    try_left(program, folder)
    try_in_the_way(program, folder)
    try_rights(program, folder)
