"""A relay, its clients, and others that are watched meanwhile, for the attacks of `checks/clients` on `clients/relay`."""
from __future__ import annotations

import os
import re
import resource
import signal
import socket
import subprocess
import sys
import threading
import time
from contextlib import contextmanager
from pathlib import Path

from ending import end_all_below

TOP = Path(__file__).resolve().parent.parent
COPY, NO_OBSERVERS, ENDLESS = (TOP / f"examples/{name}.json" for name in ("copy", "no-observers", "endless"))

# How long a relay, or an answer of it, is waited for, how long it has for its end, and how much longer another client waits at most
# than one of a relay that nobody attacks.
SECONDS, END, DELAY = 60, 20, 1.0
# How long nothing that is expected may come. It is more than SECONDS, since what is waited for by a name of its own has that long.
SILENCE = 75
# How long each attack goes on, how often the others have to be answered meanwhile, and how much memory the relay takes for it, in MiB.
ATTACK, LEAST_ANSWERED, MOST_MEMORY = 1.2, 2, 64

# A relay with other limits: words NAME=NUMBER before its own.
LIMITED = """
import runpy, sys
sys.path.insert(0, sys.argv[1])
import relay_client
words = sys.argv[2:]
while "=" in words[0]:
    name, value = words.pop(0).split("=")
    getattr(relay_client, name)
    setattr(relay_client, name, int(value))
sys.argv = ["relay", *words]
runpy.run_path(sys.path[0] + "/relay", run_name="__main__")
"""
# A program that keeps what it reads, and answers each line, a `list` by as many lines as it has words.
PROGRAM = """#!/usr/bin/env python3
import os, sys, time
kept = open(sys.argv[2], "wb", buffering=0)
def say(text):
    try:
        os.write(1, text)
    except BrokenPipeError:
        pass
time.sleep(float(sys.argv[1]))
say(b"open 0\\n")
while some := os.read(0, 1 << 14):
    kept.write(some)
    for line in some.split(b"\\n")[:-1]:
        if line.startswith(b"list "):
            say((b"cell 1 0 commit 2 value 2a" + b"00" * 24 + b"\\n") * int(line[5:]) + b"end\\n")
        else:
            say(b"made 2 runs 0\\n")
open(sys.argv[2] + ".end", "wb").close()
"""


class Watch:
    """The part of the check that is under way, what was met there last, and how many seconds later something more has to be met."""

    part, last, seconds = "", "", SILENCE


def begin(part):
    """Begins a part. From here on a call that waits for an answer that doesn't come ends the check by name."""
    Watch.part = part
    signal.signal(signal.SIGALRM, lambda *_: end_for(f"nothing came for {Watch.seconds} s"))
    meet("its beginning")


def meet(name):
    Watch.last = name
    signal.alarm(Watch.seconds)


def end_for(why):
    """Ends the check, and all that it started, from any thread: nothing of it may wait any longer."""
    print(f"clients: {Watch.part}: {why} after '{Watch.last}'", file=sys.stderr, flush=True)
    end_all_below(os.getpid())
    os._exit(1)


def expect(name, got, wanted):
    if got != wanted:
        sys.exit(f"clients: {name}: {got!r}, wanted {wanted!r}")
    meet(name)


def at_least(name, got, least):
    if got < least:
        sys.exit(f"clients: {name}: {got}, and {least} at least are wanted")
    meet(name)


class Relay:
    """A relay over a log, in a group of its own, while it is used; what it writes to standard error is `errors` after it."""

    def __init__(self, program, folder, name, manifest=COPY, limits=(), options=(), descriptors=None):
        self.program, self.folder, self.name = program, folder, name
        self.socket, self.log, self.said = folder / f"{name}.socket", folder / f"{name}.log", folder / f"{name}.errors"
        relay = [sys.executable, "-c", LIMITED, TOP / "clients", *limits] if limits else [TOP / "clients/relay"]
        self.words = [*relay, "--program", program, *options, self.socket, str(manifest), self.log]
        self.descriptors = descriptors

    def limit(self):
        if self.descriptors:
            resource.setrlimit(resource.RLIMIT_NOFILE, (self.descriptors, self.descriptors))

    def start(self):
        with self.said.open("wb") as errors:
            self.running = subprocess.Popen(self.words, stderr=errors, start_new_session=True, preexec_fn=self.limit)
        return self

    def __enter__(self):
        self.start()
        deadline = time.monotonic() + SECONDS
        while not self.socket.exists():
            if self.running.poll() is not None or time.monotonic() > deadline:
                sys.exit(f"clients: no relay: {self.errors}")
            time.sleep(0.01)
        return self

    def __exit__(self, *_ended):
        if self.running.poll() is None:
            expect("the status of a relay that was asked to end", self.end(), 0)
        expect("what a relay wrote", [line for line in self.errors.splitlines() if not line.startswith("relay: client ")], [])

    def end(self, is_group=False):
        """Ends it by SIGTERM, to it or to its whole group, and returns its status."""
        os.killpg(self.running.pid, signal.SIGTERM) if is_group else self.running.terminate()
        return self.running.wait(END)

    def kill(self):
        self.running.kill()
        self.running.wait(SECONDS)

    @property
    def errors(self):
        return self.said.read_text()

    def memory(self):
        """How much memory it has, in MiB."""
        (size,) = re.findall(r"VmRSS:\s*(\d+) kB", Path(f"/proc/{self.running.pid}/status").read_text())
        return int(size) / 1024


class Client:
    """A client that is free to send anything."""

    def __init__(self, relay):
        self.end = socket.socket(socket.AF_UNIX, socket.SOCK_STREAM)
        self.end.settimeout(SECONDS)
        # one that listens may not be there yet for a moment
        deadline = time.monotonic() + SECONDS
        while self.end.connect_ex(os.fspath(relay.socket)) and time.monotonic() < deadline:
            time.sleep(0.01)
        self.answers = self.end.makefile("rb")

    def __enter__(self):
        return self

    def __exit__(self, *_ended):
        self.answers.close()
        self.end.close()

    def send(self, text):
        self.end.sendall(text)

    def read(self):
        """The next line of an answer, or None."""
        try:
            line = self.answers.readline()
        except ConnectionError:
            return None
        except TimeoutError:
            if self.end.gettimeout() != SECONDS:
                raise
            end_for(f"no answer came for {SECONDS} s")
        return line[:-1].decode() if line.endswith(b"\n") else None

    def ask(self, line):
        self.send(line.encode() + b"\n")
        return self.read()

    def send_until_closed(self, text, most):
        """Sends a text again and again, so many bytes at most, and returns whether the relay has closed the connection."""
        try:
            for _ in range(most // len(text) + 1):
                self.send(text)
            return self.read() is None
        except ConnectionError:
            return True


class Others:
    """Another client, which asks again and again, and the longest that it waited."""

    def __init__(self, relay):
        self.longest, self.count, self.is_over = 0.0, 0, False
        self.client = Client(relay)
        self.thread = threading.Thread(target=self.ask)

    def ask(self):
        while not self.is_over:
            begun = time.monotonic()
            if self.client.ask("get 999 0") != "absent":
                self.longest = SECONDS
                return
            self.longest = max(self.longest, time.monotonic() - begun)
            self.count += 1
            time.sleep(0.005)

    def __enter__(self):
        self.thread.start()
        return self

    def __exit__(self, *_ended):
        self.is_over = True
        self.thread.join()
        self.client.__exit__()


@contextmanager
def undisturbed(name, relay):
    """What is done in this, and until ATTACK seconds are over, delays others by DELAY at most, and takes MOST_MEMORY at most. A second
    relay, which nobody attacks, shows how long an answer takes at that time, since the machine may be busy."""
    with Relay(relay.program, relay.folder, f"{relay.name}-calm", NO_OBSERVERS) as other, Others(other) as calm:
        before = relay.memory()
        with Others(relay) as others:
            deadline = time.monotonic() + ATTACK
            yield
            while time.monotonic() < deadline:
                time.sleep(0.01)
            taken = relay.memory() - before
    at_least(f"how often others were answered, {name}", others.count, LEAST_ANSWERED)
    waited = f"others that waited for {others.longest:.2f} s, and {calm.longest:.2f} s at another relay, {name}"
    expect(waited, others.longest <= calm.longest + DELAY, True)
    expect(f"{taken:.0f} MiB that the relay took, {name}", taken <= MOST_MEMORY, True)


def dropped(relay, why):
    """How many clients the relay has dropped for this reason, each by its name."""
    return len(re.findall(rf"^relay: client \d+ \(process {os.getpid()}, user {os.getuid()}\): {why}$", relay.errors, re.M))
