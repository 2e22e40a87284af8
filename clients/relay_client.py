"""A client of `clients/relay`: what it sent that hasn't gone on, what was answered that it hasn't taken, and the limits of both."""
from __future__ import annotations

import socket
from dataclasses import dataclass, field

# the bytes of a line, MAX_LINE of crates/pb_requests: a longer one is refused with 70, and so is an empty one
LINE = 4_096

# A client is dropped if it has more of these here: bytes of a line or a group that isn't whole, lines of a group, and bytes of answers
# that it hasn't taken. A record of the log has 16 MiB and 10,000 changes at most.
MOST_HELD = 17 << 20
MOST_GROUPED = 16_384
MOST_UNREAD = 64 << 20

# Of all clients: the bytes that they have here together, beyond which the one with the most is dropped; and how many there are, beyond
# which one that comes is closed.
MOST_OF_ALL = 256 << 20
MOST_CLIENTS = 1_000

# how many bytes are read at once; a client isn't read from while its lines that wait have so many
READ = 1 << 16

# how many bytes of answers wait for a client before neither it is read from, nor its lines go on
WAITING = 1 << 20

# Of all clients: how many operations, or lines of other kinds, wait for their answers at most, which is as many as are answered in SOON
# seconds, within these bounds. A line or a group goes on where fewer wait, however many it has.
LEAST_ASKED = 32
MOST_ASKED = 1_024
SOON = 0.2


@dataclass(eq=False)
class Client:
    """A client, whose `end` is None once it is closed."""

    name: str
    end: socket.socket | None
    # what it sent that hasn't gone on, and what was answered that it hasn't taken
    held: bytearray = field(default_factory=bytearray)
    unread: bytearray = field(default_factory=bytearray)
    # how many bytes its first line or group has, once that is whole; how many were looked through for it, and how many lines these are
    first: int = 0
    seen: int = 0
    lines: int = 0
    # how many of its lines wait for their answers, and whether one of these is of many lines
    asked: int = 0
    is_long_asked: bool = False
    # whether it sends no more, whether it has a turn, what it is watched for, and how many of its bytes are counted
    is_ended: bool = False
    is_in_turn: bool = False
    watched: int = 0
    counted: int = 0

    def look(self) -> None:
        """Looks through what came since the last look for the end of the first line or group."""
        end = b"\nend\n" if self.held.startswith(b"begin\n") else b"\n"
        at = self.held.find(end, max(0, self.seen - len(end) + 1))
        looked = at + len(end) if at >= 0 else len(self.held)
        self.lines += self.held.count(b"\n", self.seen, looked)
        self.first, self.seen = looked if at >= 0 else 0, looked

    def take_first(self) -> list[bytes]:
        """The lines of the first line or group, which is whole. An empty line stands for one that is too long: the answer is the same."""
        lines = bytes(self.held[: self.first]).split(b"\n")[:-1]
        del self.held[: self.first]
        self.seen = self.lines = 0
        self.look()
        return [line if len(line) <= LINE else b"" for line in lines]

    def size(self) -> int:
        return len(self.held) + len(self.unread)

    def fault(self) -> str | None:
        """Why it is dropped, or None."""
        if self.lines > MOST_GROUPED:
            return f"a group of more than {MOST_GROUPED} lines"
        if not self.first and len(self.held) > MOST_HELD:
            return f"a line or a group of more than {MOST_HELD} bytes"
        if len(self.unread) > MOST_UNREAD:
            return f"more than {MOST_UNREAD} bytes of answers that it doesn't read"
        return None

    def may_go_on(self) -> bool:
        """Whether its first line or group may go on to the program."""
        return bool(self.first) and not self.is_long_asked and len(self.unread) < WAITING

    def may_send(self) -> bool:
        """Whether more of its lines are read."""
        return not self.is_ended and len(self.unread) < WAITING and (not self.first or len(self.held) < READ)

    def is_answered(self) -> bool:
        return not self.asked and not self.unread


@dataclass
class Question:
    """A line or a group of a client, which went on at a time and waits for its answers: how many lines and operations it has, and whether
    its answer has many lines."""

    client: Client
    lines: int
    operations: int
    is_long: bool
    since: float


class Pace:
    """How many operations may wait for their answers. The program answers one after another, so that each waits for all before it. The
    bound is halved if one waited longer than SOON, and grows if one waited for half of that at most while others couldn't go on."""

    def __init__(self) -> None:
        self.most, self.last_cut = LEAST_ASKED, 0.0

    def learn(self, question: Question, now: float, is_too_low: bool) -> None:
        """Learns from a question that is answered now."""
        waited = now - question.since
        if waited > SOON and question.since > self.last_cut:
            self.most, self.last_cut = max(self.most // 2, LEAST_ASKED), now
        elif waited <= SOON / 2 and is_too_low:
            self.most = min(self.most + question.operations, MOST_ASKED)
