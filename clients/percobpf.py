"""A client of `percobpf_keep`: it starts the program, or reaches one behind `clients/relay`, sends it lines and reads its answers.

    with Table.start("examples/copy.json", "table.log") as table:
        made = table.change("put 7 0 2a", "put 8 0 2b")
        print(made.commit, table.get(7, 1))

An answer shows that the change is on the disk, committed, and seen by its observers. If the program or the relay ends before it answers, or
sends what is no answer, `Gone` is raised, by this call and by each after it: the change is made whole or not at all. A client that has to
know which writes a number of its own into a cell, with each change, and reads that cell when it is connected again
(`examples/keep/postings.py`).

A line ends at its newline. So a text with a newline in it raises `ValueError`, and nothing of the call is sent.
"""
from __future__ import annotations

import os
import re
import socket
import subprocess
import threading
from contextlib import suppress
from typing import NamedTuple

# the most bytes of a line of an answer, with its newline: the program has none so long
LONGEST = 256

HIGHEST = (1 << 64) - 1
NUMBER = "(0|[1-9][0-9]{0,19})"
NAME = "[0-9a-z-]{1,32}"
LEFT = "(?:value (?P<value>(?:[0-9a-f]{2}){1,32})|deleted)"
WRITE = f"cell {NUMBER} ([0-9]|1[0-5]) commit {NUMBER} {LEFT}"

OPENED = re.compile(f"open {NUMBER}")
MADE = re.compile(f"made {NUMBER}(?: runs {NUMBER}| unquiet)")
UNMADE = re.compile(f"unmade commit {NUMBER}")
REFUSED = re.compile(f"refused (?:77 {NUMBER}|(?!77)([1-9][0-9]))")
NEWEST = re.compile(f"{LEFT} commit {NUMBER}|absent")
CELL = re.compile(WRITE)
TO_DO = re.compile(f"quiet|marks {NUMBER} locks {NUMBER}")
REPORT = re.compile(f"{WRITE}|runs {NAME} {NUMBER}|{TO_DO.pattern}")
COUNTS = " ".join(f"{what} {NUMBER}" for what in ("runs", "nonzero", "conflicts", "asks", "instructions"))
STATS = re.compile(f"stats {NAME} {COUNTS}|(?:log|entries) {NUMBER}")
COMPACTED = re.compile(f"compacted {NUMBER}")
COPIED = re.compile(f"copied {NUMBER}")


class Gone(ConnectionError):
    """The program or the relay ended, or the connection did, or what came is no answer. Each later call of the table raises it too."""


class Refused(Exception):
    """A line was refused, by this code of docs/CODES.md; nothing of it was made."""

    def __init__(self, code: int, line: str) -> None:
        super().__init__(f"code {code}: {line}")
        self.code = code


class Compacted(Refused):
    """Not all writes above a commit are there any longer, since the log was compacted. Those above `begun` are: a client that has read
    up to an earlier commit begins anew with `list`, which has the newest write of each cell, and goes on from `begun`."""

    def __init__(self, code: int, line: str, begun: int) -> None:
        super().__init__(code, f"{line}: all writes are there from {begun} on alone")
        self.begun = begun


class NotCompacted(Refused):
    """The log can't be compacted, and is as it was: the table has no timestamp left, or is too large."""


class NotCopied(Refused):
    """The log can't be copied, and goes on as it was: something has the name, or a call of the file system failed."""


class Unmade(Exception):
    """The condition of a change didn't hold: the newest write of its cell has this commit, 0 where it has none."""

    def __init__(self, commit: int) -> None:
        super().__init__(f"the newest commit is {commit}")
        self.commit = commit


class Made(NamedTuple):
    """A change that was made: its commit, and how many runs of observers followed, or None where they didn't come to rest."""

    commit: int
    runs: int | None


class Cell(NamedTuple):
    """A write of a cell: its commit, and what it left there, without the zeros at its end, or None where it deleted."""

    row: int
    column: int
    commit: int
    value: bytes | None


def matched(shape: re.Pattern, answer: str) -> re.Match | None:
    """The match of an answer that has this shape, and no number of 2^64 or more."""
    found = shape.fullmatch(answer)
    value = shape.groupindex.get("value")
    numbers = [it for group, it in enumerate(found.groups(), 1) if it and group != value] if found else []
    return None if any(int(it) > HIGHEST for it in numbers) else found


class Table:
    """A table, by a pair of binary files: lines go to the first, and answers come from the second. `end` is the socket of the lines, if
    they go to one, and `child` the program, if it was started here."""

    def __init__(self, lines, answers, child: subprocess.Popen | None = None, end: socket.socket | None = None) -> None:
        self._lines, self._answers, self._child, self._end = lines, answers, child, end
        # whether answers are still to come, and no call after this one would get its own; and whose process uses the table
        self._is_owed, self._is_closed, self._user = False, False, os.getpid()

    @classmethod
    def start(cls, manifest, log, program="./percobpf_keep", compact_at: int | None = None, limit: int | None = None, copies=None) -> Table:
        """Starts the program over this log; it has made the log's changes again when this returns. With `compact_at` it compacts the log
        by itself, from so many bytes on. The table of a new log may have `limit` entries, and one that is there has its own number:
        `Gone` is raised if this is another. `copies` is the folder into which clients may have the log copied."""
        named = {"--limit": limit, "--copies": copies and os.fspath(copies), "--compact-at": compact_at}
        options = [it for name, value in named.items() if value is not None for it in (name, str(value))]
        words = [os.fspath(program), *options, os.fspath(manifest), os.fspath(log)]
        # a socket has an end even if a process that was forked meanwhile holds it too
        end, its = socket.socketpair()
        try:
            child = subprocess.Popen(words, stdin=its, stdout=subprocess.PIPE)
        except BaseException:
            end.close()
            raise
        finally:
            its.close()
        table = cls(end.makefile("wb"), child.stdout, child, end)
        try:
            table.found = table._opened()
        except BaseException:
            table.close()
            raise
        return table

    @classmethod
    def connect(cls, path) -> Table:
        """Reaches a program behind `clients/relay`, at its unix socket. `Gone` is raised if no relay is there."""
        end = socket.socket(socket.AF_UNIX, socket.SOCK_STREAM)
        try:
            end.connect(os.fspath(path))
        except (FileNotFoundError, ConnectionError):
            end.close()
            raise Gone(f"no relay listens at {os.fspath(path)}") from None
        except BaseException:
            end.close()
            raise
        return cls(end.makefile("wb"), end.makefile("rb"), None, end)

    def close(self) -> None:
        """Ends the input; the program keeps what it has, and ends."""
        self._is_closed = True
        with suppress(ConnectionError):
            self._lines.close()
        if self._end:
            self._shut(socket.SHUT_WR)
            self._end.close()
        self._answers.close()
        if self._child:
            self._child.wait()

    def __enter__(self) -> Table:
        return self

    def __exit__(self, *_ended) -> None:
        self.close()

    def change(self, *operations: str, when: tuple[int, int, int] | None = None) -> Made:
        """Makes a change of 1 to 16 operations (`put ROW COL HEX`, `del ROW COL`). With `when`, a row, a column and a commit, only if
        that is the commit of the cell's newest write, and 0 stands for a cell without one."""
        parts = [f"if {when[0]} {when[1]} {when[2]}"] if when else []
        line = "; ".join([*parts, *operations])
        return self._made(line, self._ask(line))

    def changes(self, lines: list[str]) -> list[Made]:
        """Makes many changes, each a line of operations joined by `; `. They are sent while their answers are read, since neither pipe
        holds all of them. Those that wait together share a record of the log. Where some are refused or unmade, the others are made all the
        same, and the first of these faults is raised."""
        text = self._begin(lines)

        def send() -> None:
            # that the program has ended is seen where its answers are read
            with suppress(Gone):
                self._send(text)

        sender = threading.Thread(target=send)
        sender.start()
        try:
            made = self._made_by(lines)
        except BaseException:
            # the sender may wait for one that reads no more
            self._lose()
            raise
        finally:
            sender.join()
        return self._whole(made)

    def group(self, lines: list[str]) -> list[Made]:
        """Makes changes by one record of the log: after a crash all of them are there, or none."""
        self._send(self._begin(["begin", *lines, "end"]))
        self._expect("begun")
        made = self._made_by(lines)
        self._expect("ended")
        return self._whole(made)

    def get(self, row: int, column: int) -> Cell | None:
        """The newest write of a cell, or None where it has none."""
        line = f"get {row} {column}"
        answer = self._ask(line)
        found = matched(NEWEST, answer)
        if not found:
            raise self._refusal(line, answer)
        if answer == "absent":
            return None
        return Cell(row, column, int(found[2]), bytes.fromhex(found[1]) if found[1] else None)

    def since(self, commit: int) -> list[Cell]:
        """Each write of a commit above this one, in the order of commits. `Compacted` is raised where some of them are gone."""
        found = self._ask_long(f"since {commit}", CELL)
        return [Cell(int(it[1]), int(it[2]), int(it[3]), bytes.fromhex(it[4]) if it[4] else None) for it in found]

    def list(self) -> list[str]:
        """The lines of the report."""
        return [it[0] for it in self._ask_long("list", REPORT)]

    def stats(self) -> list[str]:
        """The lines on what each observer has done, and on the sizes of the log and of the table."""
        return [it[0] for it in self._ask_long("stats", STATS)]

    def is_quiet(self) -> bool:
        """Whether nothing is left for the observers to do."""
        answer = self._ask("quiet?")
        if not matched(TO_DO, answer):
            raise self._refusal("quiet?", answer)
        return answer == "quiet"

    def compact(self) -> int:
        """Compacts the log, and returns how many versions its snapshot has. `NotCompacted` is raised where it can't be. The table needn't
        be quiet: what is left to do stays so. Writes of before are gone for all clients of the table: their next `since` of an earlier
        commit raises `Compacted`."""
        answer = self._ask("compact")
        found = matched(COMPACTED, answer)
        if not found:
            raise self._refusal("compact", answer)
        return int(found[1])

    def copy(self, number: int) -> int:
        """Copies the log to NUMBER.log in the folder of copies, and returns how many changes it has since it was compacted. `NotCopied` is
        raised where that can't be done, as where a copy has this number."""
        line = f"copy {number}"
        answer = self._ask(line)
        found = matched(COPIED, answer)
        if not found:
            fault = self._refusal(line, answer)
            raise NotCopied(78, line) if isinstance(fault, NotCompacted) else fault
        return int(found[1])

    # a call begins, and is whole once it has all of its answers

    def _begin(self, lines: list[str]) -> bytes:
        """What is sent for these lines, whose answers are owed from now on."""
        if any("\n" in line for line in lines):
            raise ValueError("a line has a newline in it, and would be two")
        if self._is_closed or self._is_owed:
            raise Gone("the table was closed" if self._is_closed else "an earlier call didn't get all of its answers")
        text = "".join(f"{line}\n" for line in lines).encode()
        self._is_owed = True
        return text

    def _whole(self, made: list[Made | Exception]) -> list[Made]:
        """The changes that were made, if all were, after the last of their answers."""
        self._is_owed = False
        for it in made:
            if isinstance(it, Exception):
                raise it
        return made

    def _opened(self) -> int:
        self._is_owed = True
        found = matched(OPENED, answer := self._read())
        if not found:
            raise self._unknown(answer)
        self._is_owed = False
        return int(found[1])

    def _ask(self, line: str) -> str:
        """The answer of a line that has one line."""
        self._send(self._begin([line]))
        answer = self._read()
        self._is_owed = False
        return answer

    def _ask_long(self, line: str, shape: re.Pattern) -> list[re.Match]:
        """The lines of an answer, which have this shape, up to its `end`."""
        self._send(self._begin([line]))
        lines = []
        while (answer := self._read()) != "end":
            found = matched(shape, answer)
            if not found:
                self._is_owed = bool(lines)
                raise self._unknown(answer) if lines else self._refusal(line, answer)
            lines.append(found)
        self._is_owed = False
        return lines

    # lines and answers

    def _send(self, text: bytes) -> None:
        try:
            self._lines.write(text)
            self._lines.flush()
        except ConnectionError:
            raise Gone("the program has ended") from None

    def _read(self) -> str:
        try:
            answer = self._answers.readline(LONGEST)
        except ConnectionError:
            # what was sent last wasn't read by the other side
            answer = b""
        if not answer.endswith(b"\n"):
            raise self._unknown(answer) if len(answer) == LONGEST else Gone("the program ended before it answered")
        if not answer.isascii():
            raise self._unknown(answer)
        return answer[:-1].decode()

    def _expect(self, wanted: str) -> None:
        if (answer := self._read()) != wanted:
            raise self._unknown(answer)

    def _made_by(self, lines: list[str]) -> list[Made | Exception]:
        """What was made by each of these lines, or why it wasn't."""
        made = []
        for line in lines:
            try:
                made.append(self._made(line, self._read()))
            except (Refused, Unmade) as fault:
                made.append(fault)
        return made

    def _made(self, line: str, answer: str) -> Made:
        if found := matched(MADE, answer):
            return Made(int(found[1]), int(found[2]) if found[2] else None)
        if found := matched(UNMADE, answer):
            raise Unmade(int(found[1]))
        raise self._refusal(line, answer)

    def _refusal(self, line: str, answer: str) -> Exception:
        """The fault of a line that has another answer than it asked for."""
        found = matched(REFUSED, answer)
        if not found:
            return self._unknown(answer)
        if found[1]:
            return Compacted(77, line, int(found[1]))
        return (NotCompacted if found[2] == "78" else Refused)(int(found[2]), line)

    def _unknown(self, answer: str | bytes) -> Gone:
        """The fault of what is no answer. Nothing after it can be an answer either."""
        self._is_owed = True
        self._lose()
        if self._child:
            self._child.kill()
        return Gone(f"an answer that isn't known: {answer!r}")

    def _lose(self) -> None:
        """Lets nobody wait for the other side any longer."""
        if self._end:
            self._shut(socket.SHUT_RDWR)

    def _shut(self, how: int) -> None:
        """Ends the connection, unless another process than the table's was forked from it and has the same one."""
        if os.getpid() == self._user:
            with suppress(OSError):
                self._end.shutdown(how)
