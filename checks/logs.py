"""A plain reader and writer of logs, for `checks/keep`.

It is written from docs/decisions/100-log-format.md, docs/KEEPING.md ("A limit of entries") and the head of
crates/pb_snapshots/src/lib.rt alone, so that the program and it have nothing in common but these. The sum is SipHash-1-3 with both keys 0, of the record's place in eight bytes and of the record's
bytes; it is 1 where that is 0.
"""
from __future__ import annotations

import json
import re
import struct
from dataclasses import dataclass
from functools import lru_cache

OPEN, CLOSED = 0xA5, 0x00
WORD = 2**64 - 1

OTHER_MANIFEST = "the log is of another manifest"
NEWER = "the log is of a newer version"
NO_LOG = "the file is no log"
NO_SCRIPT = "a record of the log can't be read"
NO_SNAPSHOT = "the snapshot of the log is damaged"

# How many entries the table of a new log has at most, where nothing else is asked for; and that of a log that names no limit.
DEFAULT_LIMIT, NO_LIMIT = 10_000_000, WORD
# The line of the limit, which stands after that of the version.
LIMIT_LINE = re.compile(rb"percobpf log 1\nlimit (0|[1-9][0-9]{0,19})\n")

# How the record of a snapshot begins, and the kinds of its versions.
SNAPSHOT = b"\xffsnapshot 1\n"
VALUE, DELETED, STAMP = range(3)


class Unreadable(Exception):
    """What is reported of a file, in the words of the program."""


def damaged(place):
    return Unreadable(f"the log is damaged at byte {place}")


def turned_left(word, bits):
    return (word << bits | word >> 64 - bits) & WORD


def sip_round(a, b, c, d):
    a, c = a + b & WORD, c + d & WORD
    b, d = turned_left(b, 13) ^ a, turned_left(d, 16) ^ c
    a, c = turned_left(a, 32) + d & WORD, c + b & WORD
    return a, turned_left(b, 17) ^ c, turned_left(c, 32), turned_left(d, 21) ^ a


@lru_cache(maxsize=4096)
def sum_of(place, item):
    """The sum of a record at a place."""
    text = struct.pack("<Q", place) + item
    text += bytes(7 - len(text) % 8) + bytes([len(text) % 256])
    a, b, c, d = (int.from_bytes(word, "big") for word in (b"somepseu", b"dorandom", b"lygenera", b"tedbytes"))
    for (word,) in struct.iter_unpack("<Q", text):
        a, b, c, d = sip_round(a, b, c, d ^ word)
        a ^= word
    c ^= 0xFF
    for _ in range(3):
        a, b, c, d = sip_round(a, b, c, d)
    return max(1, a ^ b ^ c ^ d)


@dataclass(frozen=True)
class Version:
    """A version of a cell. The cell is a row, a column, 0 or 1 of an acknowledgment, and its observer; so cells are in the order of
    the table's. The content is a value of 32 bytes, `deleted`, or the number of a stamp."""

    start: int
    cell: tuple[int, int, int, int]
    commit: int
    content: bytes | str | int


@dataclass(frozen=True)
class Snapshot:
    """The clock, five numbers for each observer, and the versions, of which some may be of one cell."""

    clock: int
    stats: list[tuple[int, ...]]
    versions: list[Version]


def version_of(item, at):
    """The version at a place of a record, and the place after it."""
    kind, row, column, start, commit = struct.unpack_from("<BQBQQ", item, at)
    at += 26
    if kind == VALUE and len(item) >= at + 32:
        return Version(start, (row, column, 0, 0), commit, item[at : at + 32]), at + 32
    if kind == DELETED:
        return Version(start, (row, column, 0, 0), commit, "deleted"), at
    if kind == STAMP:
        return Version(start, (row, column, 1, item[at]), commit, start), at + 1
    raise Unreadable(NO_SNAPSHOT)


def is_snapshot(item):
    """Whether a record is one of a snapshot, if it is the first one."""
    return item[:1] == SNAPSHOT[:1]


def snapshot_of(item):
    """The snapshot of a record; or `Unreadable` is raised."""
    if not item.startswith(SNAPSHOT):
        raise Unreadable(NO_SNAPSHOT)
    try:
        clock, count = struct.unpack_from("<QQ", item, len(SNAPSHOT))
        at = len(SNAPSHOT) + 16
        if len(item) < at + 40 * count:
            raise Unreadable(NO_SNAPSHOT)
        stats = [struct.unpack_from("<5Q", item, at + 40 * number) for number in range(count)]
        versions, at = [], at + 40 * count
        while at < len(item):
            version, at = version_of(item, at)
            versions.append(version)
    except (struct.error, IndexError):
        raise Unreadable(NO_SNAPSHOT) from None
    return Snapshot(clock, stats, versions)


def follows(version, last):
    """Whether a version stands after another one: of a transaction that began after that one's commit, or in a later cell of its own."""
    if version.start == last.start:
        return version.commit == last.commit and version.cell > last.cell
    return version.start > last.commit


def is_of_table(snapshot, columns):
    """Whether a table whose observers have these columns may begin with a snapshot."""
    versions = snapshot.versions
    cells = {version.cell for version in versions}
    return (
        len(snapshot.stats) == len(columns)
        and all(version.start < version.commit <= snapshot.clock and version.cell[1] < 16 for version in versions)
        and all(follows(version, last) for last, version in zip(versions, versions[1:]))
        and all(columns[cell[3] : cell[3] + 1] == [cell[1]] for cell in cells if cell[2])
    )


def snapshot_record(snapshot):
    """The record of a snapshot."""
    item = SNAPSHOT + struct.pack("<QQ", snapshot.clock, len(snapshot.stats))
    item += b"".join(struct.pack("<5Q", *its) for its in snapshot.stats)
    for it in snapshot.versions:
        kind = STAMP if it.cell[2] else DELETED if it.content == "deleted" else VALUE
        item += struct.pack("<BQBQQ", kind, it.cell[0], it.cell[1], it.start, it.commit)
        item += {VALUE: it.content, DELETED: b"", STAMP: bytes([it.cell[3]])}[kind]
    return item


def header(manifest, limit=DEFAULT_LIMIT, version="1"):
    """The first record of a log. Without a limit it has no line of one."""
    line = "" if limit == NO_LIMIT else f"limit {limit}\n"
    return f"percobpf log {version}\n{line}".encode() + manifest


def limit_of(first):
    """How many entries the table of a log may have whose first record this is."""
    found = LIMIT_LINE.match(first)
    return min(int(found[1]), NO_LIMIT) if found else NO_LIMIT


def limit_in(file):
    """The same of a file that has a record."""
    return limit_of(records_in(file)[0][1])


def log_of(records):
    """The file that has these records."""
    file = b""
    for item in records:
        file += bytes([OPEN]) + struct.pack("<IQ", len(item), sum_of(len(file), item)) + item
    return file + bytes([CLOSED])


def record_after(file, at):
    """The record that stands whole after a gate at this place, and the place after it; or None."""
    if len(file) < at + 13:
        return None
    length, its_sum = struct.unpack_from("<IQ", file, at + 1)
    item = file[at + 13 : at + 13 + length]
    return (item, at + 13 + length) if len(item) == length and sum_of(at, item) == its_sum else None


def records_in(file):
    """The records of a file, with their places; or `Unreadable` is raised."""
    if len(file) <= 1:
        return []
    records, at = [], 0
    while file[at : at + 1] == bytes([OPEN]) and (found := record_after(file, at)):
        records.append((at, found[0]))
        at = found[1]
    if file[at : at + 1] != bytes([CLOSED]):
        raise damaged(at)
    hidden = record_after(file, at)
    if hidden and file[hidden[1] : hidden[1] + 1] == bytes([OPEN]) and record_after(file, hidden[1]):
        raise damaged(at)
    return records


def places_in(file):
    """How many changes there are up to the end of the header and the snapshot, and of each record after them, with the place of that
    end."""
    places, count = [], 0
    for number, (at, item) in enumerate(records_in(file)):
        if number == 1 and is_snapshot(item):
            places.clear()
        elif number:
            count += item.count(b"\n")
        places.append((count, at + 13 + len(item)))
    return places


def parts_of(file, manifest, limit=DEFAULT_LIMIT):
    """The snapshot of a log of this manifest, or None, and its scripts, one for each record; or `Unreadable` is raised. A file without a
    record is a new log, if it has no more bytes than a crash leaves before the header is there, which has this limit."""
    records = [item for _, item in records_in(file)]
    if not records:
        if len(file) > 14 + len(header(manifest, limit)):
            raise Unreadable(NO_LOG)
        return None, []
    first, *scripts = records
    if not first.startswith(b"percobpf log "):
        raise Unreadable(NO_LOG)
    if not first.startswith(b"percobpf log 1\n"):
        raise Unreadable(NEWER)
    if first != header(manifest, limit_of(first)):
        raise Unreadable(OTHER_MANIFEST)
    if not scripts or not is_snapshot(scripts[0]):
        return None, scripts
    snapshot = snapshot_of(scripts.pop(0))
    if not is_of_table(snapshot, [observer["column"] for observer in json.loads(manifest)["observers"]]):
        raise Unreadable(NO_SNAPSHOT)
    return snapshot, scripts


def scripts_in(file, manifest):
    """The scripts of a log of this manifest."""
    return parts_of(file, manifest)[1]


def changes_in(file, manifest):
    """The lines of the changes of a log of this manifest, since its snapshot."""
    return [line for script in scripts_in(file, manifest) for line in script.decode().splitlines()]
