"""percobpf in a Python program's own process, by the shared object that library/make builds: what percobpf_api.h declares.

    api = Api()
    code = api.asm("mov64 r0, 1\\nexit\\n")
    print(api.check(code), "slots")

What is refused raises `Refused`, with the code (docs/CODES.md) and the place. A number that isn't one of those that it may be, and
bytes that aren't UTF-8 where a text is wanted, raise ValueError, and a refused request for memory MemoryError. Any thread may call any
method: the library has no state, and Python holds no lock while a call runs.
"""
from __future__ import annotations

import ctypes
from dataclasses import dataclass
from pathlib import Path

INTERFACE = 1
DONE, REFUSED, NO_MEMORY, BAD_ARGUMENT, NOT_TEXT, ASKS = range(6)
NO_OBSERVER = 2**32 - 1
ALL_HELPERS = 15
# How many bytes are tried at first, before it is known how many there are.
ROOM = 4096

NUMBER, LONG, SIZE, BYTES = ctypes.c_uint32, ctypes.c_uint64, ctypes.c_size_t, ctypes.c_char_p
VALUE = ctypes.c_uint8 * 32


def struct_of(name, **members):
    """A struct of C with these members, in this order."""
    return type(name, (ctypes.Structure,), {"_fields_": list(members.items())})


Verdict = struct_of("Verdict", kind=NUMBER, slot=NUMBER, code=NUMBER)
Text = struct_of("Text", kind=NUMBER, code=NUMBER, place=SIZE, needed=SIZE)
ManifestVerdict = struct_of("ManifestVerdict", **dict.fromkeys(("kind", "observers", "observer", "code", "slot", "slot_code"), NUMBER))
# A change, a reply and a write: a number `has_..` says whether there is a value.
Change = struct_of(
    "Change", row=LONG, column=NUMBER, has_value=NUMBER, value=VALUE, start=LONG, commit=LONG, acknowledged=LONG, has_old=NUMBER, old=VALUE
)
Reply = struct_of("Reply", has_value=NUMBER, value=VALUE)
Write = struct_of("Write", row=LONG, column=NUMBER, has_value=NUMBER, value=VALUE)
Reached = struct_of(
    "Reached", **dict.fromkeys(("kind", "slot", "code", "instructions"), NUMBER), replied=SIZE, row=LONG, column=NUMBER, write_count=NUMBER,
    result=LONG, writes=Write * 16,
)
Versions = struct_of("Versions", **dict.fromkeys(("interface", "profiles", "records", "helpers"), NUMBER))

# The functions, with the types of their results and arguments.
FUNCTIONS = {
    "check": (Verdict, BYTES, SIZE, NUMBER, NUMBER, NUMBER),
    "asm": (Text, BYTES, SIZE, NUMBER, BYTES, SIZE),
    "dis": (Text, BYTES, SIZE, NUMBER, BYTES, SIZE),
    "manifest": (ManifestVerdict, BYTES, SIZE),
    "run": (Reached, BYTES, SIZE, NUMBER, NUMBER, NUMBER, ctypes.POINTER(Change), LONG, ctypes.POINTER(Reply), SIZE),
    "replay": (Text, BYTES, SIZE, BYTES, SIZE, BYTES, SIZE, LONG, BYTES, SIZE),
    "version": (Versions,),
    "commit": (BYTES,),
}


@dataclass(eq=False)
class Refused(Exception):
    """What was given is at fault: the code, and the place, which is a slot, a line or an observer, or None where it is the whole's
    fault. Where an observer's program is refused, `program` has its slot and the code there."""

    code: int
    place: int | None
    program: tuple[int, int] | None = None


def valued(value):
    """A reply of these bytes, followed by zeros, or that the cell is absent."""
    return Reply(value is not None, VALUE(*(value or b"")))


def taken(kind):
    """Raises what the kinds have in common that are neither done nor refused."""
    if kind == NO_MEMORY:
        raise MemoryError
    if kind in (BAD_ARGUMENT, NOT_TEXT):
        raise ValueError("not one of the numbers that it may be" if kind == BAD_ARGUMENT else "not UTF-8")


class Api:
    """The functions of the library."""

    def __init__(self, path=Path(__file__).resolve().parent / "out/libpercobpf.so"):
        self.library = ctypes.CDLL(str(path))
        for name, (result, *arguments) in FUNCTIONS.items():
            function = getattr(self.library, f"percobpf_{name}")
            function.restype, function.argtypes = result, arguments
        if self.version().interface != INTERFACE:
            raise ValueError("a library of another interface")

    def check(self, code: bytes, profile: int = 1, record: int = 1, helpers: int = ALL_HELPERS) -> int:
        """How many slots the program of these bytes has, where it is accepted."""
        verdict = self.library.percobpf_check(code, len(code), profile, record, helpers)
        taken(verdict.kind)
        if verdict.kind == REFUSED:
            raise Refused(verdict.code, verdict.slot)
        return verdict.slot

    def asm(self, text: str | bytes, profile: int = 1) -> bytes:
        """The bytes of the program that a text is."""
        return self._text(self.library.percobpf_asm, text.encode() if isinstance(text, str) else text, profile)

    def dis(self, code: bytes, profile: int = 1) -> str:
        """The text of a program's bytes."""
        return self._text(self.library.percobpf_dis, code, profile).decode()

    def manifest(self, text: str | bytes) -> int:
        """How many observers a manifest has, where it is accepted."""
        given = text.encode() if isinstance(text, str) else text
        verdict = self.library.percobpf_manifest(given, len(given))
        taken(verdict.kind)
        if verdict.kind == REFUSED:
            place = None if verdict.observer == NO_OBSERVER else verdict.observer
            raise Refused(verdict.code, place, (verdict.slot, verdict.slot_code) if verdict.slot_code else None)
        return verdict.observers

    def run(self, code: bytes, change, start: int, reply, profile: int = 1, record: int = 1, helpers: int = ALL_HELPERS):
        """Runs a program on a `Change` to its end. `reply` gets the row and the column of each cell that it asks for, and returns
        the bytes that it holds, or None."""
        replies = []
        while True:
            array = (Reply * (len(replies) + 1))(*replies)
            reached = self.library.percobpf_run(code, len(code), profile, record, helpers, change, start, array, len(replies))
            taken(reached.kind)
            if reached.kind == REFUSED:
                raise Refused(reached.code, reached.slot)
            if reached.kind == DONE:
                return reached
            replies.append(valued(reply(reached.row, reached.column)))

    def replay(self, manifest: bytes, script: bytes, schedule: bytes, clock: int = 0) -> tuple[bool, str]:
        """The report of a replay, after True; or the line of the first fault, after False."""
        texts = [it for text in (manifest, script, schedule) for it in (text, len(text))]
        room = ROOM
        while True:
            out = ctypes.create_string_buffer(room)
            answer = self.library.percobpf_replay(*texts, clock, out, room)
            taken(answer.kind)
            if answer.needed <= room:
                return answer.kind == DONE, out.raw[: answer.needed].decode()
            room = answer.needed

    def version(self):
        return self.library.percobpf_version()

    def commit(self) -> str:
        return self.library.percobpf_commit().decode()

    def _text(self, function, given, profile):
        """The whole of what a function writes, by a second call where the first room wasn't enough."""
        room = ROOM
        while True:
            out = ctypes.create_string_buffer(room)
            answer = function(given, len(given), profile, out, room)
            taken(answer.kind)
            if answer.kind == REFUSED:
                raise Refused(answer.code, answer.place or None if function is self.library.percobpf_asm else answer.place)
            if answer.needed <= room:
                return out.raw[: answer.needed]
            room = answer.needed
