"""What is known before a slot, as `percobpf_story frames` prints it, in words."""
from __future__ import annotations

import re
from dataclasses import dataclass

REGISTERS = 11
PLACE = re.compile(r"(stack|record)([+-]\d+)")
WRITTEN = re.compile(r"written=(-\d+)\.\.(-\d+)")
REGISTER = re.compile(r"r(\d+)=(.+)")


@dataclass(frozen=True)
class Frame:
    """What is known of each register that isn't unset, in words, and the runs of written stack bytes, first and last."""

    registers: dict[int, str]
    written: list[tuple[int, int]]


def known_of(kind: str) -> str:
    """What a register holds, in words."""
    place = PLACE.fullmatch(kind)
    if kind == "number":
        return "a number"
    if place is None:
        raise ValueError(f"{kind} is no kind of a register")
    distance = int(place[2])
    if place[1] == "record":
        return f"a pointer to byte {distance} of the change"
    return "a pointer to the end of the stack" if distance == 0 else f"a pointer into the stack, {distance:+} from its end"


def frame_of(line: str) -> tuple[int, Frame | None]:
    """A line of `frames`: its slot, and what is known before it, or None where nothing leads to it."""
    slot, *words = line.split(" ")
    if words == ["unreachable"]:
        return int(slot), None
    registers, written = {}, []
    for word in words:
        if run := WRITTEN.fullmatch(word):
            written.append((int(run[1]), int(run[2])))
        elif register := REGISTER.fullmatch(word):
            registers[int(register[1])] = known_of(register[2])
        else:
            raise ValueError(f"{word} is no part of a frame")
    return int(slot), Frame(registers, written)


def spans(registers: list[int]) -> str:
    """Rising numbers as spans of registers: r0, r4 to r9."""
    told: list[list[int]] = []
    for number in registers:
        if told and told[-1][-1] == number - 1:
            told[-1].append(number)
        else:
            told.append([number])
    return ", ".join(f"r{its[0]}" if len(its) == 1 else f"r{its[0]} to r{its[-1]}" for its in told)


def lines_of(frame: Frame) -> list[str]:
    """A line for each register that isn't unset, one for the others, and one for the stack."""
    lines = [f"r{register}: {known}" for register, known in sorted(frame.registers.items())]
    others = [register for register in range(REGISTERS) if register not in frame.registers]
    if others:
        lines.append(f"{spans(others)}: unset, or may be")
    runs = [f"{first}" if first == last else f"{first} to {last}" for first, last in frame.written]
    lines.append(f"stack bytes written, from its end: {', '.join(runs) if runs else 'none'}")
    return lines
