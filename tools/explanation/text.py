"""What is printed for a program: in words what its bytes don't show, its listing, and then the verdict and what explains it."""
from __future__ import annotations

import re
from dataclasses import replace
from pathlib import Path

from explanation import codes, elf, frames, programs, subject
from explanation.programs import NotTold, Options, Refused, TextRefused
from explanation.subject import Subject

JUMP = re.compile(r"j\w+ (?:.*, )?(?P<offset>[+-]\d+)")
CALL = re.compile(r"call (?P<helper>-?\d+)")
READ, WRITE, DELETE = 1, 2, 3
# codes of the verifier: a jump backward, and a slot that nothing leads to
BACKWARD, UNREACHED = 32, 35
MOST_WRITES = 16

Listing = list[tuple[int, str]]


def explained(path: Path, options: Options) -> tuple[str, int]:
    """What is printed for a file, and the status: 0 where it holds a program that is accepted and has all that its source has."""
    try:
        its = subject.subject_of(path, options)
    except TextRefused as refused:
        return told_of_text(path, refused), 1
    except (elf.NotRead, OSError) as fault:
        return f"{path}: {fault.strerror if isinstance(fault, OSError) else fault}\n", 1
    refused = programs.verdict(its.code, options)
    listing = programs.listing(its.code, options)
    parts = [[f"{path}: {line}" for line in its.first], lines_of_listing(its, listing, refused)]
    if refused:
        parts.append(lines_of_rule(its, refused, listing))
        parts.append(known(its, refused, options) if refused.slot in dict(listing) else [])
        parts.append([*elsewhere(its, options), *its.last])
    else:
        parts.append(lines_of_accepted(its, listing))
    text = "\n".join("".join(f"{line}\n" for line in part) for part in parts if part)
    return text, 1 if refused or its.first else 0


def told_of_text(path: Path, refused: TextRefused) -> str:
    """What is printed for a text that isn't a program's."""
    lines, rule = path.read_text(errors="replace").split("\n"), codes.rule_of(refused.code)
    said = [f"> {lines[refused.line - 1]}"] if refused.line else []
    said.append(f"{path}: line {refused.line} code {refused.code}: {rule.meaning}")
    if rule.remedy:
        said.append(f"what to do: {rule.remedy}")
    return "".join(f"{line}\n" for line in said)


# The listing


def target_of(slot: int, text: str) -> int | None:
    """The slot that a jump leads to, or None of another instruction."""
    found = JUMP.fullmatch(text)
    return slot + 1 + int(found["offset"]) if found else None


def with_target(slot: int, text: str) -> str:
    target = target_of(slot, text)
    return text if target is None else f"{text}    -> {target}"


def lines_of_listing(its: Subject, listing: Listing, refused: Refused | None) -> list[str]:
    """A line for each instruction, with its slot, and with a mark where it is refused; above it the line of C that it comes
    from, where that is another than above. A slot that isn't read as an instruction is shown by its bytes."""
    marked = refused.slot if refused else None
    is_unread = refused is not None and refused.code not in programs.OF_ALL_BYTES and marked not in dict(listing)
    listed = [*listing, (marked, its.code[8 * marked : 8 * marked + 8].hex(" "))] if is_unread else listing
    lines, above = [], None
    for slot, text in listed:
        place = its.places.get(slot)
        if its.is_object and place and place != above:
            lines.append(f"        {place.short()}")
            above = place
        lines.append(f"{'>' if slot == marked else ' '}{slot:5}  {with_target(slot, text)}")
    if is_unread and len(its.code) > 8 * marked + 8:
        lines.append("        the slots after it are not read")
    return lines


# The verdict


def jump_back_to(slot: int, listing: Listing) -> int | None:
    """The first instruction after a slot that jumps back to it."""
    return next((at for at, text in listing if at > slot and target_of(at, text) == slot), None)


def lines_of_rule(its: Subject, refused: Refused, listing: Listing) -> list[str]:
    rule = codes.rule_of(refused.code)
    lines = [f"refused slot {refused.slot} code {refused.code}: {rule.meaning}"]
    if refused.code in programs.OF_ALL_BYTES:
        lines.append(f"it has {counted(len(its.code), 'byte')}, {counted(len(its.code) // 8, 'slot')}")
    elif place := its.places.get(refused.slot):
        lines.append(f"at {place}")
    back = jump_back_to(refused.slot, listing) if refused.code == UNREACHED else None
    if back is not None:
        lines.append(f"slot {back} jumps back to it: it is in a loop, which is refused too ({BACKWARD})")
        rule = codes.rule_of(BACKWARD)
    if its.is_object and rule.cause_in_c:
        lines += [f"what does it in C: {rule.cause_in_c}", f"what to write instead: {rule.remedy_in_c}"]
    elif rule.remedy:
        lines.append(f"what to do: {rule.remedy}")
    return lines


def known(its: Subject, refused: Refused, options: Options) -> list[str]:
    """What is known before the slot that is refused."""
    head = f"known before slot {refused.slot}:"
    try:
        frame = programs.frame_before(refused.slot, its.code, options)
    except NotTold as fault:
        return [f"{head} that can't be shown: {fault}"]
    if frame is None:
        return [f"{head} nothing, since nothing leads to it"]
    return [head, *(f"  {line}" for line in frames.lines_of(frame))]


def elsewhere(its: Subject, options: Options) -> list[str]:
    """The least other options by which it is accepted, where there are such."""
    for profile, record in (("2", options.record), (options.profile, "2"), ("2", "2")):
        other = replace(options, profile=profile, record=record)
        if other != options and programs.verdict(its.code, other) is None:
            return [f"with {' '.join(other.words('profile', 'record'))} it is accepted"]
    return []


def counted(number: int, what: str) -> str:
    return f"{number} {what}" if number == 1 else f"{number} {what}s"


def more_writes(calls: int) -> str:
    return f"it has {calls} calls that write: one for a {MOST_WRITES + 1}th cell returns 3 and writes nothing"


def lines_of_accepted(its: Subject, listing: Listing) -> list[str]:
    """No jump leads back, so that each instruction is done once at most: the listing has all calls that it can make."""
    calls = [int(found["helper"]) for _, text in listing if (found := CALL.fullmatch(text))]
    asks, writing = calls.count(READ), calls.count(WRITE) + calls.count(DELETE)
    writes = min(writing, MOST_WRITES)
    called = ", ".join(str(helper) for helper in sorted(set(calls)))
    helpers = f"calls helpers {called}" if len(set(calls)) > 1 else f"calls helper {called}" if calls else "calls no helper"
    return [
        f"accepted {len(its.code) // 8} slots" + (", which lack what is reported above" if its.first else ""),
        f"{helpers}; asks for {counted(asks, 'cell')} and writes {counted(writes, 'cell')} at most",
        *([more_writes(writing)] if writing > MOST_WRITES else []),
    ]
