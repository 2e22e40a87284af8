"""What the codes of fault lines mean, and what to do about each: of one code, or of all that a program printed."""
from __future__ import annotations

import re

from explanation import codes

CODE = re.compile(r"\bcode (\d{1,3})\b")
INDENT = "    "


def lines_of_code(code: int) -> list[str]:
    """What docs/CODES.md has of a code, and docs/OBSERVERS.md of it in C; no line where it has no such code."""
    rule = codes.rule_of(code)
    if rule.meaning is None:
        return []
    lines = [f"code {code}: {rule.meaning}"]
    if rule.remedy:
        lines.append(f"what to do: {rule.remedy}")
    if rule.cause_in_c:
        lines += [f"what does it in C: {rule.cause_in_c}", f"what to write instead: {rule.remedy_in_c}"]
    return lines


def explained_code(code: int) -> str | None:
    lines = lines_of_code(code)
    return "".join(f"{line}\n" for line in lines) if lines else None


def explained_lines(text: str) -> str:
    """The lines of a text, each followed by what its codes mean."""
    said = []
    for line in text.splitlines():
        said.append(line)
        said += [f"{INDENT}{it}" for code in CODE.findall(line) for it in lines_of_code(int(code))]
    return "".join(f"{line}\n" for line in said)
