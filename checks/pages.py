"""The pages, README.md and docs/: their blocks, and the commands in them.

`checks/docs` reads the pages, and `checks/first-hour` runs the commands of those that a stranger begins with.
"""
from __future__ import annotations

import re
import subprocess
from dataclasses import dataclass, field
from pathlib import Path

TOP = Path(__file__).resolve().parent.parent


@dataclass
class Block:
    """A block of a page: its lines with their numbers, and the paragraph that stands above it."""

    above: str
    numbered: list = field(default_factory=list)

    @property
    def line(self):
        return self.numbered[0][0]

    @property
    def lines(self):
        return [line for _, line in self.numbered]


@dataclass
class Page:
    file: Path
    text: str
    blocks: list = field(default_factory=list)

    @property
    def name(self):
        return str(self.file.relative_to(TOP))

    @property
    def prose(self):
        """The lines that stand in no block, with their numbers."""
        inside = {number for block in self.blocks for number, _ in block.numbered}
        return [(number, line) for number, line in enumerate(self.text.split("\n"), 1) if number not in inside]


def pages_there():
    words = ["git", "ls-files", "--", "README.md", "docs/*.md"]
    names = subprocess.run(words, cwd=TOP, capture_output=True, text=True, check=True).stdout.split()
    return [page_of(TOP / name) for name in names if (TOP / name).is_file()]


def page_of(file):
    """A page with its blocks, which are indented by four or stand between fences."""
    page, block = Page(file, file.read_text(encoding="utf-8")), None
    is_fenced, above, was = False, "", ""
    for number, line in enumerate(page.text.split("\n"), 1):
        is_fence = line.startswith("```")
        if not is_fence and (is_fenced or (line.startswith("    ") and (block or not was))):
            if not block:
                block = Block(above)
                page.blocks.append(block)
            block.numbered.append((number, line if is_fenced else line[4:]))
        elif line:
            block = None
            above = line if not was else f"{above} {line}"
        is_fenced, was = is_fenced != is_fence, line
    return page


def commands_of(block):
    """The commands of a block, each with its line."""
    for number, line in block.numbered:
        if re.match(r"(?:\./|PERCOBPF/|\.ci/|(?:examples|tools|checks|bench)/|(?:rt|echo|printf|clang|llvm-objcopy|readelf) )\S", line):
            yield number, line
