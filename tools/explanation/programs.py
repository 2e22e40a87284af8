"""What the programs print for the bytes of a program, or for its text."""
from __future__ import annotations

import functools
import re
import subprocess
import tempfile
from dataclasses import dataclass
from pathlib import Path

from explanation import frames

TOP = Path(__file__).resolve().parent.parent.parent

# codes of faults of all bytes together
OF_ALL_BYTES = (10, 11)


class NotTold(Exception):
    """Why nothing is printed for a file."""


class TextRefused(Exception):
    """A text that isn't a program's: the line at fault, 0 for the whole, and the code."""

    def __init__(self, line: int, code: int):
        super().__init__(line, code)
        self.line, self.code = line, code


@dataclass(frozen=True)
class Options:
    """The profile and the version of the change record that a program is judged by, where they are named; and whether a build is
    asked of which nothing is proved."""

    profile: str | None = None
    record: str | None = None
    is_unproved: bool = False

    def words(self, *names: str) -> list[str]:
        """The words for those of these that are named."""
        return [word for name in names if getattr(self, name) for word in (f"--{name}", getattr(self, name))]


@dataclass(frozen=True)
class Refused:
    slot: int
    code: int


@functools.cache
def words_of(name: str, is_unproved: bool) -> tuple[str, ...]:
    """The words that run a program, which is built first where it isn't yet; that is reported on standard error."""
    build = [TOP / "tools/unproved", "--words", name] if is_unproved else [TOP / "checks/build", name, "--help"]
    building = subprocess.Popen(build, stdin=subprocess.DEVNULL, stdout=subprocess.PIPE, text=True)
    try:
        said, _ = building.communicate()
    except KeyboardInterrupt:
        # ^C came to it too, and it removes what it has made so far
        building.wait()
        raise
    if building.returncode:
        raise NotTold(f"{name} can't be asked")
    return tuple(said.splitlines()) if is_unproved else (str(TOP / "crates" / name / "out" / name),)


def told(options: Options, name: str, *words: str | Path) -> subprocess.CompletedProcess[str]:
    its = words_of(name, options.is_unproved)
    return subprocess.run([*its, *words], stdin=subprocess.DEVNULL, capture_output=True, text=True)


def told_of(code: bytes, options: Options, name: str, verb: str, *named: str) -> str:
    """What a program prints of these bytes with this verb, and with those of these options that are named."""
    with tempfile.NamedTemporaryFile(prefix="explain-") as file:
        file.write(code)
        file.flush()
        done = told(options, name, verb, file.name, *options.words(*named))
    if not done.stdout:
        raise NotTold(f"{name} {verb}: {done.stderr.strip()}")
    return done.stdout


def refused_of(output: str) -> Refused | None:
    found = re.fullmatch(r"refused slot (\d+) code (\d+)\n", output)
    return Refused(int(found[1]), int(found[2])) if found else None


def verdict(code: bytes, options: Options) -> Refused | None:
    """Why a program isn't accepted, or None where it is."""
    return refused_of(told_of(code, options, "percobpf", "check", "profile", "record"))


def listing(code: bytes, options: Options) -> list[tuple[int, str]]:
    """The instructions, each with its first slot; of bytes that are no program's, those before the first slot at fault."""
    output = told_of(code, options, "percobpf", "dis", "profile")
    refused = refused_of(output)
    if refused:
        is_first = refused.slot == 0 or refused.code in OF_ALL_BYTES
        return [] if is_first else listing(code[: 8 * refused.slot], options)
    listed, slot = [], 0
    for text in output.splitlines():
        listed.append((slot, text))
        slot += 2 if text.startswith("lddw ") else 1
    return listed


def frame_before(slot: int, code: bytes, options: Options) -> frames.Frame | None:
    """What is known before a slot, or None where nothing leads to it."""
    output = told_of(code, options, "percobpf_story", "frames", "profile", "record")
    return dict(frames.frame_of(line) for line in output.splitlines())[slot]


def assembled(text: Path, options: Options) -> bytes:
    """The bytes of a program's text."""
    with tempfile.TemporaryDirectory(prefix="explain-") as folder:
        to = Path(folder) / "bytes"
        done = told(options, "percobpf", "asm", text, to, *options.words("profile"))
        if done.returncode == 0:
            return to.read_bytes()
    found = re.fullmatch(r"line (\d+) code (\d+)\n", done.stderr)
    if found is None:
        raise NotTold(done.stderr.strip())
    raise TextRefused(int(found[1]), int(found[2]))
