"""Where `checks/wrong-bodies` tries its edits: crates in a temporary folder, over the libraries of those below, by the prover."""
from __future__ import annotations

import os
import queue
import subprocess
import sys
from dataclasses import dataclass, field
from pathlib import Path

from sources import SOURCES, TOP, lines_of_crates, types_in

KIT = Path(subprocess.run(["rt", "doc"], stdout=subprocess.PIPE, text=True, check=True).stdout.strip()).parent
# The status of a check of functions one of which isn't there.
NO_SUCH_PATH = 2
LANES = int(os.environ.get("RT_JOBS") or len(os.sched_getaffinity(0)))


@dataclass
class Crate:
    """A crate: those of the kit that it stands on, and those of the repository that it names itself and that are below it."""

    name: str
    of_kit: list
    named: list
    below: list
    edits: list = field(default_factory=list)
    sources: dict = field(default_factory=dict)
    # The sum of what it was made of when it was read, or none where only some of its edits are tried.
    made: str = ""
    # The names of the edits that were tried before.
    before: set = field(default_factory=set)

    @property
    def notes(self):
        """Where it is noted what came of which edits so far, below the sum of what that rests on."""
        return TOP / "crates" / self.name / "out/tried-bodies"

    @property
    def types(self):
        """The file that declares each type."""
        return types_in(self.sources)


def crates_there():
    """The crates of the repository, lowest first, each with all below it."""
    stands_on = {name: named for name, named in lines_of_crates() if named is not None}
    named, below = {}, {}

    def fill(name):
        if name not in below:
            named[name] = [it for it in stands_on[name] if it in stands_on]
            below[name] = [*dict.fromkeys(low for it in named[name] for low in [*fill(it), it])]
        return below[name]

    for name in stands_on:
        fill(name)
    ordered = dict.fromkeys(it for name in stands_on for it in [*below[name], name])
    of_kit = lambda it: [other for other in stands_on[it] if other not in stands_on]
    return {name: Crate(name, of_kit(name), named[name], below[name]) for name in ordered}


@dataclass
class Room:
    """The temporary folder: `base` has the crates as they stand, and each lane is a copy for one trial after another."""

    folder: Path
    lanes: queue.SimpleQueue
    # Whether the crates aren't proved as they stand before edits of them are tried.
    is_quick: bool = False
    # The libraries, by the names of their crates.
    libraries: dict = field(default_factory=dict)

    @property
    def base(self):
        return self.folder / "base"


def copy_parts(source, target, parts):
    target.mkdir(parents=True, exist_ok=True)
    for part in parts:
        if (source / part).is_dir():
            (target / part).parent.mkdir(parents=True, exist_ok=True)
            words = ["cp", "--reflink=auto", "-a", str(source / part), str(target / part)]
            subprocess.run(words, check=True, stdin=subprocess.DEVNULL)


def rattle(does, crate, folder, room, jobs, *more):
    """Runs rattle on a crate in this folder, and returns its status and what it said."""
    root = "main" if (folder / "src/main.rt").is_file() else "lib"
    words = ["rattle", does, "--crate-name", crate.name, f"src/{root}.rt"]
    for name in ("std", *crate.of_kit):
        words += ["--extern", f"{name}={KIT}/rlibs/{name}.rlib"]
    words += ["-L", f"dependency={KIT}/rlibs"]
    for name in crate.named:
        words += ["--extern", f"{name}={room.libraries[name]}"]
    for name in crate.below:
        words += ["-L", f"dependency={room.libraries[name].parent}"]
    words += ["--antt-project", f"{KIT}/rattle/logic/antt-project.json", "--logic-built", f"{KIT}/logic_built"]
    words += ["--jobs", str(jobs), "--links", f"{crate.name}=", *more]
    how = {"stdin": subprocess.DEVNULL, "stdout": subprocess.PIPE, "stderr": subprocess.STDOUT}
    ran = subprocess.run(words, cwd=folder, text=True, errors="replace", **how)
    return ran.returncode, ran.stdout


def check(crate, folder, room, jobs, *more):
    return rattle("check", crate, folder, room, jobs, "--incremental", "out/incremental", *more)


def newest(crate):
    """When a source of a crate was last changed."""
    files = (it for part in SOURCES for it in (TOP / "crates" / crate / part).rglob("*") if it.is_file())
    return max(it.stat().st_mtime for it in files)


def based(crate, room):
    """The folder of the crate as it stands, in which what checks of it kept stays: at first what those where it is written did."""
    folder = room.base / crate.name
    if not folder.is_dir():
        copy_parts(TOP / "crates" / crate.name, folder, [*SOURCES, "out/incremental"])
    return folder


def library_of(crate, room):
    """The library of a crate: the one that `rt ci` left, where no source of it or below it is newer, else one that is built anew,
    over what its check kept, so that a crate with edits is proved once."""
    kept = TOP / "crates" / crate.name / "out/rlib" / f"{crate.name}.rlib"
    if kept.exists() and kept.stat().st_mtime > max(map(newest, [*crate.below, crate.name])):
        return kept
    folder = based(crate, room)
    built = folder / "out/rlib" / f"{crate.name}.rlib"
    built.parent.mkdir(parents=True, exist_ok=True)
    status, said = rattle("build", crate, folder, room, LANES, "--incremental", "out/incremental", "-o", str(built))
    if status:
        sys.exit(f"wrong-bodies: {crate.name} isn't proved as it stands:\n{said[-2000:]}")
    return built


def libraries_below(crate, room, known):
    """Has the libraries below the crate."""
    for name in crate.below:
        if name not in room.libraries:
            room.libraries[name] = library_of(known[name], room)


def prove(crate, room, jobs, paths=()):
    """Proves a copy of the crate as it stands, whose libraries below are there, but in a quick room; of these functions alone and what
    they call, where their paths in the crate are given."""
    folder, only = based(crate, room), [word for it in paths for word in ("--only", f"{crate.name}::{it}")]
    status, said = (0, "") if room.is_quick else check(crate, folder, room, jobs, *only)
    # a name of the prover's own for a function, as of an `impl` for a type of another crate, fits no path
    if status == NO_SUCH_PATH:
        status, said = check(crate, folder, room, jobs)
    if status:
        sys.exit(f"wrong-bodies: {crate.name} isn't proved as it stands:\n{said[-2000:]}")


def prepare(crate, room, known):
    """Has the libraries below the crate, and proves a copy of it as it stands, with all processors."""
    libraries_below(crate, room, known)
    prove(crate, room, LANES)
