"""Ends processes that go on for too long, with all that they started."""
from __future__ import annotations

import ctypes
import os
import signal
import time
from contextlib import suppress
from pathlib import Path

# prctl(2): orphans of what this process started, and of what that started, become its children
SET_CHILD_SUBREAPER = 36
# How long what is killed has for its end, in seconds.
END = 10


def take_orphans():
    """Lets this process find all that is started below it, also where what started it has ended."""
    ctypes.CDLL(None).prctl(SET_CHILD_SUBREAPER, 1, 0, 0, 0)


def below(process):
    """The processes that one has started, and those that these have, but for those that have ended."""
    children = {}
    for stat in Path("/proc").glob("[0-9]*/stat"):
        with suppress(OSError):
            state, parent, *_ = stat.read_text(errors="replace").rpartition(") ")[2].split()
            children.setdefault(int(parent), []).append((int(stat.parent.name), state))
    found, ahead = [], [process]
    while ahead:
        its = children.get(ahead.pop(), [])
        ahead += [it for it, _ in its]
        found += [it for it, state in its if state not in "ZX"]
    return found


def end_all_below(process):
    """Kills all that a process has started, also what comes meanwhile."""
    deadline = time.monotonic() + END
    while (running := below(process)) and time.monotonic() < deadline:
        for it in running:
            with suppress(ProcessLookupError, PermissionError):
                os.kill(it, signal.SIGKILL)
        time.sleep(0.02)
