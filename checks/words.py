"""The words of the crates below that a crate passes on to its own definitions and proofs, in its specs/Words.antt."""
from __future__ import annotations

import re
from functools import cache
from pathlib import Path

TOP = Path(__file__).resolve().parent.parent
PASSED = re.compile(r"^(?:unfoldable )?pub use Rattle\.(?P<path>[\w.]+)\.\{(?P<names>[^}]*)\}$", re.M)


@cache
def passed_on(crate):
    """The module that has each word that the crate passes on."""
    file = TOP / "crates" / crate / "specs/Words.antt"
    if not file.is_file():
        return {}
    rows = PASSED.finditer(file.read_text(encoding="utf-8"))
    return {name.strip(): row["path"] for row in rows for name in row["names"].split(",")}


def module_of(path, name):
    """The module that has a word which a file takes from a module of this path, without 'Rattle.' before it."""
    crate, _, rest = path.partition(".specs.")
    return passed_on(crate).get(name, path) if rest == "Words" else path
