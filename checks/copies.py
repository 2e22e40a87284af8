"""Wrong bodies as functions of their own: a copy of the function with each, beside it, with a copy of its proof.

Nothing calls a copy, and the function itself stays as it is. So bodies of one function, and bodies of functions that call one another,
are tried in one check. A copy has the contract of its function, and whatever it calls is right. A method of a trait has no copy.
"""
from __future__ import annotations

import re
from dataclasses import dataclass

from sources import applied, functions_in, located, without_comments


@dataclass
class Laid:
    """What a trial lays over a crate's sources: the texts of files, by path, and for each edit, by its label, the functions by which
    it is judged."""

    texts: dict
    functions: dict


def has_copy(edit):
    """Whether the edit can be tried on a copy of the function whose body it changes."""
    its = edit.function
    return its is not None and not its.is_of_trait and not its.is_in_trait and "#[cycle" not in its.head


def as_edited(crate, edits):
    """The crate with these edits made, all together."""
    return Laid(applied(crate.sources, [pair for it in edits for pair in it.pairs]), {it.label: it.functions for it in edits})


def as_copies(crate, edits):
    """The crate with a copy of the function of each edit, which has the edit's body."""
    added = {}
    for number, edit in enumerate(edits):
        added.setdefault(edit.function.file, []).append((edit, f"{edit.function.name}_tried_{number}"))
    laid = Laid({}, {})
    for file, copies in added.items():
        text = crate.sources[file]
        ends = {it.key: it.end for it in functions_in(file, without_comments(text))[0]}
        for edit, name in sorted(copies, key=lambda it: ends[it[0].function.key], reverse=True):
            at = ends[edit.function.key]
            text = f"{text[:at]}\n\n{copy_of(crate, edit, name)}{text[at:]}"
        laid.texts[file] = text
        there = {(it.owner, it.name): it for it in functions_in(file, without_comments(text))[0]}
        for edit, name in copies:
            its = located(there[edit.function.owner, name], text)
            laid.functions[edit.label] = [its]
            laid.texts.update(proof_of_copy(crate, edit, its))
    return laid


def copy_of(crate, edit, name):
    """The text of the edit's function under another name."""
    text = applied(crate.sources, edit.pairs)[edit.function.file]
    its = next(it for it in functions_in(edit.function.file, without_comments(text))[0] if it.key == edit.function.key)
    return re.sub(rf"\bfn\s+{its.name}\b", f"fn {name}", text[its.start : its.end], count=1)


def proof_of_copy(crate, edit, its):
    """The files of the proof of the edit's function, as those of its copy."""
    folder, copied = edit.function.folder_in(crate.types), its.folder_in(crate.types)
    named = re.compile(rf"(?<=\b{re.escape(folder.replace('/', '.'))})(?=\.)")
    ending = copied.removeprefix(folder)
    files = (it for it in crate.sources if it.rpartition("/")[0] == folder)
    return {copied + it.removeprefix(folder): named.sub(ending, crate.sources[it]) for it in files}
