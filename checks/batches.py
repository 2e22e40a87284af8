"""Which edits of `checks/wrong-bodies` share a check: those that are tried on copies of their functions (copies.py), and of the others
those that each change the body of one function, where none leads to another."""
from __future__ import annotations

import re
from dataclasses import dataclass

from copies import has_copy
from sources import BadEdit, applied, functions_in, without_comments

# More bodies in one check leave processors idle.
MOST_IN_A_CHECK = 16


@dataclass(frozen=True)
class Batch:
    """Edits that are tried in one check, whether a fault is planted in the text of their functions' proofs, and whether they are tried
    on copies of these."""

    edits: list
    is_planted: bool
    are_copies: bool = False

    @property
    def is_alone(self):
        return len(self.edits) == 1


def calls_in(crate):
    """The names that each function's name leads to: all that stand in the bodies of the functions called so, and on."""
    named = {}
    for file, text in crate.sources.items():
        if file.startswith("src/") and file.endswith(".rt"):
            for it in functions_in(file, without_comments(text))[0]:
                named.setdefault(it.name, set()).update(re.findall(r"\w+", it.head + it.body))
    leads = {name: set() for name in named}
    for name, reached in leads.items():
        ahead = [name]
        while ahead:
            new = {it for it in named[ahead.pop()] if it in named} - reached
            reached |= new
            ahead += new
    return leads


def batches_of(crate):
    """The edits that are left to try, by the checks that they are tried in."""
    ahead = [it for it in crate.edits if it.name not in crate.before]
    copied, others = [it for it in ahead if has_copy(it)], [it for it in ahead if not has_copy(it)]
    checks = -(-len(copied) // MOST_IN_A_CHECK)
    return [Batch(copied[at::checks], True, True) for at in range(checks)] + [Batch(its, its[0].is_body) for its in apart(crate, others)]


def apart(crate, ahead):
    """Edits by checks, in each of which every one changes a function that leads to none that another changes."""
    leads = calls_in(crate)

    def are_apart(a, b):
        words_of = lambda it: {*re.findall(r"\w+", it.function.body)} & leads.keys()
        reached = lambda it: set().union({it.function.name}, words_of(it), *(leads[word] for word in words_of(it)))
        is_free = a.function.name not in reached(b) and b.function.name not in reached(a)
        return a.function.key != b.function.key and is_free

    alone = [[it] for it in ahead if not it.function]
    shared = []
    for edit in (it for it in ahead if it.function):
        fits = lambda it: len(it) < MOST_IN_A_CHECK and all(are_apart(edit, other) for other in it)
        batch = next((it for it in shared if fits(it) and are_applied_together(crate, [*it, edit])), None)
        if batch is None:
            shared.append([edit])
        else:
            batch.append(edit)
    return shared + alone


def are_applied_together(crate, edits):
    """Whether the edits' pairs apply in one another's presence, each with its own function as alone."""
    try:
        changed = applied(crate.sources, [pair for it in edits for pair in it.pairs])
    except BadEdit:
        return False
    bodies = {it.key: it.body for file in changed for it in functions_in(file, without_comments(changed[file]))[0]}
    return all(bodies.get(it.function.key) == it.function.body for it in edits)
