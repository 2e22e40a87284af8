"""The trial of some edits in one check after another, and what is found of each: refused, settled, unsettled, let through, untold or
bad. `checks/wrong-bodies` says what each is; it and `checks/gate-bodies` try edits so."""
from __future__ import annotations

import hashlib
import shutil
from dataclasses import dataclass, field
from pathlib import Path

from batches import Batch
from copies import as_copies, as_edited
from settled import fault_of
from sources import SOURCES, BadEdit, functions_changed, pairs_of, settled_of
from trials import NO_SUCH_PATH, check, copy_parts
from verdicts import PLANTED, Said, set_aside

# How often a body is tried at most, each time with more of its function's proof set aside.
MOST_GOES = 4
# Why a body is unsettled.
OPEN, AT_LIMIT = "the search found nothing", "the check came to a limit of the prover"


@dataclass
class Edit:
    """An edit as it stands in its file. `functions` are those that it changes, or none where it changes anything else, and
    `is_body` says that it changes the body of one alone. `settled` says why it is known to be wrong, where it does."""

    crate: str
    name: str
    pairs: list
    functions: list = field(default_factory=list)
    is_body: bool = False
    settled: str = ""

    @property
    def label(self):
        return f"{self.crate}/{self.name}"

    @property
    def function(self):
        return self.functions[0] if self.is_body else None

    @property
    def named(self):
        """Its name, with a sum of what it changes."""
        return f"{self.name} {hashlib.sha256(repr((self.pairs, self.settled)).encode()).hexdigest()[:16]}"


def read_edit(crate, file):
    """An edit's pairs, and what they change."""
    pairs, settled = pairs_of(file), settled_of(file)
    if settled and (fault := fault_of(settled)):
        raise BadEdit(f"what settles it: {fault}")
    return Edit(crate.name, file.name, pairs, *functions_changed(crate.sources, pairs), settled)


def planted(crate, laid, edits, texts):
    """These texts of files, with a fault planted in that of the answers of each function, where its proof isn't written otherwise."""
    sources, more = {**crate.sources, **laid.texts, **texts}, {}
    for edit in edits:
        folder = laid.functions[edit.label][0].folder_in(crate.types)
        if f"{folder}/Proof.antt" not in sources:
            more[f"{folder}/Answers.antt"] = (sources.get(f"{folder}/Answers.antt") or "") + PLANTED
    return {**texts, **more}


def said_in_trial(crate, room, laid, edits, texts):
    """What a check of the crate says with what is laid over it, and then with these texts of files, or without a file where there is
    none, in a lane where nothing of an earlier trial is left. Where each of the edits changes the body of one function, the check is
    of the functions by which these are judged."""
    lane = room.lanes.get()
    try:
        copy_parts(room.base / crate.name, lane, [*SOURCES, "out/incremental"])
        for file, text in {**laid.texts, **texts}.items():
            if text is None:
                (lane / file).unlink(missing_ok=True)
            else:
                (lane / file).parent.mkdir(parents=True, exist_ok=True)
                (lane / file).write_text(text, encoding="utf-8")
        paths = [laid.functions[it.label][0].path_in(crate.types) for it in edits if it.function]
        if len(paths) == len(edits):
            said = Said(*check(crate, lane, room, 1, *(word for it in paths for word in ("--only", f"{crate.name}::{it}"))))
            # a name of the prover's own for a function, as of an `impl` for a type of another crate, fits no path
            if said.status != NO_SUCH_PATH:
                return said
        return Said(*check(crate, lane, room, 1))
    finally:
        shutil.rmtree(lane, ignore_errors=True)
        room.lanes.put(lane)


class Goes:
    """The trials of some edits in one check after another, each with more of their functions' proofs set aside, and without those
    edits of which the check before says enough."""

    def __init__(self, crate, room, batch):
        self.crate, self.room, self.batch, self.edits = crate, room, batch, batch.edits
        self.laid = (as_copies if batch.are_copies else as_edited)(crate, batch.edits)
        # by the label of each edit: the texts of its functions' proofs without what is set aside
        self.texts, self.count = {it.label: {} for it in batch.edits}, 0
        # the labels of those of which a clause is false, of which a name is gone, and whose invariants don't fit
        self.false, self.gone, self.unkept = set(), set(), set()

    def go(self):
        """What the next check says."""
        self.count += 1
        texts = {file: text for it in self.edits for file, text in self.texts[it.label].items()}
        texts = planted(self.crate, self.laid, self.edits, texts) if self.batch.is_planted else texts
        said = said_in_trial(self.crate, self.room, self.laid, self.edits, texts)
        for edit in self.edits:
            functions = self.laid.functions[edit.label]
            if any(Path(file).name == "Invariants.antt" for file in said.own_errors(functions)):
                self.unkept.add(edit.label)
            # what holds after a loop is known by its invariants alone
            if edit.label not in self.unkept and said.is_false_at_a_clause(functions):
                self.false.add(edit.label)
        return said

    def with_more_set_aside(self, said):
        """Sets aside what of the proofs of those that aren't refused doesn't fit, and answers of which edits there is more of it."""
        more = []
        for edit in self.edits:
            before = self.texts[edit.label]
            errors = said.own_errors(self.laid.functions[edit.label]) if edit.label not in self.false else {}
            # later, names may be gone with an answer that was set aside, whose head they stand in
            if not before and any(names for its in errors.values() for _, names in its):
                self.gone.add(edit.label)
            self.texts[edit.label] = {**before, **set_aside({**self.crate.sources, **self.laid.texts, **before}, errors)}
            if self.texts[edit.label] != before:
                more.append(edit)
        return more if self.count < MOST_GOES else []

    def verdict(self, edit, said):
        """The kind of an edit by what the last check with it says, and why; or none where it has to be tried otherwise."""
        functions, is_alone = self.laid.functions[edit.label], self.batch.is_alone and not self.batch.is_planted
        if edit.label in self.false:
            return "refused", ""
        if said.status == 1 and said.is_not_covered(functions):
            return "untold", "its form isn't covered"
        if is_alone and said.status == 0:
            return "let through", "with what of its proof doesn't fit set aside" if self.texts[edit.label] else ""
        if is_alone and (line := said.unread()):
            return "bad", f"it can't be read: {line[:200]}"
        if is_alone and said.status == 3:
            return "unsettled", AT_LIMIT
        if is_alone and not said.is_refusal:
            return "bad", f"nothing was proved or refused: {said.text.strip()[-300:]}"
        if self.batch.is_planted and (said.waits(functions, self.crate.types) or not said.shows_why(functions)):
            return None, ""
        if not said.unproved(functions, self.crate.types):
            return ("untold", "what isn't proved is no function that it changes") if is_alone else (None, "")
        if edit.label in self.gone | self.unkept:
            return "untold", "it falls by the text of its function's proof alone"
        return "unsettled", OPEN


def try_batch(crate, room, batch, tried):
    """Tries the edits in one check, and those of which it doesn't say enough in the next. Returns the batches that are left to try."""
    goes = Goes(crate, room, batch)
    said = goes.go()
    if (batch.are_copies or not batch.is_alone) and (said.unread() or not said.has_verdict):
        middle = len(batch.edits) // 2
        halves = (batch.edits[:middle], batch.edits[middle:]) if middle else (batch.edits,)
        return [Batch(its, batch.is_planted, batch.are_copies and middle > 0) for its in halves]
    left = []
    while goes.edits:
        more = goes.with_more_set_aside(said) if said.status == 1 else []
        for edit in (it for it in goes.edits if it not in more):
            kind, why = goes.verdict(edit, said)
            if kind == "untold" and batch.are_copies:
                left.append(Batch([edit], True))
            elif kind is None:
                left.append(Batch([edit], False))
            else:
                tried.note(kind, edit, why)
        goes.edits = more
        said = goes.go() if more else said
    return left
