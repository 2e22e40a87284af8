"""A place in which `percobpf_keep` is run for `checks/keep`: its manifest, a folder for logs, and the tables of programs that were never
killed."""
from __future__ import annotations

import copy
import json
import os
import subprocess
import sys
import threading
from pathlib import Path

TOP = Path(__file__).resolve().parent.parent

# what is asked of a table; of its answers the size of the log isn't compared, since it depends on which changes share a record
QUESTIONS = ("list", "quiet?", "stats")


class Room:
    """A program, its manifest, and a folder for logs."""

    def __init__(self, program, folder):
        # nsenter runs it in another folder
        self.program, self.folder = Path(program).resolve(), Path(folder).resolve()
        self.manifest = self.folder / "manifest.json"
        parts = [json.loads((TOP / f"examples/{name}.json").read_text()) for name in ("copy", "counter", "watch")]
        observers = [observer for part in parts for observer in part["observers"]]
        self.manifest.write_text(json.dumps({"profile": 1, "observers": observers}))
        self.shim = self.folder / "fault.so"
        words = ["cc", "-shared", "-fPIC", "-O1", "-o", self.shim, TOP / "checks/fault.c", "-ldl"]
        subprocess.run(words, check=True)
        self.before = []
        self.tables, self.lock = {}, threading.Lock()

    def log(self, name):
        path = self.folder / f"{name}.log"
        for each in (path, Path(f"{path}-wal"), *path.parent.glob(f"{path.name}.*~new*")):
            each.unlink(missing_ok=True)
        return path

    def run_by(self, words):
        """The same room, in which the program is run by these words."""
        other = copy.copy(self)
        other.before = words
        return other

    def start(self, log, options=(), manifest=None, **more):
        how = {"stdin": subprocess.PIPE, "stdout": subprocess.PIPE, "stderr": subprocess.PIPE}
        return subprocess.Popen([*self.before, self.program, *options, manifest or self.manifest, log], **how, **more)

    def run(self, log, lines, manifest=None, options=(), **more):
        """The status, the lines of output, and the text of errors."""
        return self.send(log, "".join(f"{line}\n" for line in lines).encode(), manifest, options, **more)

    def send(self, log, text, manifest=None, options=(), **more):
        """The same of an input of this text."""
        words = [*self.before, self.program, *options, manifest or self.manifest, log]
        ended = subprocess.run(words, input=text, capture_output=True, env={**os.environ, **more}, timeout=120)
        return ended.returncode, ended.stdout.decode().split("\n")[:-1], ended.stderr.decode()

    def compact(self, log, manifest=None, options=(), **more):
        """The status, the output, and the text of errors of a compaction."""
        words = [*self.before, self.program, *options, "--compact", manifest or self.manifest, log]
        how = {"stdin": subprocess.DEVNULL, "capture_output": True, "env": {**os.environ, **more}, "timeout": 120}
        ended = subprocess.run(words, **how)
        return ended.returncode, ended.stdout.decode(), ended.stderr.decode()

    def run_in_turn(self, log, messages, **more):
        """The same of lines of which each message is sent after the one before it is answered, each line by one line."""
        with self.start(log, env={**os.environ, **more}) as running:
            return answers_in_turn(running, messages)

    def table(self, changes):
        """The report after these changes, and what the observers have done, of a program that was never killed."""
        key = tuple(changes)
        with self.lock:
            if key not in self.tables:
                status, out, errors = self.run(self.log("never"), [*changes, *QUESTIONS])
                if status or errors:
                    sys.exit(f"keep: {len(changes)} changes: status {status}, {errors}")
                self.tables[key] = without_size(out[1 + len(changes) :])
            return self.tables[key]

    def opened(self, log, manifest=None):
        """How many changes a log has, and its table; or None and what is reported, with a status that isn't 1."""
        status, out, errors = self.run(log, QUESTIONS, manifest)
        if status == 0 and out and out[0].startswith("open "):
            return int(out[0].split()[1]), without_size(out[1:])
        return None, errors if status == 1 and not out else f"status {status}, output {out}, {errors}"


def answers_in_turn(running, messages):
    """The status, the lines of output, and the text of errors of a program that was started."""
    out = [running.stdout.readline()]
    for lines in messages:
        try:
            running.stdin.write("".join(f"{line}\n" for line in lines).encode())
            running.stdin.flush()
        except BrokenPipeError:
            break
        out += [running.stdout.readline() for _ in lines]
    try:
        running.stdin.close()
    except BrokenPipeError:
        pass
    errors = running.stderr.read().decode()
    return running.wait(), [line.decode()[:-1] for line in out if line], errors


def without_size(lines):
    """The lines without that of the log's size."""
    return [line for line in lines if not line.startswith("log ")]


def without_history(lines):
    """Answers without how many entries the table has, which a compaction lowers, and without the size of the log."""
    return [line for line in without_size(lines) if not line.startswith("entries ")]


def new_names(log):
    """The names that the new log of a compaction may have: the first that is free is taken."""
    return [log.parent / f"{log.name}.{number}~new" for number in range(1, 10)]


def beside(path):
    """The name of the file that stands beside a log while it is open."""
    return path.parent / f"{path.name}-wal"


def take_names(log):
    """Has a folder at each name of a new log, and answers what a compaction reports then."""
    for path in new_names(log):
        path.mkdir()
    return f"{log}: all names for a new log are taken"


def free_names(log):
    """Removes these folders."""
    for path in new_names(log):
        path.rmdir()


def left_of(log):
    """What stands in the folder of a log with names of its new one."""
    return sorted(each.name for each in log.parent.glob(f"{log.name}.*~new*"))


def made_in(lines):
    return sum(line.startswith("made ") for line in lines)


def line_of(sentence):
    """The text of errors in which a sentence is reported."""
    return f"Error: {sentence}\n"
