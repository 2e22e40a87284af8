"""Rows of checks/tables about a trial or a replay, as the library for C answers them by its binding in Python."""
from __future__ import annotations

import re

from percobpf_api import VALUE, Change, Refused
from tables import TOO_LARGE

# How many words follow each option of a trial.
TRIAL_WORDS = {"--row": 1, "--column": 1, "--value": 1, "--old": 1, "--cell": 3, "--profile": 1, "--record": 1}
# What is printed where a file can't be read.
FILE_FAULT = re.compile(r"cannot|too large")
CLOCK = re.compile(r"[0-9]{1,20}")


def digits_of(value):
    """A value in hexadecimal, without the zero bytes at its end, but with one byte at least."""
    return bytes(value).rstrip(b"\0").hex() or "00"


def is_plain(row, program, word, files):
    """Whether a row has a program do this with files that are there, and nothing else with its words or its memory."""
    named = row.program == program and row.words[: len(files) + 1] == [word, *files] and row.memory is None
    return named and all(len(row.files.get(name, TOO_LARGE)) < len(TOO_LARGE) for name in files)


def options_of(words):
    """The options of a trial, each with what follows it, as often as it stands."""
    options = {}
    while words:
        name, count = words[0], TRIAL_WORDS.get(words[0])
        if count is None or len(words) <= count:
            return None
        options.setdefault(name, []).append(words[1 : count + 1])
        words = words[count + 1 :]
    return options


def tried(api, row):
    """What the library answers where a row states what a trial prints, or None where the row is about anything else."""
    options = is_plain(row, "percobpf_story", "trial", ["i"]) and options_of(row.words[2:])
    if not options or row.status == 2 or row.err or row.out is None:
        return None
    only = {name: its[0][0] for name, its in options.items() if name != "--cell"}
    old = only.get("--old")
    value_of = lambda text: VALUE(*bytes.fromhex(text))
    change = Change(
        row=int(only["--row"]), column=int(only["--column"]), has_value=1, value=value_of(only["--value"]), start=5 if old else 1,
        commit=6 if old else 2, acknowledged=3 if old else 0, has_old=old is not None, old=value_of(old or ""),
    )
    cells = {(change.row, change.column): bytes.fromhex(only["--value"])}
    for its_row, column, value in options.get("--cell", []):
        cells.setdefault((int(its_row), int(column)), bytes.fromhex(value))
    lines = []

    def reply(its_row, column):
        value = cells.get((its_row, column))
        lines.append(f"read {its_row} {column} -> {'absent' if value is None else f'value {digits_of(value)}'}")
        return value

    try:
        numbers = int(only.get("--profile", 1)), int(only.get("--record", 1))
        reached = api.run(row.files["i"], change, 7 if old else 3, reply, *numbers)
    except Refused as fault:
        return f"refused slot {fault.place} code {fault.code}\n".encode()
    for write in reached.writes[: reached.write_count]:
        lines.append(f"write {write.row} {write.column} {f'value {digits_of(write.value)}' if write.has_value else 'deleted'}")
    lines += [f"result {reached.result}", f"instructions {reached.instructions}"]
    return "".join(f"{line}\n" for line in lines).encode()


def replayed(api, row):
    """What the library answers where a row states what a replay prints, on standard output or as a fault, or None."""
    words = row.words[4:]
    clock = words[1] if len(words) == 2 and words[0] == "--clock" else None if words else "0"
    if not is_plain(row, "percobpf", "replay", ["m", "s", "e"]) or row.status == 2 or clock is None or not CLOCK.fullmatch(clock):
        return None
    if row.out is None or row.err is None or FILE_FAULT.match(row.err.decode("utf-8", "replace")) or int(clock) >= 2**64:
        return None
    texts = [row.files[name] for name in "mse"]
    try:
        is_report, text = api.replay(*texts, int(clock))
    except ValueError:
        return f"not text {next(name for name in 'mse' if not is_text(row.files[name]))}\n".encode()
    return text.encode() if is_report else f"{text}\n".encode()


def is_text(content):
    try:
        content.decode()
    except UnicodeDecodeError:
        return False
    return True


def compare(api, rows):
    """How many rows there are of trials and of replays, and where the library answers otherwise."""
    met, wrong = {"trial": 0, "replayed": 0}, []
    for row in rows:
        for name, answered in (("trial", tried), ("replayed", replayed)):
            answer = answered(api, row)
            if answer is None:
                continue
            met[name] += 1
            wanted = row.out or row.err
            if answer != wanted:
                wrong.append(f"{row.words}: {answer[:300]!r}, wanted {wanted[:300]!r}")
    return met, wrong
