"""The ends of `percobpf_keep` that docs/KEEPING.md names under "What to do at a fault", for `checks/keep`: with status 1, a line on
standard error, and a log as it was."""
from __future__ import annotations

import os
import resource
import shutil
import signal
import subprocess
import sys

import logs
from keep_room import answers_in_turn, line_of, made_in
from left_out import note_left_out

IN_USE = "the database is in use"
NO_SPACE = "the disk: No space left on device (os error 28)"
TOO_LARGE = "the disk: File too large (os error 27)"

# The bytes that a file system has free for a log, and the most that a log may have under a limit.
FREE, LIMIT = 40_960, 8_000

# How many changes at once are more than such a disk has room for.
TOO_MANY = 4_000

# How file systems are made and mounted at "$1", for those who may.
FILE_SYSTEMS = {
    "tmpfs": 'mount -t tmpfs -o size=256k keep "$1"',
    "ext4": 'truncate -s 1M "$1.image" && mkfs.ext4 -q -F -m 0 -O ^has_journal "$1.image" && mount -o loop "$1.image" "$1"',
}
# On which of them how many changes are sent at once. On ext4 two syncs take 10 ms.
FULL = (("tmpfs", 1), ("tmpfs", 40), ("ext4", 40))

# How many programs are started over one log at once.
RIVALS = 8


def fail(what):
    sys.exit(f"keep: {what}")


def expect(what, came, wanted):
    if came != wanted:
        fail(f"{what}: {came!r}, wanted {wanted!r}")


# Files that aren't opened


def refused_files(manifest):
    """Files that aren't opened with this manifest: what each is, its bytes, and what is reported."""
    header, change = logs.header(manifest), b"put 7 0 2a\n"
    whole = logs.log_of([header, change])
    hidden = bytes([logs.CLOSED]) + logs.log_of([header, change, change])[1:]
    return [
        ("a newer log", logs.log_of([logs.header(manifest, version="2"), change]), logs.NEWER),
        ("a newer log without changes", logs.log_of([logs.header(manifest, version="2")]), logs.NEWER),
        ("a log of version 10", logs.log_of([logs.header(manifest, version="10"), change]), logs.NEWER),
        ("a newer log of another manifest", logs.log_of([logs.header(b"{}", version="2")]), logs.NEWER),
        ("a log of another manifest", logs.log_of([logs.header(b"{}"), change]), logs.OTHER_MANIFEST),
        ("a log of a manifest with one blank more", logs.log_of([logs.header(manifest + b" "), change]), logs.OTHER_MANIFEST),
        ("a log of a part of the manifest", logs.log_of([logs.header(manifest[:-1]), change]), logs.OTHER_MANIFEST),
        ("a record of another program", logs.log_of([b"other log 1\n", change]), logs.NO_LOG),
        ("an empty first record", logs.log_of([b"", change]), logs.NO_LOG),
        ("a change in the header's place", logs.log_of([change, change]), logs.NO_LOG),
        ("a film", b"\0\0\0\x20ftypisom" + bytes(range(256)) * 16, logs.NO_LOG),
        ("one byte more than a torn header", bytes(15 + len(header)), logs.NO_LOG),
        ("a text", b"put 7 0 2a\nput 8 0 2b\n", "the log is damaged at byte 0"),
        ("a manifest", manifest, "the log is damaged at byte 0"),
        ("a database of sqlite", b"SQLite format 3\0" + bytes(4080), "the log is damaged at byte 0"),
        ("a log without its first byte", whole[1:], "the log is damaged at byte 0"),
        ("a log under a closed gate", hidden, "the log is damaged at byte 0"),
        ("two bytes", b"\xa5\x00", "the log is damaged at byte 0"),
        ("a record that is no script", logs.log_of([header, change, b"nothing\n"]), logs.NO_SCRIPT),
        ("a record with a condition", logs.log_of([header, b"if 7 0 0; put 7 0 2a\n"]), logs.NO_SCRIPT),
        ("a record that is no text", logs.log_of([header, b"put 7 0 2a\xff\n"]), logs.NO_SCRIPT),
    ]


def try_files(room):
    """Opens the files. Answers how many there were."""
    made = room.log("made")
    room.run(made, ["put 7 0 2a", "begin", "put 8 0 2b", "del 7 0", "end"])
    manifest = room.manifest.read_bytes()
    same = logs.log_of([logs.header(manifest), b"put 7 0 2a\n", b"put 8 0 2b\ndel 7 0\n"])
    expect("a log that is made here beside that of the program", same, made.read_bytes())
    files = refused_files(manifest)
    for what, file, sentence in files:
        log = room.log("refused")
        log.write_bytes(file)
        expect(what, room.run(log, ["put 7 0 2b", "list"]), (1, [], line_of(sentence)))
        expect(f"the file of {what}", log.read_bytes(), file)
    other = room.folder / "other.json"
    other.write_bytes(manifest + b"\n")
    expect("another manifest", room.run(made, ["list"], manifest=other), (1, [], line_of(logs.OTHER_MANIFEST)))
    expect("the file of another manifest", made.read_bytes(), same)
    return len(files) + 1


# Another program over the same log


def try_rivals(room):
    """Starts the program over a log that another one has open, by its name and by a link; and several at once over a new log, of which
    one gets it. Answers how many were refused."""
    log, link = room.log("shared"), room.log("link")
    link.symlink_to(log)
    with room.start(log) as first:
        expect("the first program", first.stdout.readline(), b"open 0\n")
        ask(first, b"put 7 0 2a")
        before = log.read_bytes()
        for name in (log, link):
            # the log is named as it stands, without a link
            expect("a second program", room.run(name, ["put 7 0 2b", "list"]), (1, [], line_of(f"{log}: {IN_USE}")))
        expect("the file of two programs", log.read_bytes(), before)
        answer = ask(first, b"put 8 0 2c")
        expect("the first program after the second", answer.startswith(b"made "), True)
        first.kill()
    expect("the log of two programs", room.opened(log), (2, room.table(["put 7 0 2a", "put 8 0 2c"])))
    for number in range(5):
        at_once(room, room.log(f"rivals-{number}"))
    return 2 + 5 * (RIVALS - 1)


def ask(running, line):
    running.stdin.write(line + b"\n")
    running.stdin.flush()
    return running.stdout.readline()


def at_once(room, log):
    """Starts several programs over a new log."""
    rivals = [room.start(log) for _ in range(RIVALS)]
    firsts = [it.stdout.readline() for it in rivals]
    expect("the first lines of programs that start at once", sorted(firsts), [b""] * (RIVALS - 1) + [b"open 0\n"])
    for first, it in zip(firsts, rivals):
        if first:
            expect("a change by the one that got the log", ask(it, b"put 7 0 2a").startswith(b"made "), True)
        _, errors = it.communicate()
        expect("one of several programs", (it.returncode, errors.decode()), (0, "") if first else (1, line_of(f"{log}: {IN_USE}")))
    expect("the log of several programs", room.opened(log), (1, room.table(["put 7 0 2a"])))


# Disks that are full


class SmallDisk:
    """A file system of few bytes, in a mount namespace of its own: it is gone once the process that holds it has ended, by any end of the
    check."""

    def __init__(self, kind, folder):
        self.folder = folder / kind
        self.folder.mkdir()
        own = [] if os.geteuid() == 0 else ["--user", "--map-root-user"]
        script = f'{FILE_SYSTEMS[kind]} && echo ready && exec cat'
        how = {"stdin": subprocess.PIPE, "stdout": subprocess.PIPE, "stderr": subprocess.PIPE}
        self.holder = subprocess.Popen(["unshare", *own, "--mount", "sh", "-c", script, "sh", self.folder], **how)
        self.is_there = self.holder.stdout.readline() == b"ready\n"
        self.words = ["nsenter", f"--target={self.holder.pid}", *(["--user", "--preserve-credentials"] if own else []), "--mount"]

    def __enter__(self):
        return self

    def __exit__(self, *_ended):
        _, self.errors = self.holder.communicate()

    def shell(self, script, text=b""):
        """The output of a script that is run in the folder, with this input."""
        words = [*self.words, "sh", "-ec", f'cd "$1"; {script}', "sh", self.folder]
        return subprocess.run(words, input=text, stdout=subprocess.PIPE, check=True).stdout

    def fill(self, free):
        """Leaves about so many bytes free."""
        self.shell(f'left=$(stat -f -c "%a*%S" .); head -c $((${{left%\\**}} * ${{left#*\\*}} - {free})) /dev/zero >ballast; sync')


def is_beginning(room, what, log, changes, least, most):
    """A log has the first of these changes; answers how many."""
    found, table = room.opened(log)
    if found is None or not least <= found <= most or table != room.table(changes[:found]):
        why = "another table" if found is not None else table
        fail(f"{what}: {found} changes found, {least} were answered, {most} at most are there: {why}")
    return found


def until_full(room, what, running, changes, together, wanted):
    """Sends changes, so many at once, until the program ends. Answers how many were answered."""
    messages = [changes[at : at + together] for at in range(0, len(changes), together)]
    status, out, errors = answers_in_turn(running, messages)
    answered = made_in(out)
    expect(f"{what}: the end", (status, errors, len(out)), (*wanted, 1 + answered))
    if not 100 <= answered < len(changes):
        fail(f"{what}: {answered} changes answered of {len(changes)}")
    return answered


def try_full(room, kind, together, changes):
    """Fills a disk by changes, so many at once. Then the log opens there, and elsewhere, and goes on once there is room. Answers whether
    there was such a disk, or why not."""
    what = f"a full disk ({kind}, {together} at once)"
    inner = None
    with SmallDisk(kind, room.folder) as disk:
        if disk.is_there:
            inner = room.run_by(disk.words)
            fill_and_go_on(room, inner, disk, what, together, changes)
            if kind == "tmpfs":
                from_nothing(inner, disk, what)
    shutil.rmtree(disk.folder)
    return None if inner else disk.errors.decode().strip().replace("\n", " ")


def fill_and_go_on(room, inner, disk, what, together, changes):
    log = disk.folder / "table.log"
    disk.fill(FREE)
    with inner.start(log) as running:
        answered = until_full(room, what, running, changes, together, (1, line_of(NO_SPACE)))
    found = is_beginning(inner, f"{what}, opened there", log, changes, answered, answered + together)
    # nobody observes that column
    more = [f"put {row} 5 2a" for row in range(TOO_MANY)]
    expect(f"{what}, again", inner.run(log, ["begin", *more, "end"]), (1, [f"open {found}"], line_of(NO_SPACE)))
    elsewhere = room.log("elsewhere")
    elsewhere.write_bytes(disk.shell("cat table.log"))
    expect(f"{what}, opened elsewhere", is_beginning(room, what, elsewhere, changes, found, found), found)
    disk.shell("rm ballast")
    status, out, errors = inner.run(log, ["begin", *more, "end"])
    expect(f"{what}, with room again", (status, errors, made_in(out)), (0, "", len(more)))
    is_beginning(inner, f"{what}, and after that", log, [*changes[:found], *more], found + len(more), found + len(more))


def from_nothing(inner, disk, what):
    """The disk is full before there is a log. On ext4 some bytes are always left."""
    disk.shell("rm table.log*")
    disk.fill(0)
    log = disk.folder / "late.log"
    expect(f"{what} from the beginning", inner.run(log, ["put 7 0 2a"]), (1, [], line_of(NO_SPACE)))
    disk.shell("rm ballast")
    status, out, errors = inner.run(log, ["put 7 0 2a"])
    expect(f"{what} from the beginning, with room again", (status, out[:1], made_in(out), errors), (0, ["open 0"], 1, ""))


def try_limit(room, together, changes, is_ignored):
    """Sends changes until the log is as long as a process may write, by its limit, of which it is sent a signal that kills it where it
    isn't ignored."""
    what = f"a limit of bytes ({together} at once, {'ignored' if is_ignored else 'killed'})"
    log = room.log("limited")
    wanted = (1, line_of(TOO_LARGE)) if is_ignored else (-signal.SIGXFSZ, "")
    # Python ignores the signal, and what it starts does so where its signals aren't restored
    with room.start(log, restore_signals=not is_ignored) as running:
        resource.prlimit(running.pid, resource.RLIMIT_FSIZE, (LIMIT, LIMIT))
        answered = until_full(room, what, running, changes, together, wanted)
    found = is_beginning(room, what, log, changes, answered, answered + together)
    more = ["put 7 0 2a", "del 7 0"]
    status, out, errors = room.run(log, more)
    expect(f"{what}, without it", (status, out[0], made_in(out), errors), (0, f"open {found}", len(more), ""))
    is_beginning(room, f"{what}, and after that", log, [*changes[:found], *more], found + 2, found + 2)


def try_disks(room, changes):
    """Fills disks, where it may mount them, and comes to limits, by changes one by one and many at once. Answers how many ends there
    were."""
    count, missing = 0, {}
    for kind, together in FULL:
        if kind not in missing and (why := try_full(room, kind, together, changes)):
            missing[kind] = why
            note_left_out("keep", f"a full disk of {kind}: {why}")
        count += kind not in missing
    for together, is_ignored in ((1, True), (40, True), (40, False)):
        try_limit(room, together, changes, is_ignored)
        count += 1
    return count


def try_all(room, changes):
    """Tries all ends, and answers how many there were."""
    return try_files(room) + try_rivals(room) + try_disks(room, changes)
