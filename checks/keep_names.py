"""The names of a log and of what stands beside it, for `checks/keep`.

- near: tables whose names begin as that of a log which is compacted. They are served meanwhile, and have all that they answered.
- in the way: what has a name of a new log and is none. It stays, and the new log gets the next name.
- locked: what is left of a new log, and locked by a program, stays until it isn't.
- reserved: no table has a name of a new log.
- links: a log is opened where a link leads, and none is made there.
- lost: a log that is removed, renamed or replaced while it is served. Its program answers no change from then on, and leaves what has
  the name as it is.
- given: the rights and the owner of a log are those of the new one, and nobody else's file gets them. Where a call that gives it them
  fails, the log stays. A log that is made has the rights that the umask leaves of 0644.
- mounted: a file system that is mounted over a log's folder, with a file of the log's number in its place.
- closed: standard streams that are closed. What is written to them doesn't get into a log.
- few: a process that may open few files. What was answered before it ended, at its compaction or before, is in the log.
"""
from __future__ import annotations

import fcntl
import os
import socket
import stat
import subprocess
from collections import Counter
from contextlib import ExitStack

import logs
from keep_compactions import compacted, from_size, goes_on
from keep_ends import SmallDisk, ask, expect
from keep_room import beside, left_of, line_of, made_in, new_names
from left_out import note_left_out

LOST = "the log was removed, renamed or replaced"
RESERVED = "names ending in ~new or ~new-wal are reserved"

# What the names of tables have after that of a log which is compacted, beside it. A table can't be served while another one has the name
# that follows it in the second list, which that one's library opens.
NEAR = (("-new", "~", "~new1", ".1", ".1~new1", ".1-new", ".new", ".1~new.log"), ("-new-wal",))

# What is asked of a program whose log has lost its name, which then ends without an answer; and what is answered before.
ASKED = ("put 8 0 2b", "if 9 0 0; put 9 0 2b", "if 7 0 0; put 9 0 2b", "begin\nput 8 0 2b\nend", "no line\nput 8 0 2b", "compact")
QUESTIONS = ("get 7 5", "quiet?", "no line")
ANSWERS = [b"absent\n", b"quiet\n", b"refused 70\n"]

# An owner and a group that nobody else has.
OWNER, GROUP = 61_801, 61_802


# Near


def try_near(room, its):
    """Compacts a log, by a start and by a line, while tables of other names are served. Answers how many there are."""
    return sum(is_near(room, its, endings) for endings in NEAR)


def is_near(room, its, endings):
    """The same with tables whose names end so. Answers how many there are."""
    log = room.log("near")
    log.write_bytes(its.before)
    tables = [log.parent / f"{log.name}{ending}" for ending in endings]
    with ExitStack() as served:
        running = [served.enter_context(room.start(table)) for table in tables]
        for each in running:
            expect("a table near another one", (each.stdout.readline(), ask(each, b"put 7 0 2a")[:5]), (b"open 0\n", b"made "))
        expect("a compaction near tables", room.compact(log), compacted(its.changes, its.versions))
        expect("one that a line asks for", room.run(log, ["compact"])[1][1:], [f"compacted {its.versions}"])
        for table, each in zip(tables, running):
            expect("a table after that", ask(each, b"put 8 0 2b")[:5], b"made ")
            each.stdin.close()
            expect(f"the end of {table.name}", (each.stderr.read(), each.wait()), (b"", 0))
    for table in tables:
        expect(f"the table {table.name}", room.opened(table), (2, room.table(["put 7 0 2a", "put 8 0 2b"])))
        table.unlink()
        beside(table).unlink()
    expect("the log near tables", (log.read_bytes(), left_of(log)), (its.after, []))
    return len(tables)


# In the way


def shown(path):
    """What has a name: its kind and rights, how many names it has, and what it leads to or has in it."""
    found = path.lstat()
    kind = stat.S_IFMT(found.st_mode)
    inner = {stat.S_IFLNK: lambda: os.readlink(path), stat.S_IFDIR: lambda: sorted(os.listdir(path)), stat.S_IFREG: path.read_bytes}
    return found.st_mode, found.st_nlink, found.st_ino, inner.get(kind, lambda: None)()


def make_others(room, its):
    """Ways to make what is none of a program's files at a name."""
    other = room.folder / "other"
    other.write_bytes(its.before)

    def full_folder(path):
        path.mkdir()
        (path / "inner").write_bytes(b"of another")

    def a_socket(path):
        # by a short name, since that of a socket has 107 bytes at most
        parent = os.open(path.parent, os.O_RDONLY)
        with socket.socket(socket.AF_UNIX) as its_own:
            its_own.bind(f"/proc/self/fd/{parent}/{path.name}")
        os.close(parent)

    return {
        "a folder": lambda path: path.mkdir(),
        "a full folder": full_folder,
        "a fifo": os.mkfifo,
        "a link to a log": lambda path: path.symlink_to(other),
        "a link to nothing": lambda path: path.symlink_to(room.folder / "nothing"),
        "a log of two names": lambda path: path.hardlink_to(other),
        "a text": lambda path: path.write_bytes(b"of another"),
        "a socket": a_socket,
    }


def removed(path):
    """Nothing has this name any longer."""
    if path.is_dir() and not path.is_symlink():
        for inner in path.iterdir():
            inner.unlink()
        path.rmdir()
    else:
        path.unlink()


def try_in_the_way(room, its):
    """Compacts a log where something has the name of its new log, or of what stands beside that; and where something has all such names.
    Answers how many there were."""
    others = make_others(room, its)
    for what, make in others.items():
        for name in (lambda path: path, beside):
            log = room.log("in-the-way")
            log.write_bytes(its.before)
            path = name(new_names(log)[0])
            make(path)
            before = shown(path)
            expect(f"a compaction with {what} in the way", goes_on(room, log, its, its.before, [path.name]), None)
            expect(f"{what} in the way", shown(path), before)
            removed(path)
    log = room.log("in-the-way")
    log.write_bytes(its.before)
    for make, path in zip(others.values(), new_names(log)):
        make(path)
    before = [shown(path) for path in new_names(log)[: len(others)]]
    expect("the last name", (room.compact(log), log.read_bytes()), (compacted(its.changes, its.versions), its.after))
    new_names(log)[-1].mkdir()
    expect("no name", room.compact(log), (1, "open 0\n", line_of(f"{log}: all names for a new log are taken")))
    expect("what has all names", [shown(path) for path in new_names(log)[: len(others)]], before)
    for path in new_names(log):
        removed(path)
    return 2 * len(others) + 2


def try_locked(room, its):
    """Compacts a log beside what is left of a new log, locked by a program, and again once it isn't. Answers how many there were."""
    log = room.log("locked")
    log.write_bytes(its.before)
    new = new_names(log)[0]
    for file in (new, beside(new)):
        file.write_bytes(its.after)
        with open(file, "r+b") as held:
            fcntl.flock(held, fcntl.LOCK_EX)
            log.write_bytes(its.before)
            expect("a compaction beside a locked log", goes_on(room, log, its, its.before, [file.name]), None)
            expect("a locked log", file.read_bytes(), its.after)
        log.write_bytes(its.before)
        expect("a compaction once it isn't locked", goes_on(room, log, its, its.before), None)
    return 2


# Reserved


def try_reserved(room, its):
    """Opens and compacts logs with names of new logs, by these and by links, and makes them. Answers how many were refused."""
    folder = room.folder / "reserved"
    folder.mkdir()
    names = [folder / name for name in ("tab.1~new", "tab.9~new", "~new", "tab.1~new-wal", "~new-wal", "tab~new")]
    for path in names:
        refused = line_of(f"{path}: {RESERVED}")
        expect("a new table with a name of a new log", (room.run(path, ["list"]), os.listdir(folder)), ((1, [], refused), []))
        path.write_bytes(its.before)
        link = folder / "link.log"
        link.symlink_to(path)
        for log in (path, link):
            expect(f"a table {log.name}", (room.run(log, ["list"]), room.compact(log)), ((1, [], refused), (1, "", refused)))
        expect("what is refused", (path.read_bytes(), sorted(os.listdir(folder))), (its.before, sorted([path.name, link.name])))
        link.unlink()
        path.unlink()
    inner = folder / "tab.1~new"
    inner.mkdir()
    log = inner / "tab~new.log"
    log.write_bytes(its.before)
    expect("a table in a folder of such a name", goes_on(room, log, its, its.before), None)
    return 5 * len(names)


# Links


def try_links(room, its):
    """Opens a log by a link, and where a link leads to nothing. Answers how many links there were."""
    folder = room.folder / "links"
    folder.mkdir()
    log, link = folder / "table.log", folder / "link.log"
    link.symlink_to(log)
    refused = line_of(f"{link}: No such file or directory (os error 2)")
    expect("a link to nothing", (room.run(link, ["list"]), os.listdir(folder)), ((1, [], refused), [link.name]))
    log.write_bytes(its.before)
    expect("a link to a log", room.opened(link), room.opened(log))
    return 2


# Lost


def ways_to_lose(folder, log, other):
    """Ways in which a log loses its name."""

    def rename():
        log.rename(folder / "moved.log")

    def link():
        rename()
        log.symlink_to(folder / "moved.log")

    def rename_folder():
        folder.rename(folder.parent / "moved")
        folder.mkdir()

    return {
        "removed": log.unlink,
        "renamed": rename,
        "replaced": lambda: other.rename(log),
        "replaced by a link": link,
        "replaced with its folder": rename_folder,
    }


def lost(room, its, number, what, asked, options):
    """Loses the name of a log, and then asks its program for something."""
    folder = room.folder / f"lost-{number}/inner"
    folder.mkdir(parents=True)
    log, other = folder / "table.log", folder / "other.log"
    other.write_bytes(its.before)
    with room.start(log, options) as running:
        expect("a log that is there", (running.stdout.readline(), ask(running, b"put 7 0 2a")[:5]), (b"open 0\n", b"made "))
        ways_to_lose(folder, log, other)[what]()
        before = log.read_bytes() if log.exists() else None
        expect(f"questions of a log that is {what}", [ask(running, line.encode()) for line in QUESTIONS], ANSWERS)
        came = running.communicate(f"{asked}\nquiet?\n".encode())
        expect(f"a log that is {what}: {asked}", (*came, running.returncode), (b"", line_of(f"{log}: {LOST}").encode(), 1))
    if what == "replaced":
        expect("what has the name of a log", log.read_bytes(), before)
    kept = {"renamed": folder / "moved.log", "replaced by a link": log, "replaced with its folder": folder.parent / "moved/table.log"}.get(what)
    if kept:
        expect(f"the changes of a log that is {what}", logs.changes_in(kept.read_bytes(), room.manifest.read_bytes())[:1], ["put 7 0 2a"])


def try_lost(room, its, pool):
    """Asks for each thing in each way, and has a log compacted at its size. Answers how often a program has ended."""
    asked = [*((line, ()) for line in ASKED), ("put 8 0 2b", from_size(500))]
    jobs = [(what, *each) for what in ways_to_lose(room.folder, room.folder, room.folder) for each in asked]
    list(pool.map(lambda job: lost(room, its, job[0], *job[1]), enumerate(jobs)))
    return len(jobs)


# Given


def rights(path):
    found = path.stat()
    return stat.S_IMODE(found.st_mode), found.st_uid, found.st_gid


def try_swapped(room, its):
    """A compaction in a folder where somebody puts a link to a file in the place of the new log, as it is given to the owner of the old
    one: that file stays as it is, also where root compacts. Answers how many there were."""
    victim = room.folder / "victim"
    victim.write_bytes(b"of another")
    victim.chmod(0o600)
    log = room.log("swapped")
    log.write_bytes(its.before)
    log.chmod(0o666)
    if os.geteuid() == 0:
        os.chown(log, OWNER, GROUP)
    before, new = (rights(victim), victim.read_bytes()), new_names(log)[0]
    status, out, errors = room.compact(log, LD_PRELOAD=str(room.shim), FAULT_SWAP=str(victim))
    links = sorted([new.name, beside(new).name])
    expect("links in the place of a new log", (new.is_symlink(), beside(new).is_symlink(), left_of(log)), (True, True, links))
    expect("a compaction with it", (status, out, len(errors.splitlines()), log.read_bytes()), (1, f"open {its.changes}\n", 1, its.before))
    expect("the file that it leads to", ((rights(victim), victim.read_bytes()), beside(victim).exists()), (before, False))
    expect("the next compaction", goes_on(room, log, its, its.before, links), None)
    return 1


def try_given(room, its):
    """Compacts logs with rights and owners. Answers how many there were."""
    count = 0
    for mode in (0o600, 0o640, 0o664, 0o606):
        log = room.log("given")
        log.write_bytes(its.before)
        log.chmod(mode)
        if os.geteuid() == 0:
            os.chown(log, OWNER, GROUP)
        before = rights(log)
        expect("a log of somebody", (goes_on(room, log, its, its.before), rights(log)), (None, before))
        count += 1
    if os.geteuid() != 0:
        note_left_out("keep", "logs of another owner: only root gives files away")
    for call in ("fchown", "fchmod"):
        log = room.log("kept")
        log.write_bytes(its.before)
        refused = line_of(f"{new_names(log)[0]}: Input/output error (os error 5)")
        for came in (room.compact(log, LD_PRELOAD=str(room.shim), FAULT_GIVE=call), served_as(room, log, "compact", FAULT_GIVE=call)):
            expect(f"a compaction whose {call} fails", (*came, log.read_bytes(), left_of(log)), (1, f"open {its.changes}\n", refused, its.before, []))
        count += 1
    return count


def served_as(room, log, line, **more):
    """How a program ends that is sent one line, as `compact` of the room has it."""
    status, out, errors = room.run(log, [line], LD_PRELOAD=str(room.shim), **more)
    return status, "".join(f"{it}\n" for it in out), errors


def try_made(room):
    """Makes logs under umasks. Answers how many there were."""
    masks = {0o000: 0o644, 0o022: 0o644, 0o027: 0o640, 0o077: 0o600}
    for umask, mode in masks.items():
        log = room.log("made-under")
        with room.start(log, umask=umask) as running:
            expect(f"a log under the umask {umask:03o}", (*running.communicate(), running.returncode), (b"open 0\n", b"", 0))
        expect("its rights", oct(rights(log)[0]), oct(mode))
    return len(masks)


# Mounted

# Prints the number of a log; and mounts another file system over its folder, with a log of these bytes, whose number is printed.
NUMBER = 'stat -c %i "$1/table.log"'
MOUNT = f'mount -t tmpfs -o size=256k other "$1" && cat >"$1/table.log" && {NUMBER}'


def try_mounted(room, its):
    """A log over whose folder another file system is mounted, in which its name leads to a file of the same number: by its device it is
    another one. Answers how many there were."""
    count = 0
    with SmallDisk("tmpfs", room.folder) as disk:
        if disk.is_there:
            log = disk.folder / "table.log"
            with room.run_by(disk.words).start(log) as running:
                expect("a log on a file system", (running.stdout.readline(), ask(running, b"put 7 0 2a")[:5]), (b"open 0\n", b"made "))
                count += disk.shell(NUMBER) == disk.shell(MOUNT, its.before)
                came = running.communicate(b"put 8 0 2b\nquiet?\n")
            expect("a log over which another one is mounted", (*came, running.returncode), (b"", line_of(f"{log}: {LOST}").encode(), 1))
    disk.folder.rmdir()
    if not count:
        note_left_out("keep", "a file of the same number on another file system: none may be mounted, or numbers go on over all of them")
    return count


# Closed


def try_closed(room, its):
    """Serves and compacts a log by programs of which some standard streams are closed. Answers how many there were."""
    sets = ("0", "1", "2", "01", "02", "12", "012")
    for closed in sets:
        streams = " ".join(f"{number}>&-" for number in closed)
        for options in ((), ("--compact",), from_size(0)):
            log = room.log("closed")
            log.write_bytes(its.before)
            script = f'printf "put 3 0 2a\\ncompact\\nput 4 0 2b\\n" | exec "$@" {streams}'
            words = ["sh", "-c", script, "sh", room.program, *options, room.manifest, log]
            ended = subprocess.run(words, stdout=subprocess.PIPE, stderr=subprocess.PIPE, timeout=120)
            expect(f"closed streams {closed} with {options}: signals", ended.returncode in (0, 1), True)
            status, out, errors = room.run(log, ["quiet?"])
            expect(f"a log after closed streams {closed} with {options}", (status, out[-1:], errors), (0, ["quiet"], ""))
    return 3 * len(sets)


# Few

# How many files a process may open: with the first it reads no manifest, and with the last it compacts its log.
DESCRIPTORS = range(4, 16)


def try_few(room, its):
    """Serves and compacts a log by programs that may open few files. Answers how many ended for want of one."""
    count = 0
    for most in DESCRIPTORS:
        log = room.log("few")
        log.write_bytes(its.before)
        few = room.run_by(["prlimit", f"--nofile={most}:{most}"])
        status, out, errors = few.run(log, ["put 3 0 2a", "compact", "put 4 0 2b"])
        is_said = (status, errors) == (0, "") if made_in(out) == 2 else status == 1 and len(errors.splitlines()) == 1
        expect(f"a program of {most} files: status {status}, {errors!r}", is_said, True)
        found = [line.split(" ")[:2] for line in room.run(log, ["get 3 0", "get 4 0"])[1][1:]]
        wanted = [["value", "2a"], ["value", "2b"]][: made_in(out)]
        expect(f"the log of a program of {most} files", found[: len(wanted)], wanted)
        count += status == 1
    return count


def try_all(room, its, pool):
    """Tries all of it, and answers what was met, in words and as numbers."""
    met = Counter({"tables near": try_near(room, its), "in the way": try_in_the_way(room, its), "locked beside": try_locked(room, its)})
    met["names refused"], met["links"], met["names lost"] = try_reserved(room, its), try_links(room, its), try_lost(room, its, pool)
    met["swapped"], met["given"], met["closed"] = try_swapped(room, its), try_given(room, its), try_closed(room, its)
    met["made under umasks"], met["mounted over"], met["files wanted"] = try_made(room), try_mounted(room, its), try_few(room, its)
    return met
