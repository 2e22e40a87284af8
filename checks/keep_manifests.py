"""Logs that are given another manifest (`percobpf_keep --compact MANIFEST LOG`), for `checks/keep`.

- generations: in each generation a log has other observers. Those that stay count on, as in a log that is never compacted; those that
  come, also again, are run for each row that was ever changed. Each snapshot is that of the model, with all acknowledgments.
- lists: the same with random lists, over more generations: observers that stay, move, go, come back, and get other names or columns.
- interrupted: at each call of such a compaction that changes a file or a folder, the program is killed, or the call fails.
- each: a log is given lists that differ from its own in one thing each; and back, where what went comes with nothing acknowledged.
- refused: manifests that are none, and logs that aren't opened. The log is as it was then.

Tables that aren't quiet, before or after, have their own rows (keep_unquiet.py).
"""
from __future__ import annotations

import copy
import json
from collections import Counter

import logs
from keep_compactions import NEXT, Log, compacted, traced, try_interrupted
from keep_ends import IN_USE, expect
from keep_room import TOP, left_of, line_of, without_size
from kept_tables import KeptTable

# How many changes each generation has; and of random lists, how many logs there are, with how many generations, and after which of
# these a log has no observers.
PART, LOGS, GENERATIONS_OF_LISTS, NONE_AFTER = 12, 4, 12, 6


def observer(example, **others):
    """The observer of an example, with other members where these are given."""
    (its,) = json.loads((TOP / f"examples/{example}.json").read_text())["observers"]
    return {**its, **others}


# The observers of each generation. The last of the third observes what `copy` writes, and copies it once more.
COUNTER, COPY, WATCH, COPIER = observer("counter"), observer("copy"), observer("watch"), observer("copier", column=1)
GENERATIONS = ([COUNTER], [COPY, COUNTER], [WATCH, COUNTER, COPIER], [COPIER, COPY, COUNTER])


def manifest_file(room, name, observers, profile=1):
    """A manifest with these observers."""
    file = room.folder / f"{name}.json"
    file.write_text(json.dumps({"profile": profile, "observers": observers}))
    return file


# Generations


def answered(kept, lines):
    """What the model answers to these lines."""
    return [answer for line in lines for answer in kept.take(line.encode())]


def counted(lines):
    """What the first report of some answers has of the counter's cells, and of its runs: not by which commits."""
    report = lines[: lines.index("end")]
    cells = [line.split(" ") for line in report if line.startswith("cell ")]
    runs = [line for line in report if line.startswith("runs counter ")]
    return [(row, content) for _, row, column, _, _, *content in cells if column == "15"] + runs


def next_generation(room, log, kept, manifest):
    """Compacts a log for this manifest. Answers how many observers came, how many runs they had, and how many are gone."""
    found, is_other = len(kept.lines), manifest.read_text() != kept.manifest
    changed = kept.change_observers(manifest.read_text()) if is_other else (0, 0, 0)
    snapshot = kept.snapshot()
    wanted = compacted(found, kept.compact(), printed_of(changed) if is_other else "")
    expect("a compaction for other observers", room.compact(log, manifest), wanted)
    expect("its snapshot", logs.parts_of(log.read_bytes(), manifest.read_bytes()), (snapshot, []))
    return changed


def printed_of(changed):
    """What is printed of a change of observers."""
    added, runs, gone = changed
    return f"added {added} runs {runs} gone {gone}\n"


def one_generation(room, what, log, kept, manifest, part):
    """Makes changes in a generation, and compares all that can be asked. Answers what came."""
    lines = [*part, "list", "since 0", f"since {kept.begun}", "quiet?", "stats"]
    status, out, errors = room.run(log, lines, manifest)
    # of the stats the log's size isn't known, since changes share a record
    wanted = ["open 0", *without_size(answered(kept, lines))]
    expect(what, (status, without_size(out), errors), (0, wanted, ""))


def rows_of(lines):
    """The rows of column 0 that changes write."""
    return {operation.split(" ")[1] for line in lines for operation in line.split("; ")}


def try_generations(room, changes):
    """Makes the same changes over a log that gets other observers after each part of them, and over one that has `counter` alone. Answers
    how many came, how many runs they had to catch up, and how many are gone."""
    manifests = [manifest_file(room, f"generation-{number}", observers) for number, observers in enumerate(GENERATIONS)]
    whole, parted, kept = room.log("counted"), room.log("given"), KeptTable(manifests[0].read_text())
    sums = Counter()
    for number, manifest in enumerate(manifests):
        if number:
            changed = next_generation(room, parted, kept, manifest)
            # one for each row that was changed; also of what `copy` wrote there, before, and as it comes again
            handled = len(rows_of(changes[: number * PART]))
            wanted = ((1, handled, 0), (2, handled + len(rows_of(changes[: 2 * PART])), 1), (1, 2 * handled, 1))[number - 1]
            expect("runs of observers that came", changed, wanted)
            sums.update(dict(zip(("came", "ran", "gone"), changed)))
        part = changes[number * PART : (number + 1) * PART]
        one_generation(room, f"generation {number} of a log with other observers", parted, kept, manifest, part)
        of_parted, of_whole = room.run(parted, ["list"], manifest)[1], room.run(whole, [*part, "list"], manifests[0])[1]
        expect(f"what is counted in generation {number}", counted(of_parted), counted(of_whole))
    expect("the manifest of before", room.run(parted, ["list"], manifests[0]), (1, [], line_of(logs.OTHER_MANIFEST)))
    expect("a log with its own manifest", next_generation(room, parted, kept, manifests[-1]), (0, 0, 0))
    return sums["came"], sums["ran"], sums["gone"]


# Lists

# Of these each list has some, no two of one name. Each writes columns after its own, so that they come to rest.
SOME = [COUNTER, COPY, WATCH, COPIER, observer("copier", name="third", column=2), observer("grader", column=2)]
SOME += [{**COPY, "name": "again"}, {**COPIER, "column": 0}, {**WATCH, "column": 15}, {**COUNTER, "name": "other", "column": 1}]
SOME += [observer("copier", name="copy"), {**WATCH, "column": 1}]


def list_from(chance, own):
    """Most of the observers that the table has, and some of the others, of which one may have the name of one that it has; in any order."""
    staying = [it for it in own if chance.random() < 0.75]
    others = [it for it in chance.sample(SOME, len(SOME)) if chance.random() < 0.2]
    its = list({it["name"]: it for it in [*staying, *others]}.values())
    if chance.random() < 0.7:
        chance.shuffle(its)
    return its


def met_of(own, its, had):
    """What a list of observers is beside the one of before, where the table had all of these at some time."""
    staying = [own.index(it) for it in its if it in own]
    names = {it["name"] for it in own}
    return {
        "lists": 1,
        "lists of none": not its,
        "observers that stayed": len(staying),
        "lists in another order": staying != sorted(staying),
        "observers that went": len(own) - len(staying),
        "observers that came back": sum(it in had and it not in own for it in its),
        "observers of a name of before": sum(it["name"] in names and it not in own for it in its),
    }


def try_lists(room, changes, chance):
    """Gives logs random lists, one after the other. Answers what was met."""
    met = Counter()
    for number in range(LOGS):
        log, own = room.log(f"lists-{number}"), [COUNTER, COPY]
        manifest, had = manifest_file(room, f"lists-{number}", own), list(own)
        kept = KeptTable(manifest.read_text())
        for generation in range(GENERATIONS_OF_LISTS):
            part = [chance.choice(changes) for _ in range(chance.choice((0, 1, 4)))]
            one_generation(room, f"generation {generation} of log {number} with random lists", log, kept, manifest, part)
            its = [] if generation == NONE_AFTER else list_from(chance, own)
            met.update(met_of(own, its, had))
            manifest = manifest_file(room, f"lists-{number}-{generation}", its)
            came, ran, _ = next_generation(room, log, kept, manifest)
            met.update({"observers of lists": came, "runs of lists": ran})
            own, had = its, had + its
    return met


# Interrupted


def other_log(room, changes):
    """A log of these changes, and what it is for a manifest in which its first observer is gone, the others have changed places, and two
    are new: one as that which is gone, before the others, and one of column 1, between them."""
    _, second, third = json.loads(room.manifest.read_text())["observers"]
    manifest = manifest_file(room, "others", [observer("copy", name="again"), third, COPIER, second])
    log, kept = room.log("others"), KeptTable(room.manifest.read_text())
    status, out, errors = room.run(log, changes)
    expect("the changes of a log", (status, out[1:], errors), (0, answered(kept, changes), ""))
    before, found = log.read_bytes(), room.opened(log)
    changed = next_generation(room, log, kept, manifest)
    after, since = log.read_bytes(), room.opened(log, manifest)
    versions = len(logs.parts_of(after, manifest.read_bytes())[0].versions)
    expect("a log with other observers", since[0], 0)
    answers = room.run(log, NEXT, manifest)
    expect("what comes after other observers", answers, (0, ["open 0", *answered(kept, NEXT)], ""))
    return Log(before, after, {before: found, after: since}, len(changes), versions, answers, manifest, printed_of(changed))


# Each


def others_of(observers):
    """Lists that differ from that of these three observers in one thing or two, by what they are, and how many come and are gone."""
    first, second, third = observers
    new, program = observer("grader", name="new"), COPY["code"]
    yield "the last one went away", [first, second], 1, (0, 1)
    yield "the first one went away", [second, third], 1, (0, 1)
    yield "one went away, and one came", [first, third, new], 1, (1, 1)
    yield "all went away", [], 1, (0, 3)
    yield "all went away, and one came", [new], 1, (1, 3)
    yield "two changed places", [second, first, third], 1, (0, 0)
    yield "the first one moved to the end", [second, third, first], 1, (0, 0)
    yield "all are in reverse", [third, second, first], 1, (0, 0)
    yield "a new one comes first", [new, first, second, third], 1, (1, 0)
    yield "a new one stands between", [first, new, second, third], 1, (1, 0)
    yield "a new one comes last", [first, second, third, new], 1, (1, 0)
    yield "another name", [first, {**second, "name": "other"}, third], 1, (1, 1)
    yield "names changed places", [{**first, "name": second["name"]}, {**second, "name": first["name"]}, third], 1, (2, 2)
    yield "another column", [{**first, "column": 2}, second, third], 1, (1, 1)
    yield "another program", [first, second, {**third, "helpers": [2], "code": program}], 1, (1, 1)
    yield "more helpers", [first, {**second, "helpers": [1, 2, 3]}, third], 1, (1, 1)
    yield "helpers in another order", [first, {**second, "helpers": second["helpers"][::-1]}, third], 1, (0, 0)
    yield "another profile", [first, second, third], 2, (3, 3)
    yield "another record", [{**first, "record": 2}, second, third], 2, (3, 3)


def try_each(room, its, changes):
    """Gives a log each of these lists, and its own again: what went comes back with a run for each cell of its column. Answers how many
    there were."""
    own, kept = json.loads(room.manifest.read_text())["observers"], KeptTable(room.manifest.read_text())
    answered(kept, changes)
    back = manifest_file(room, "back", own)
    others = list(others_of(own))
    for number, (what, observers, profile, (came, gone)) in enumerate(others):
        log, table = room.log(f"given-{number}"), copy.deepcopy(kept)
        log.write_bytes(its.before)
        manifest = manifest_file(room, f"given-{number}", observers, profile)
        changed = next_generation(room, log, table, manifest)
        expect(f"a manifest: {what}", (changed[0], changed[2]), (came, gone))
        one_generation(room, f"the table after that: {what}", log, table, manifest, NEXT[:1])
        changed = next_generation(room, log, table, back)
        expect(f"its own again: {what}", (changed[0], changed[2]), (gone, came))
        one_generation(room, f"the table after its own again: {what}", log, table, back, NEXT[:1])
    return len(others)


# Refused


def is_left(room, what, log, manifest, wanted):
    """A compaction for this manifest prints this, and leaves the log as it was, and nothing beside it."""
    before = log.read_bytes()
    expect(what, room.compact(log, manifest), wanted)
    expect(f"the log: {what}", (log.read_bytes(), left_of(log)), (before, []))


def none_of(own):
    """Observers of no manifest, by what they are, with what is reported."""
    yield "33 observers", [*own, *(observer("copy", name=f"copy-{number}") for number in range(30))], "code 52"
    yield "an observer twice", [*own, own[0]], f"observer {len(own)} code 53"
    yield "a name twice", [own[0], {**own[1], "name": own[0]["name"]}], "observer 1 code 53"
    yield "a program that is refused", [own[0], {**own[1], "code": WATCH["code"][16:]}], "observer 1 code 56"


def try_refused(room, its):
    """Gives logs manifests that are none, and what isn't opened. Answers how many there were."""
    log, own = room.log("given-none"), json.loads(room.manifest.read_text())["observers"]
    log.write_bytes(its.before)
    for what, observers, sentence in none_of(own):
        status, out, errors = room.compact(log, manifest_file(room, "none", observers))
        expect(f"a manifest: {what}", (status, out, sentence in errors, errors.count("\n")), (1, "", True, 1))
        expect(f"the log: {what}", (log.read_bytes(), left_of(log)), (its.before, []))
    for what, file, sentence in files_of(its):
        log.write_bytes(file)
        is_left(room, what, log, its.manifest, (1, "", line_of(sentence)))
    log.write_bytes(its.before)
    with room.start(log) as running:
        running.stdout.readline()
        is_left(room, "a log that is open, for other observers", log, its.manifest, (1, "", line_of(f"{log}: {IN_USE}")))
        running.kill()
    expect("a log whose manifests were refused", room.opened(log), its.found[its.before])
    return len(list(none_of(own))) + len(list(files_of(its))) + 1


def files_of(its):
    """Logs that aren't opened, for no manifest."""
    yield "a newer log, for other observers", logs.log_of([logs.header(b"{}", version="2")]), logs.NEWER
    yield "another file, for other observers", logs.log_of([b"other log 1\n"]), logs.NO_LOG
    yield "a damaged log, for other observers", its.before[:-1], f"the log is damaged at byte {len(its.before) - 1}"
    yield "a log of a manifest that is none, for other observers", logs.log_of([logs.header(b"{}")]), "code 51"


def try_new(room):
    """Compacts logs that have no record yet, which have no manifest of their own. Answers how many there were."""
    log, manifest = room.log("new-given"), manifest_file(room, "of-a-new-log", [COUNTER, COPY])
    record = logs.log_of([logs.header(manifest.read_bytes())])
    empty = logs.snapshot_record(logs.Snapshot(0, [(0, 0, 0, 0, 0)] * 2, []))
    files = (b"", b"\0", b"\0" + record[1:9], b"\0" + record[1:-4])
    for file in files:
        log.write_bytes(file)
        expect("a log without a record", room.compact(log, manifest), compacted(0, 0))
        expect("what it is then", log.read_bytes(), logs.log_of([logs.header(manifest.read_bytes()), empty]))
    return len(files)


def try_all(room, changes, chance, pool):
    """Tries all of it, and answers what was met, in words and as numbers."""
    met = try_lists(room, changes, chance)
    met["observers that came"], met["runs of these"], met["observers that are gone"] = try_generations(room, changes)
    its = other_log(room, changes[:12])
    traced(room, its)
    met.update({f"{ended}, for other observers": count for ended, count in try_interrupted(room, its, pool).items()})
    met["other manifests"] = try_each(room, its, changes[:12])
    met["manifests refused"] = try_refused(room, its)
    met["logs without a manifest"] = try_new(room)
    return met
