"""Compactions: all disk rowsets become new ones, and nothing of it shows, at any time, in this run and in the next."""
import random
import struct

import spelling as spelled
from files import Table
from flushes import at_all_times, plays, prints, times_in
from logs import COLUMNS, TABLE
from machine import Machine, Script
from room import Wrong
from rowsets import all_named, number_of
from spelling import KEY, REDO, UNDO
from stores import fill, held, lay
from stress import HEAD, command

PAIRS = Table(("k", "string", KEY), ("n", "int64", 0))
LONG = Table(("k", "string", KEY), ("v", "string", 0))

# Rows of three rowsets: "k" lies in each of them, "gone" and "y" are deleted, "x" has changes in files and in memory, "m" is in memory alone.
STAGES = [
    ['insert "k" 1 ; insert "gone" 1 ; insert "x" 1', 'update "k" n=2', "flush", 'delete "k"', 'update "x" n=2', "flush-deltas", 'delete "gone"'],
    ['insert "k" 3', "flush", 'update "x" n=3', 'delete "k"'],
    ['insert "k" 5 ; insert "y" 5', 'delete "y"', "flush", 'insert "m" 6', 'update "k" n=6'],
]


# A key of two rowsets that become one, its rows at three times, and what is printed of them.
TWICE = ['insert 1 "a"', "flush", "delete 1", 'insert 1 "b"', "flush", "compact", "scan at 4096", "scan at 8192", "scan at 12288"]
REPLIES = ["at 4096 ok", "done", "at 8192 ok", "at 12288 ok", "done", "done", "rows 4096 1", '1 "a"', "rows 8192 0", "rows 12288 1", '1 "b"']
HISTORY = [
    "begin 1 1 4096 1", "end 1 1 4096", "chore 1 2", "begin 1 3 8192 2", "end 1 3 8192", "begin 1 4 12288 3", "end 1 4 12288", "chore 1 5", "chore 1 6",
    "rows 1 7 4096", "rows 1 8 8192", "rows 1 9 12288",
]


def script(*lines):
    return TABLE + "".join(f"{it}\n" for it in lines)


def insert(n):
    """A record of a row that is put back."""
    return b"\1" + spelled.cells((2, spelled.number(n)))


def leaves(room, wanted, columns=COLUMNS):
    """The superblock names these rowsets, each with what its files are to hold."""
    now = held(room, "DATA")
    of = lambda file: now[f"f{file[0]}"][: file[1]]
    found = [(number, of(base), *([of(it) for it in some] for some in lists)) for number, base, *lists in all_named(now, columns)]
    if found != wanted:
        raise Wrong(f"the superblock names {str(found)[:2000]} and not {str(wanted)[:2000]}")


# ---- what is shown


def a_compaction_shows_nothing(room):
    """Rows of several rowsets, of a key in three of them too, are the same at each time before and after; later changes go to the new rowset."""
    machine, times = None, []
    for rowsets, lines in enumerate(STAGES, 1):
        machine, output = plays(room, script(*lines), machine, rowsets)
        times += times_in(output)
    scans = at_all_times(times).splitlines()
    later = ['update "x" n=7', 'insert "gone" 7', 'delete "k"', 'update "m" n=7']
    machine, output = plays(room, script(*scans, "compact", *scans, *later, "scan now", "compact", *scans, "scan now"), machine, 1)
    times += times_in(output)
    machine, output = plays(room, script(*at_all_times(times).splitlines(), "flush", "compact"), machine, 1)
    plays(room, script(*at_all_times(times).splitlines()), machine, 1)


def a_key_of_two_rowsets_is_one_row(room):
    """A key that was deleted in one rowset and inserted anew into the next is one row afterwards, and was none in between."""
    prints(room, [], TWICE, REPLIES, [*HISTORY, "tablet ahm 0 last 12288 rowsets 1"])


def a_compaction_behind_a_mark_keeps_what_is_above(room):
    """What is past the mark is told to be so, and the rows from the mark on are the same."""
    lines = ["mark 8192", "compact", "scan at 8191", "scan at 8192", "scan at 12288"]
    replies = ["ahm 8192", "done", "ancient 8191 8192", "rows 8192 0", "rows 12288 1", '1 "b"']
    history = ["mark 1 10 8192", "chore 1 11", "ancient 1 12 8191 8192", "rows 1 13 8192", "rows 1 14 12288", "tablet ahm 8192 last 12288 rowsets 1"]
    prints(room, [], [*TWICE, *lines], [*REPLIES, *replies], [*HISTORY, *history])


def a_compaction_of_nothing_is_done(room):
    """Without a disk rowset there is nothing to do; one alone is written anew, and rows in memory stay there."""
    machine, output = plays(room, script("compact", 'insert "a" 1', "compact"), None, 0)
    for numbers in ((1, 3, 4), (2, 5, 6), (3, 7, 8)):
        machine, output = plays(room, script("flush" if numbers[0] == 1 else "compact", f'insert "m{numbers[0]}" 1', "scan now"), machine, 1)
        found = [(number, base[0], *(it for it, _ in undos)) for number, base, undos, redos in all_named(held(room, "DATA"), COLUMNS)]
        if found != [numbers]:
            raise Wrong(f"{found} and not {numbers}")
    plays(room, script("scan now"), machine, 1)


# ---- what is written


def the_files_of_a_compaction(room):
    """Its outputs have the next numbers. The superblock names no file of the inputs, and those are gone after the next opening."""
    machine, output = plays(room, script('insert "a" 1 ; insert "b" 2', "flush", 'delete "a"', 'insert "a" 3', 'delete "b"', "flush"), None, 2)
    first, second, third, fourth = times_in(output)
    machine, _ = plays(room, script("compact"), machine, 1)
    undo = [(0, third, spelled.DELETE), (0, second, insert(1)), (0, first, spelled.DELETE), (1, first, spelled.DELETE)]
    wanted = spelled.base_file([b"a", b"b"], (2, [3, 2])), [spelled.delta_file(UNDO, *undo)], [spelled.delta_file(REDO, (1, fourth, spelled.DELETE))]
    leaves(room, [(3, *wanted)])
    plays(room, script(*at_all_times([first, second, third, fourth]).splitlines()), machine, 1)
    if sorted(held(room, "DATA")) != ["f1", "f2", "f7", "f8", "f9"]:
        raise Wrong(f"the store has {sorted(held(room, 'DATA'))}")


def what_is_past_goes(room):
    """At or below the mark no UNDO record is kept, and no row that was deleted; where no row is left there is no rowset."""
    gone = ['update "a" n=2', 'delete "b"', "mark 4611686018427387904", "compact"]
    machine, _ = plays(room, script('insert "a" 1 ; insert "b" 1', "flush", *gone), None, 1)
    leaves(room, [(2, spelled.base_file([b"a"], (2, [2])), [], [])])
    machine, _ = plays(room, script('update "a" n=3', "compact", "scan now"), machine, 1)
    machine, _ = plays(room, script('delete "a"', "mark 4611686018427387904", "compact", "scan now", "compact"), machine, 0)
    leaves(room, [])
    plays(room, script("scan now", 'insert "a" 4', "flush", "scan now"), machine, 1)


def lay_two(room, table, base_of, keys):
    """Lays two rowsets that have these keys by turns."""
    files = {3 + of: base_of(keys[of::2]) for of in (0, 1)}
    rowsets = [spelled.rowset(1 + of, 0, (3 + of, len(files[3 + of]))) for of in (0, 1)]
    lay(room, [], files, {1: spelled.slot(spelled.body(1, table.columns, rowsets, last=4096, next_rowset=3, next_file=5))})


def merges_two(room, table, base_of, keys, cut):
    """A compaction of two rowsets that have these keys by turns leaves two that have them in their order, the second from here on."""
    lay_two(room, table, base_of, keys)
    status, output = table.run(room, ["compact"])
    if status:
        raise Wrong(f"status {status}: {output}")
    leaves(room, [(3, base_of(keys[:cut]), [], []), (4, base_of(keys[cut:]), [], [])], table.columns)


def rows_go_into_several_outputs(room):
    """A rowset has 65,536 rows at most; the next begins there."""
    keys = [b"%05d" % it for it in range(66_000)]
    merges_two(room, PAIRS, lambda some: spelled.base_file(some, (2, [int(it) % 2 for it in some])), keys, 65_536)


def long_rows_go_into_several_outputs(room):
    """A rowset ends with the row by which its rows, spelled as inserts, reach 33,554,432 bytes: these have 59,972 and less than 50 more."""
    text = b"v" * 59_972
    column = lambda rows: b"\3" + struct.pack("<IHI", 6 + len(text) + 2 * rows, 1, len(text)) + text + bytes(2 * rows)
    merges_two(room, LONG, lambda some: spelled.base_of(some, (2, "string", 0, column(len(some)))), [b"%03d" % it for it in range(570)], 560)


def a_crash_at_its_gate_leaves_one_of_both(room):
    """An image from before the gate of its superblock opens has the inputs, and one from then on the outputs. Both show the same rows, and files of the others are gone."""
    machine, output = plays(room, script('insert "a" 1 ; insert "b" 1', "flush", 'delete "a"', 'insert "a" 2', "flush", 'update "a" n=3', 'delete "b"'), None, 2)
    scans, before = script(*at_all_times(times_in(output)).splitlines()), held(room, "DATA")
    machine, _ = plays(room, script("compact"), machine, 1)
    log, after = held(room, "LOG"), held(room, "DATA")
    was = max(("f1", "f2"), key=lambda it: number_of(before[it]))
    its = "f2" if was == "f1" else "f1"
    if number_of(after[its]) != number_of(before[was]) + 1:
        raise Wrong(f"the slots are of {number_of(before[was])} and {number_of(after[its])}")
    for gate, rowsets, files in ((0, 2, ["f3", "f4", "f5", "f6"]), (1, 1, ["f7", "f8", "f9"])):
        fill(room, "LOG", log)
        fill(room, "DATA", {**after, was: before[was], its: bytes([gate]) + after[its][1:]})
        plays(room, scans, machine, rowsets)
        if sorted(held(room, "DATA")) != ["f1", "f2", *files]:
            raise Wrong(f"gate {gate}: the store has {sorted(held(room, 'DATA'))}")


# ---- beside writes


def beside(rng, times, keys):
    """A write on a few of these keys, which it changes, deletes or inserts anew, or a scan of now or of a time that was."""
    word = command(rng, keys, 1)
    return f"scan at {rng.choice(times)}" if word.startswith(("mark", "scan at")) else word


def changes_beside_a_compaction(room):
    """Rows of three rowsets are changed, deleted and inserted anew while these are merged, again and again, and each line, each reply and each row at
    each time is a plain machine's, in this run and in the next."""
    rng, machine, times = random.Random(1), None, []
    for rowsets in (1, 2, 3):
        rows = [f'insert {it} "{it % 7}" {it % 9}' for it in range(rowsets, 2_000, 3)]
        first = "".join(" ; ".join(rows[at : at + 50]) + "\n" for at in range(0, len(rows), 50))
        machine, output = plays(room, f"{HEAD}session\n{first}flush\n", machine, rowsets)
        times += times_in(output)[-1:]
    for _ in range(3):
        lines = ["session", *["compact"] * 4]
        for _ in range(3):
            lines += ["session", *(beside(rng, times, 40) for _ in range(40))]
        machine, output = plays(room, HEAD + "".join(f"{it}\n" for it in lines), machine, 1)
        times += times_in(output)
        scans = at_all_times(rng.sample(times, 4))
        machine, _ = plays(room, f"{HEAD}session\n{scans}flush\n{scans}", machine)


def late_changes_go_into_several_outputs(room):
    """Rows of both outputs of a compaction are changed, deleted and inserted anew beside it. Each output has a REDO file of its own deletes and one of what
    came later at most, and all show the same rows, in the next run too."""
    keys = [b"%05d" % it for it in range(66_000)]
    lay_two(room, PAIRS, lambda some: spelled.base_file(some, (2, [int(it) % 2 for it in some])), keys)
    machine = Machine(Script(PAIRS.head))
    machine.past = {(f'"{it:05}"',): [(0, {"k": f'"{it:05}"', "n": str(it % 2)})] for it in range(66_000)}
    machine.c = 4096
    lines = ["session", "compact"]
    for of in range(4):
        mine = [f'"{it:05}"' for it in (*range(of, 65_000, 2_600), *range(65_600 + of, 66_000, 80))]
        # A read before the writes, in which the compaction begins.
        lines += ["session", "scan at 4096 where n>1", *(f"update {it} n=7" for it in mine), *(f"delete {it}" for it in mine[::2]), *(f"insert {it} 8" for it in mine[::4])]
    machine, output = plays(room, PAIRS.head.removesuffix("session\n") + "".join(f"{it}\n" for it in lines), machine, 2)
    named = all_named(held(room, "DATA"), PAIRS.columns)
    if [it[0] for it in named] != [3, 4] or any(len(redos) > 2 for _, _, _, redos in named):
        raise Wrong(f"the superblock names {named}")
    times = times_in(output)
    scans = "".join(f"{it} where n>1\n" for it in ("scan now", f"scan at {times[len(times) // 2]}", "scan at 4096"))
    machine, _ = plays(room, f"{PAIRS.head}{scans}compact\nscan now where n>1\n", machine)


ALL = [
    a_compaction_shows_nothing,
    a_key_of_two_rowsets_is_one_row,
    a_compaction_behind_a_mark_keeps_what_is_above,
    a_compaction_of_nothing_is_done,
    the_files_of_a_compaction,
    what_is_past_goes,
    rows_go_into_several_outputs,
    long_rows_go_into_several_outputs,
    a_crash_at_its_gate_leaves_one_of_both,
    changes_beside_a_compaction,
    late_changes_go_into_several_outputs,
]
