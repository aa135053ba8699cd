"""Stores with a superblock: disk rowsets that are read at each time, a log replayed on them, and what is refused."""
import os
import re

import spelling as spelled
from logs import (
    DONE, EDGE, FOLDERS, INSERT, UPDATE, UPSERT, TABLE, COLUMNS,
    commit, in_delta, in_memory, log_now, log_of, records_in, replicate,
)
from room import Wrong

# Rows "a" and "b", inserted at 4096. "a" was updated at 8192, which stands in the base row, and again at 12288, which is REDO.
BASE = spelled.base_file([b"a", b"b"], (2, [6, 2]))
BACK_TO_FIVE = spelled.update((2, spelled.number(5)))
UNDO = spelled.delta_file(spelled.UNDO, (0, 8192, BACK_TO_FIVE), (0, 4096, spelled.DELETE), (1, 4096, spelled.DELETE))
REDO = spelled.delta_file(spelled.REDO, (0, 12288, spelled.update((2, spelled.number(9)))))
FILES = {3: BASE, 4: UNDO, 5: REDO}

ROWSET = spelled.rowset(1, 1, (3, len(BASE)), [(4, len(UNDO))], [(5, len(REDO))])

# All that these files hold, as the log has it.
WRITES = [
    replicate(4096, (INSERT, b"a", 5), (INSERT, b"b", 2)), commit(4096, (DONE, in_memory(1)), (DONE, in_memory(1))),
    replicate(8192, (UPDATE, b"a", 6)), commit(8192, (DONE, in_memory(1))),
    replicate(12288, (UPDATE, b"a", 9)), commit(12288, (DONE, in_delta(1, 1))),
]
# What it has beside them: an update that is still in memory only, and a row of a new MemRowSet.
LATER = [
    replicate(16384, (UPDATE, b"b", 3)), commit(16384, (DONE, in_delta(1, 2))),
    replicate(20480, (UPSERT, b"c", 4)), commit(20480, (DONE, in_memory(2))),
]


def superblock(of, rowsets=(ROWSET,), columns=COLUMNS, **numbers):
    said = {"last": 12288, "need": len(WRITES), "last_mem": 1, "next_rowset": 2, "next_file": 6}
    return spelled.slot(spelled.body(of, columns, rowsets, **{**said, **numbers}))


def fill(room, folder, files):
    """Fills a folder with these files alone."""
    for name in os.listdir(room.path(folder)):
        os.remove(room.path(f"{folder}/{name}"))
    for name, bytes_ in files.items():
        with open(room.path(f"{folder}/{name}"), "wb") as it:
            it.write(bytes_)


def lay(room, log, files, slots):
    """Fills both folders: the records of a log, data files, and slots of a superblock."""
    fill(room, "LOG", {"f1": log_of(log)})
    fill(room, "DATA", {f"f{at}": bytes_ for at, bytes_ in {**files, **slots}.items()})


def held(room, folder):
    found = {}
    for name in os.listdir(room.path(folder)):
        if name != "lock":
            with open(room.path(f"{folder}/{name}"), "rb") as it:
                found[name] = it.read()
    return found


def run(room, *lines):
    return room.run(FOLDERS, (TABLE + "".join(f"{it}\n" for it in lines)).encode())


def shows(room, wanted, *lines):
    """Runs scans: their rows, each scan as its time and its rows in one line."""
    status, output = run(room, *lines)
    found = []
    for line in output.split("history\n")[0].splitlines()[1:]:
        if line.startswith('"'):
            found[-1] += " " + line.replace(" ", "=")
        else:
            found.append(line)
    if status or found != wanted:
        raise Wrong(f"status {status}, {found} and not {wanted}\n{output}")
    return output


def refused_as(room, why, *lines):
    """A run is refused, and leaves both folders as they were."""
    before = held(room, "LOG"), held(room, "DATA")
    ended = run(room, *(lines or ["scan now"]))
    if ended != (3, f"refused {why}\n"):
        raise Wrong(f"{ended} and not {why}")
    if (held(room, "LOG"), held(room, "DATA")) != before:
        raise Wrong(f"refused {why}, it changed a file")


AT_ALL_TIMES = [f"scan at {it}" for it in (4095, 4096, 8191, 8192, 12287, 12288)]
ROWS = [
    "rows 4095 0",
    'rows 4096 2 "a"=5 "b"=2',
    'rows 8191 2 "a"=5 "b"=2',
    'rows 8192 2 "a"=6 "b"=2',
    'rows 12287 2 "a"=6 "b"=2',
    'rows 12288 2 "a"=9 "b"=2',
]


def rows_of_a_disk_rowset_stand_at_their_times(room):
    """A disk rowset shows its rows at each time, and the log that its files hold is not done again."""
    lay(room, WRITES, FILES, {1: superblock(1)})
    output = shows(room, ROWS, *AT_ALL_TIMES)
    if not output.endswith("\ntablet ahm 0 last 12288 rowsets 1\n"):
        raise Wrong(output)
    lay(room, WRITES, FILES, {1: superblock(1, mark=8192)})
    shows(room, ["ancient 8191 8192", *ROWS[3:]], "scan at 8191", *AT_ALL_TIMES[3:])


def a_log_is_done_again_on_disk_rowsets(room):
    """What a COMMIT tells of memory that no file holds is done again, in the rowset or the MemRowSet that it names."""
    lay(room, WRITES + LATER, FILES, {1: superblock(1)})
    wanted = [ROWS[-1], 'rows 16384 2 "a"=9 "b"=3', 'rows 20480 3 "a"=9 "b"=3 "c"=4']
    shows(room, wanted, "scan at 12288", "scan at 16384", "scan at 20480")
    if records_in(log_now(room)) != WRITES + LATER:
        raise Wrong("a log that owes nothing was changed")
    lay(room, WRITES + LATER[:1] + LATER[2:3], FILES, {1: superblock(1)})
    shows(room, wanted, "scan at 12288", "scan at 16384", "scan at 20480")
    owed = [commit(16384, (DONE, in_delta(1, 2))), commit(20480, (DONE, in_memory(2)))]
    if records_in(log_now(room)) != WRITES + LATER[:1] + LATER[2:3] + owed:
        raise Wrong(f"it owes {[it.hex() for it in records_in(log_now(room))]}")


def a_run_ends_with_a_superblock(room):
    """Each run ends with the next superblock, which says the last timestamp, the mark, and the records that the log has."""
    first = spelled.body(1, COLUMNS)
    status, output = run(room)
    if status or held(room, "DATA")["f1"] != spelled.slot(first) or "f2" not in held(room, "DATA"):
        raise Wrong(f"status {status}, {held(room, 'DATA')}\n{output}")
    last, need, mark = 0, 0, 0
    for of, line in enumerate(['insert "a" 1', 'update "a" n=2', "mark 4096", "scan at 2199023255552"], 3):
        status, output = run(room, line)
        last = int(re.search(r"^tablet ahm \d+ last (\d+) rowsets 0$", output, re.M)[1])
        need += 2 if line[0] in "iu" else 0
        mark = 4096 if of >= 5 else 0
        wanted = spelled.slot(spelled.body(of, COLUMNS, mark=mark, last=last, need=need))
        found = held(room, "DATA")[f"f{2 - of % 2}"]
        if status or len(records_in(log_now(room))) != need or found != wanted:
            raise Wrong(f"status {status} after {line}: {found.hex()} and not {wanted.hex()}\n{output}")


def writes_go_on_over_a_disk_rowset(room):
    """Rows of a disk rowset are updated, deleted and inserted anew, and the next run still has all."""
    lay(room, WRITES, {**FILES, 9: b"left over"}, {1: superblock(1)})
    lines = ['update "a" n=1 ; delete "b" ; insert "c" 3', "scan now", 'insert "b" 8 ; insert "a" 7', "scan now"]
    status, output = run(room, *lines)
    rows = 'rows T 2\n"a" 1\n"c" 3\n', 'rows T 3\n"a" 1\n"b" 8\n"c" 3\n'
    wanted = f"session 1\nat T ok ok ok\n{rows[0]}at T ok present\n{rows[1]}history\n"
    if status or not re.sub(r"^(at|rows) \d+", r"\1 T", output, flags=re.M).startswith(wanted):
        raise Wrong(f"status {status}\n{output}")
    if "f9" in held(room, "DATA") or any(held(room, "DATA")[f"f{it}"] != FILES[it] for it in FILES):
        raise Wrong("a file that the superblock does not name is there, or one that it names is another")
    times = re.findall(r"^rows (\d+) \d$", output, re.M)
    again = ['rows T 2 "a"=1 "c"=3', 'rows T 3 "a"=1 "b"=8 "c"=3']
    for _ in range(2):
        shows(room, [ROWS[-1], *(it.replace("T", at) for it, at in zip(again, times))], "scan at 12288", *(f"scan at {it}" for it in times))


def the_newer_slot_counts(room):
    """The open slot with the greater number is the superblock; one behind a closed gate is none, whatever it holds."""
    empty = superblock(2, rowsets=(), last_mem=0, last=0, need=0)
    lay(room, WRITES, FILES, {1: superblock(3), 2: empty})
    shows(room, [ROWS[-1]], "scan at 12288")
    lay(room, WRITES, FILES, {1: b"\0" + superblock(3)[1:], 2: empty})
    # Without the rowset, the change that its DeltaMemStore had is not done again.
    output = shows(room, ['rows 12288 2 "a"=6 "b"=2'], "scan at 12288")
    if not output.endswith(" rowsets 0\n"):
        raise Wrong(output)


def what_is_at_fault_is_refused(room):
    """A slot, a data file, a log that is too short, other columns and a last timestamp are refused, each with its place."""
    good = superblock(1)
    lay(room, WRITES, FILES, {1: good[:5] + b"\2" + good[6:]})
    refused_as(room, "B1 1 5")
    lay(room, WRITES, FILES, {2: superblock(2)[:-1]})
    refused_as(room, f"B1 2 {len(good) - 1}")
    lay(room, [], {}, {1: b"\1\0\0"})
    refused_as(room, "B1 1 3")
    lay(room, WRITES, {}, {})
    refused_as(room, "B1 1 0")
    lay(room, WRITES, {3: BASE, 5: REDO}, {1: good})
    refused_as(room, "B2 4 0")
    lay(room, WRITES, {**FILES, 5: REDO[:-1]}, {1: good})
    refused_as(room, f"B2 5 {len(REDO) - 1}")
    lay(room, WRITES, {**FILES, 3: b"KTB2" + BASE[4:]}, {1: good})
    refused_as(room, "B2 3 0")
    lay(room, WRITES[:-1], FILES, {1: good})
    refused_as(room, f"B4 {len(WRITES)} {len(WRITES) - 1}")
    others = [COLUMNS[0], spelled.column(2, "m", "int64", spelled.DEFAULT, spelled.number(7))]
    lay(room, WRITES, FILES, {1: superblock(1, columns=others)})
    refused_as(room, "B5 2")
    lay(room, WRITES, FILES, {1: superblock(1, columns=[*COLUMNS, spelled.column(3, "m", "bool")])})
    refused_as(room, "B5 3")
    lay(room, WRITES, FILES, {1: superblock(1, last=EDGE)})
    refused_as(room, f"B6 {EDGE}")
    # A change that its COMMIT tells of a rowset which does not have the row.
    odd = [replicate(16384, (UPDATE, b"x", 3)), commit(16384, (DONE, in_delta(1, 2)))]
    lay(room, WRITES + odd, FILES, {1: good})
    refused_as(room, f"B3 {len(log_of(WRITES + odd[:1])) - 1}")


ALL = [
    rows_of_a_disk_rowset_stand_at_their_times,
    a_log_is_done_again_on_disk_rowsets,
    a_run_ends_with_a_superblock,
    writes_go_on_over_a_disk_rowset,
    the_newer_slot_counts,
    what_is_at_fault_is_refused,
]
