"""Disk rowsets that were laid or made, read at each time, and what maintenance makes of rows, of their changes and of the mark."""
import struct

import spelling as spelled
from files import PAIRS, TWO, Table
from flushes import at_all_times, plays, times_in
from logs import COLUMNS, DONE, INSERT, TABLE, UPDATE, commit, in_delta, in_memory, log_now, records_in, replicate
from room import Wrong
from spelling import KEY, NULLABLE, REDO, UNDO
from stores import FOLDERS, held, lay

DELETE = 4
TEXTS = Table(("k", "string", KEY), ("v", "string", NULLABLE))
NUMBERS = Table(("k", "int16", KEY), ("n", "int64", 0))


def to_text(text):
    return spelled.update((2, b"\3" + struct.pack("<I", len(text)) + text))


def to_number(number):
    return spelled.update((2, spelled.number(number)))


def lay_rowset(room, columns, base, undo=(), redo=(), log=(), **numbers):
    """Lays one rowset, number 1: its base file, its UNDO files and its REDO files, in this order, from the file 3 on."""
    files = dict(enumerate([base, *undo, *redo], 3))
    named = [(at, len(it)) for at, it in files.items()]
    rowset = spelled.rowset(1, 1, named[0], named[1 : 1 + len(undo)], named[1 + len(undo) :])
    said = {"next_rowset": 2, "next_file": 3 + len(files), **numbers}
    lay(room, log, files, {1: spelled.slot(spelled.body(1, columns, [rowset], **said))})


def number_of(slot):
    """The number of the superblock that a slot has."""
    return struct.unpack_from("<Q", slot, 7)[0]


def all_named(now, columns):
    """Each rowset that the newest superblock names: its number, then the number and length of its base file, its UNDO files and its REDO files."""
    slots = [it for it in (now.get("f1"), now.get("f2")) if it and it[0] == 1]
    body = max(slots, key=number_of)[5:]
    at = len(spelled.body(1, columns))
    found = []
    for _ in range(struct.unpack_from("<I", body, at - 4)[0]):
        number, base, lists = struct.unpack_from("<Q", body, at)[0], struct.unpack_from("<QQ", body, at + 16), []
        at += 32
        for _ in range(2):
            count = struct.unpack_from("<I", body, at)[0]
            lists.append([struct.unpack_from("<QQ", body, at + 4 + 16 * it) for it in range(count)])
            at += 4 + 16 * count
        found.append((number, base, *lists))
    return found


def named_in(now, columns):
    """The files of the one rowset that the superblock names; nothing, where it names none."""
    rowsets = all_named(now, columns)
    if len(rowsets) > 1:
        raise Wrong(f"the superblock names {len(rowsets)} rowsets: {rowsets}")
    return rowsets[0][1:] if rowsets else None


def files_of(room, columns):
    """What these files hold."""
    now = held(room, "DATA")
    named = named_in(now, columns)
    if named is None:
        return None
    base, *lists = named
    of = lambda file: now[f"f{file[0]}"][: file[1]]
    return of(base), *([of(it) for it in some] for some in lists)


def makes(room, table_head, columns, lines, wanted):
    """Lines end well, and leave these files."""
    status, output = room.run(FOLDERS, (table_head + "".join(f"{it}\n" for it in lines)).encode("latin-1"))
    found = files_of(room, columns)
    if status or found != wanted:
        raise Wrong(f"after {lines} status {status}, the files are {found} and not {wanted}\n{output}")


# ---- reading


def long_rows_are_read_at_their_times(room):
    """A row that is inserted, deleted and inserted again, and one of a long key and long texts, in memory and in files of each kind."""
    long, first, second = '"' + "\\x07" * 130 + '"', '"' + "\\x01" * 400 + '"', '"' + "\\x02" * 300 + '"'
    steps = ['insert "k" "a"', f"insert {long} {first}", 'delete "k"', 'insert "k" "b"', f"update {long} v={second}", f"delete {long}"]
    machine = None
    for chore in (None, "flush", "flush-deltas", "minor", "major"):
        lines = [line for step in steps for line in (step, chore) if line]
        lines += ['delete "k"'] + (["flush", "flush-deltas"] if chore in ("minor", "major") else [])
        machine, output = plays(room, TEXTS.head + "".join(f"{it}\n" for it in lines), machine)
        machine, _ = plays(room, TEXTS.head + at_all_times(times_in(output)), machine)


def rows_are_read_from_several_files(room):
    """A row that was inserted, updated, flushed, updated again and deleted, in two UNDO files and two REDO files."""
    base = spelled.base_of([b"a", b"b", b"c"], (2, "string", 1, b"\3\x0e\0\0\0\0\1\0\1\0\0\0b" + bytes(6)))
    newer_undo = spelled.delta_file(UNDO, (1, 8192, to_text(b"a")))
    older_undo = spelled.delta_file(UNDO, (1, 4096, spelled.DELETE))
    older_redo = spelled.delta_file(REDO, (1, 12288, to_text(b"c")))
    newer_redo = spelled.delta_file(REDO, (1, 16384, spelled.DELETE))
    lay_rowset(room, TEXTS.columns, base, [newer_undo, older_undo], [older_redo, newer_redo], last=16384)
    times = [(4095, None), (4096, "a"), (8191, "a"), (8192, "b"), (12287, "b"), (12288, "c"), (16383, "c"), (16384, None)]
    rows = [['"a" "b"', *([f'"b" "{text}"'] if text else []), '"c" "b"'] for _, text in times]
    TEXTS.shows(room, [f"scan at {it}" for it, _ in times], rows)


# Of rows in a file: changes that a log has, as the timestamp, the row, and the number that it gets, or none where it is deleted.
CHANGES = [(255, 2, 3), (4096, 256, 10), (4096, 1, 11), (8192, 1, None), (1 << 40, 256, 12)]
# Rows, times, and their numbers then.
READS = [
    (256, 4095, 0), (256, 4096, 10), (256, (1 << 40) - 1, 10), (256, 1 << 40, 12),
    (1, 4095, 0), (1, 8191, 11), (1, 8192, None), (2, 254, 0), (2, 255, 3), (0, 1 << 40, 0),
]


def changes_in_memory_are_read_at_their_times(room):
    """Changes of rows in a file, told by a log in another order than that of the rows; a delta flush sorts them by row and time."""
    key = lambda row: struct.pack(">H", row)
    base = spelled.base_file([key(it) for it in range(257)], (2, [0] * 257))
    log = []
    for ts in sorted({it[0] for it in CHANGES}):
        some = [it for it in CHANGES if it[0] == ts]
        log.append(replicate(ts, *((DELETE, key(row)) if n is None else (UPDATE, key(row), n) for _, row, n in some)))
        log.append(commit(ts, *((DONE, in_delta(1, 2)) for _ in some)))
    lay_rowset(room, NUMBERS.columns, base, log=log)
    scans = [f"scan at {t} select n where k={row - 32768}" for row, t, _ in READS]
    rows = [[] if n is None else [str(n)] for _, _, n in READS]
    NUMBERS.shows(room, scans, rows)
    redo = spelled.delta_file(REDO, *((row, ts, spelled.DELETE if n is None else to_number(n)) for ts, row, n in sorted(CHANGES, key=lambda it: (it[1], it[0]))))
    makes(room, NUMBERS.head, NUMBERS.columns, ["flush-deltas"], (base, [], [redo]))
    NUMBERS.shows(room, scans, rows)


# ---- what is named


# Of row 0 a REDO record of 4096: an update of the column to 6. Of row 1 an UNDO record of 4096: a delete.
SIX = spelled.delta_file(REDO, (0, 4096, to_number(6)))
ROW_1 = spelled.delta_file(UNDO, (1, 4096, spelled.DELETE))


def files_are_as_long_as_the_superblock_says(room):
    """Bytes behind a file's length count for nothing; a file that is shorter, or of another kind, is refused at its place."""
    cases = [
        ((TWO, ROW_1, SIX), None),
        ((TWO, ROW_1 + b"\7\7", SIX), None),
        ((ROW_1, ROW_1, SIX), "3 22"),
        ((TWO[:53], ROW_1, SIX), "3 53"),
        ((TWO, ROW_1, b""), "5 0"),
        ((TWO, SIX, SIX), "4 4"),
        ((TWO, ROW_1, bytes(40)), "5 0"),
    ]
    rowset = spelled.rowset(0, 0, (3, len(TWO)), [(4, len(ROW_1))], [(5, len(SIX))])
    slot = spelled.slot(spelled.body(1, PAIRS.columns, [rowset], next_file=6))
    for files, fault in cases:
        lay(room, [], dict(enumerate(files, 3)), {1: slot})
        if fault:
            PAIRS.is_refused(room, f"B2 {fault}", f"{[it.hex() for it in files]}")
        else:
            PAIRS.shows(room, ["scan at 4095", "scan at 4096"], [['"a" 5'], ['"a" 6', '"b" null']])


# ---- writing


def two_files_become_one(room):
    """A minor merges the records of two REDO files by row and time."""
    base = spelled.base_file([b"abcde"[at : at + 1] for at in range(5)], (2, [0] * 5))
    older = [(0, 2, to_number(1)), (3, 9, spelled.DELETE)]
    newer = [(0, 5, spelled.DELETE), (1, 4, spelled.DELETE)]
    lay_rowset(room, COLUMNS, base, redo=[spelled.delta_file(REDO, *it) for it in (older, newer)], last=9)
    both = spelled.delta_file(REDO, *sorted(older + newer, key=lambda it: it[:2]))
    makes(room, TABLE, COLUMNS, ["minor"], (base, [], [both]))


def a_record_is_folded_into_its_base_row(room):
    """A major changes the base row, and keeps what undoes a change above the mark."""
    six, five = TWO[:43] + b"\6" + TWO[44:], spelled.delta_file(UNDO, (0, 4096, to_number(5)))
    for mark in (0, 4095):
        lay_rowset(room, PAIRS.columns, TWO, redo=[SIX], mark=mark, last=4096)
        makes(room, PAIRS.head, PAIRS.columns, ["major"], (six, [five], []))


def changes_go_into_new_files(room):
    """A delta flush adds a REDO file, a minor makes one of all, and a major leaves none: the base file has the changes, and an UNDO file."""
    lines = ['insert "a" 1', "flush", 'update "a" n=2', "flush-deltas", 'update "a" n=3', "flush-deltas"]
    machine, output = plays(room, TABLE + "".join(f"{it}\n" for it in lines), None, 1)
    first, second, third = times_in(output)
    to = lambda n: spelled.update((2, spelled.number(n)))
    base, undo = spelled.base_file([b"a"], (2, [1])), spelled.delta_file(spelled.UNDO, (0, first, spelled.DELETE))
    redo = lambda *of: spelled.delta_file(spelled.REDO, *((0, at, to(n)) for at, n in of))
    folded = spelled.delta_file(spelled.UNDO, (0, third, to(2)), (0, second, to(1)))
    stages = [
        ("scan now", (base, [undo], [redo((second, 2)), redo((third, 3))])),
        ("minor", (base, [undo], [redo((second, 2), (third, 3))])),
        ("major", (spelled.base_file([b"a"], (2, [3])), [undo, folded], [])),
    ]
    for line, wanted in stages:
        machine, output = plays(room, f"{TABLE}{line}\n", machine, 1)
        if files_of(room, COLUMNS) != wanted:
            raise Wrong(f"after {line} the files are {files_of(room, COLUMNS)} and not {wanted}")
    plays(room, TABLE + at_all_times([first, second, third]), machine, 1)


def files_that_stay_keep_their_numbers(room):
    """A flush of changes writes one REDO file beside the others; a minor leaves the base and UNDO files, and a major the UNDO files."""
    stages = [
        (['insert "a" 1', "flush"], (3, [4], [])),
        (['update "a" n=2', "flush-deltas"], (3, [4], [5])),
        (['update "a" n=3', "flush-deltas", "flush-deltas"], (3, [4], [5, 6])),
        (["minor"], (3, [4], [7])),
        (["major"], (8, [4, 9], [])),
        (['update "a" n=4', 'delete "a"', "flush-deltas", "minor"], (8, [4, 9], [10])),
        (["major"], (11, [4, 9, 12], [13])),
    ]
    machine, before = None, {}
    for lines, wanted in stages:
        machine, _ = plays(room, TABLE + "".join(f"{it}\n" for it in lines), machine, 1)
        now = held(room, "DATA")
        base, *lists = named_in(now, COLUMNS)
        found = base[0], *([number for number, _ in some] for some in lists)
        if found != wanted:
            raise Wrong(f"after {lines} the superblock names {found} and not {wanted}")
        changed = [it for it in before if it not in ("f1", "f2") and it in now and now[it] != before[it]]
        if changed:
            raise Wrong(f"after {lines} these files are others: {changed}")
        before = now


# Marks, and the timestamps of the UNDO records that a flush writes then of a row that was inserted, updated and, it may be, deleted; none
# where it writes no row.
FLUSHED = [
    (False, 0, [8192, 4096]),
    (False, 4096, [8192]),
    (False, 8192, []),
    (True, 0, [8192, 4096]),
    (True, 4096, [8192]),
    (True, 8192, []),
    (True, 12287, []),
    (True, 12288, None),
]


def a_flush_writes_what_the_mark_leaves(room):
    """The row as it was last, with its delete, and what undoes its changes above the mark."""
    undos = {8192: to_number(1), 4096: spelled.DELETE}
    log = [replicate(4096, (INSERT, b"a", 1)), commit(4096, (DONE, in_memory(1))), replicate(8192, (UPDATE, b"a", 2)), commit(8192, (DONE, in_memory(1)))]
    gone = [replicate(12288, (DELETE, b"a")), commit(12288, (DONE, in_memory(1)))]
    for deleted, mark, times in FLUSHED:
        slot = spelled.slot(spelled.body(1, COLUMNS, mark=mark, last=12288))
        lay(room, log + gone if deleted else log, {}, {1: slot})
        undo = [spelled.delta_file(UNDO, *((0, at, undos[at]) for at in times))] if times else []
        redo = [spelled.delta_file(REDO, (0, 12288, spelled.DELETE))] if deleted else []
        wanted = None if times is None else (spelled.base_file([b"a"], (2, [2])), undo, redo)
        makes(room, TABLE, COLUMNS, ["flush"], wanted)


def a_change_goes_to_the_store_that_has_the_row(room):
    """A COMMIT names the MemRowSet or the DeltaMemStore that took the change: that of the row, and for a new row the MemRowSet. A flush freezes two of these."""
    lines = ['insert "ant" 1', "flush", 'insert "bee" 2', 'update "ant" n=3', 'upsert "bee" n=4', 'delete "ant"', 'insert "ant" 5', 'update "ant" n=6']
    _, output = plays(room, TABLE + "".join(f"{it}\n" for it in lines), None, 1)
    stores = [in_memory(1), in_memory(3), in_delta(1, 1), in_memory(3), in_delta(1, 1), in_memory(3), in_memory(3)]
    wanted = [commit(at, (DONE, it)) for at, it in zip(times_in(output), stores)]
    found = [it for it in records_in(log_now(room)) if it[0] == 2]
    if found != wanted:
        raise Wrong(f"{[it.hex() for it in found]} and not {[it.hex() for it in wanted]}")


ALL = [
    long_rows_are_read_at_their_times,
    rows_are_read_from_several_files,
    changes_in_memory_are_read_at_their_times,
    files_are_as_long_as_the_superblock_says,
    two_files_become_one,
    a_record_is_folded_into_its_base_row,
    changes_go_into_new_files,
    files_that_stay_keep_their_numbers,
    a_flush_writes_what_the_mark_leaves,
    a_change_goes_to_the_store_that_has_the_row,
]
