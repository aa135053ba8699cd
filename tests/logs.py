"""Logs that the program opens: cut at each byte, with each gate shut, owing COMMITs, and at fault."""
import os
import re
import struct

import spelling as spelled
from room import Wrong

TABLE = "table\ncolumn k string key\ncolumn n int64 default 7\nsession\n"
COLUMNS = [
    spelled.column(1, "k", "string", spelled.KEY),
    spelled.column(2, "n", "int64", spelled.DEFAULT, spelled.number(7)),
]
# The first superblock of this table.
FIRST = spelled.slot(spelled.body(1, COLUMNS))
FOLDERS = ["dirs", "LOG", "DATA", "run"]

INSERT, UPSERT, UPDATE, INSERT_IGNORE, UPDATE_IGNORE, DELETE_IGNORE = 1, 2, 3, 5, 6, 7
DONE, PRESENT, ABSENT, IGNORED = range(4)
# The first timestamp that no log may have.
EDGE = 2**63 - 2**21


def cells(*numbers):
    return struct.pack("<H", len(numbers)) + b"".join(struct.pack("<HBq", 2, 2, it) for it in numbers)


def replicate(ts, *operations):
    """Of operations: kind, key, and the number in the column n where there is one."""
    spelled = (bytes([kind]) + struct.pack("<H", len(key)) + key + cells(*numbers) for kind, key, *numbers in operations)
    return struct.pack("<BQH", 1, ts, len(operations)) + b"".join(spelled)


def in_memory(number):
    return struct.pack("<BQ", 1, number)


def in_delta(rowset, store):
    return struct.pack("<BQQ", 2, rowset, store)


def of_another_table(ts, *operations):
    """Of operations: kind, key, and cells as (id, text)."""
    text = lambda it: struct.pack("<BI", 3, len(it)) + it
    cells = lambda given: struct.pack("<H", len(given)) + b"".join(struct.pack("<H", id) + text(it) for id, it in given)
    spelled = (bytes([kind]) + struct.pack("<H", len(key)) + key + cells(given) for kind, key, *given in operations)
    return struct.pack("<BQH", 1, ts, len(operations)) + b"".join(spelled)


def commit(ts, *rows):
    """Of rows: what became of each, and the store that it changed where it changed one."""
    return struct.pack("<BQH", 2, ts, len(rows)) + b"".join(bytes([it, len(to)]) + b"".join(to) for it, *to in rows)


def log_of(records):
    return b"".join(b"\1" + struct.pack("<I", len(it)) + it for it in records) + b"\0"


def records_in(log):
    found = []
    while log[:1] == b"\1" and len(log) > 1:
        length = struct.unpack("<I", log[1:5])[0]
        found.append(log[5 : 5 + length])
        log = log[5 + length :]
    return found


A = replicate(4096, (INSERT, b"a", 5))
A_DONE = commit(4096, (DONE, in_memory(1)))
AGAIN = replicate(8192, (INSERT, b"a", 6))
AGAIN_PRESENT = commit(8192, (PRESENT,))
C = replicate(12288, (UPSERT, b"c"))
D = replicate(16384, (UPSERT, b"d"))
LAST = replicate(EDGE - 1, (UPSERT, b"b"))
TOO_LATE = replicate(EDGE, (UPSERT, b"b"))
IGNORING = replicate(8192, (INSERT_IGNORE, b"a", 6), (UPDATE_IGNORE, b"y", 6), (DELETE_IGNORE, b"z"))
ALL_IGNORED = commit(8192, (IGNORED,), (IGNORED,), (IGNORED,))

# Records, the rows that they make, and the COMMITs that are owed.
OPENED = [
    ([], {}, []),
    ([A], {"a": 5}, [A_DONE]),
    ([A, A_DONE], {"a": 5}, []),
    ([A, commit(4096, (DONE, in_delta(1, 1)))], {}, []),
    ([A, AGAIN, AGAIN_PRESENT], {"a": 5}, [A_DONE]),
    ([A, AGAIN], {"a": 5}, [A_DONE, AGAIN_PRESENT]),
    ([A, LAST], {"a": 5, "b": 7}, [A_DONE, commit(EDGE - 1, (DONE, in_memory(1)))]),
    ([replicate(0, (INSERT, b"a", 5))], {"a": 5}, [commit(0, (DONE, in_memory(1)))]),
    ([A, AGAIN, C, commit(12288, (DONE, in_memory(7)))], {"a": 5, "c": 7}, [commit(4096, (DONE, in_memory(7))), AGAIN_PRESENT]),
    ([A, A_DONE, IGNORING], {"a": 5}, [ALL_IGNORED]),
    ([A, A_DONE, IGNORING, ALL_IGNORED], {"a": 5}, []),
]

# Records, and how they are refused.
REFUSED = [
    ([A, AGAIN, commit(8192, (DONE, in_memory(1)))], "B3 66"),
    ([A, TOO_LATE], f"B6 {EDGE}"),
    ([A, AGAIN, commit(8192, (DONE, in_memory(1))), TOO_LATE], f"B6 {EDGE}"),
    ([A, A_DONE, IGNORING, commit(8192, (DONE, in_memory(1)), (IGNORED,), (IGNORED,))], "B3 116"),
]

# Four writes, two with a COMMIT: for each gate what the log holds that ends there, and how many COMMITs it owes.
WRITES = [A, A_DONE, AGAIN, AGAIN_PRESENT, C, D, LAST]
AT_GATES = [
    ({}, 0),
    ({"a": 5}, 1),
    ({"a": 5}, 0),
    ({"a": 5}, 1),
    ({"a": 5}, 0),
    ({"a": 5, "c": 7}, 1),
    ({"a": 5, "c": 7, "d": 7}, 2),
    ({"a": 5, "b": 7, "c": 7, "d": 7}, 3),
]


def run_over(room, log, *lines):
    """Runs over a log, beside the first superblock."""
    for path, held in (("LOG/f1", log), ("DATA/f1", FIRST)):
        with open(room.path(path), "wb") as it:
            it.write(held)
    if os.path.exists(room.path("DATA/f2")):
        os.remove(room.path("DATA/f2"))
    return room.run(FOLDERS, (TABLE + "".join(f"{it}\n" for it in lines)).encode())


def log_now(room):
    with open(room.path("LOG/f1"), "rb") as it:
        return it.read()


def opens_to(room, log, kept, rows, owed):
    """Opens a log and writes a row: it holds the records that were kept, those that are owed, and that row's two."""
    status, output = run_over(room, log, "scan now", 'insert "new" 1')
    found = {key: int(n) for key, n in re.findall(r'^"(\w+)" (\d+)$', output, re.M)}
    if status or found != rows or " ok\n" not in output:
        raise Wrong(f"{log.hex()} has the rows {found} and not {rows}: status {status}\n{output}")
    records = records_in(log_now(room))
    front, more = records[: len(kept)], records[len(kept) :]
    if front != kept or len(more) != owed + 2 or any(it[0] != 2 for it in more[:owed]):
        raise Wrong(f"{log.hex()} became {[it.hex() for it in records]}")
    return more[:owed]


def refused_as(room, log, why):
    ended = run_over(room, log, "scan now")
    if ended != (3, f"refused {why}\n") or log_now(room) != log:
        raise Wrong(f"{log.hex()} gave {ended}, and is {log_now(room).hex()} now")


def logs_open_with_what_they_owe(room):
    """A log opens with its rows, and the COMMITs that it owes are appended in front of the next write, once."""
    for records, rows, owed in OPENED:
        if opens_to(room, log_of(records), records, rows, len(owed)) != owed:
            raise Wrong(f"{[it.hex() for it in records]} owes others")


def logs_at_fault_are_refused(room):
    """A log at fault is refused with its place, and stays as it was."""
    for records, why in REFUSED:
        refused_as(room, log_of(records), why)


def a_log_is_cut_anywhere(room):
    """A log that ends at a gate, or a byte behind it, holds what stands before; one that ends within a frame is at fault."""
    log, gates, at = log_of(WRITES), [], 0
    for record in WRITES:
        gates.append(at)
        at += 5 + len(record)
    gates.append(at)
    for length in range(len(log) + 1):
        behind = sum(it <= length for it in gates) - 1
        if behind >= 0 and length - gates[behind] > 1:
            refused_as(room, log[:length], f"B3 {gates[behind]}")
        else:
            rows, owed = AT_GATES[max(behind, 0)]
            opens_to(room, log[:length], WRITES[: max(behind, 0)], rows, owed)


def a_log_ends_at_a_shut_gate(room):
    """What stands behind a closed gate is not in the log."""
    log, at = log_of(WRITES), 0
    for count, (rows, owed) in enumerate(AT_GATES):
        opens_to(room, log[:at] + b"\0" + log[at + 1 :], WRITES[:count], rows, owed)
        at += 5 + len(WRITES[count]) if count < len(WRITES) else 0


def a_changed_byte_is_refused_at_its_frame(room):
    """A byte that no record has there is refused with the place of its frame."""
    second = 5 + len(A)
    for frame, behind, byte in [(0, 5, 3), (0, 14, 0), (second, 5, 1), (second, 6, 1), (second, 14, 2), (second, 16, 3)]:
        log = bytearray(log_of([A, A_DONE]))
        log[frame + behind] = byte
        refused_as(room, bytes(log), f"B3 {frame}")


def rows_stand_at_their_times(room):
    """Rows of a log that is opened stand at the times of their writes."""
    scans = [f"scan at {it}" for it in (4095, 4096, 12287, 12288)]
    status, output = run_over(room, log_of([A, A_DONE, AGAIN, AGAIN_PRESENT, C]), *scans)
    wanted = 'rows 4095 0\nrows 4096 1\n"a" 5\nrows 12287 1\n"a" 5\nrows 12288 2\n"a" 5\n"c" 7\n'
    if status or wanted not in output:
        raise Wrong(f"status {status}\n{output}")


def rows_of_another_table_stand_apart(room):
    """A log whose rows this table cannot have is opened, and writes and scans of other rows go on over it."""
    odd = of_another_table(4096, (INSERT, b"\0", (2, b"text"), (9, b"")), (UPSERT, b"", (300, b"x")), (INSERT, b"\xff" * 40))
    again = of_another_table(8192, (UPSERT, b"\0", (2, b"other")))
    for records in ([odd], [odd, again], [odd, commit(4096, *[(DONE, in_memory(3))] * 3), again]):
        lines = ['insert "a" 1', 'insert "b" 2', 'scan now where k>="a" and k<="b"', 'delete "a"', 'scan now select n where k="b"']
        for log, second in ((lambda: log_of(records), "ok"), (lambda: log_now(room), "present")):
            status, output = run_over(room, log(), *lines)
            wanted = f'session 1\nat T ok\nat T {second}\nrows T 2\n"a" 1\n"b" 2\nat T ok\nrows T 1\n2\nhistory\n'
            if status or not re.sub(r"^(at|rows) \d+", r"\1 T", output, flags=re.M).startswith(wanted):
                raise Wrong(f"status {status}\n{output}")


ALL = [
    logs_open_with_what_they_owe,
    logs_at_fault_are_refused,
    a_log_is_cut_anywhere,
    a_log_ends_at_a_shut_gate,
    a_changed_byte_is_refused_at_its_frame,
    rows_stand_at_their_times,
    rows_of_another_table_stand_apart,
]
