"""Maintenance: rows and their changes go to files, and nothing of it shows, at any time, in this run and in the next."""
import os
import random
import re
import subprocess

import spelling as spelled
from logs import COLUMNS, FOLDERS, TABLE, log_now, log_of, records_in
from machine import check
from room import Wrong
from stores import held
from stress import HEAD, command

CHORES = ("flush", "flush-deltas", "minor", "major", "compact")

# A row that needs all 1,024 cells of a pool, and one that needs two more.
ALL_CELLS, TOO_MANY = "a" * 28_428, "a" * 28_429

# Words, what is run in memory behind them, and what it prints.
PRINTED = [
    (
        ["--pool", "1024"],
        [f'insert 1 "{TOO_MANY}"', f'insert 1 "{ALL_CELLS}"'],
        ["large 1026", "at 4096 ok"],
        ["large 1 1 1026", "begin 1 2 4096 1", "end 1 2 4096", "tablet ahm 0 last 4096 rowsets 0"],
    ),
    # The first row goes to a file, so that the second has room.
    (
        ["--pool", "1024"],
        [f'insert 1 "{ALL_CELLS}"', f'insert 2 "{ALL_CELLS}"'],
        ["at 4096 ok", "at 8192 ok"],
        ["begin 1 1 4096 1", "end 1 1 4096", "begin 1 2 8192 2", "end 1 2 8192", "tablet ahm 0 last 8192 rowsets 1"],
    ),
]

TOP = os.path.dirname(os.path.dirname(os.path.realpath(__file__)))


def rowsets_in(output):
    return int(re.search(r"^tablet ahm \d+ last \d+ rowsets (\d+)$", output, re.M)[1])


def plays(room, script, before=None, rowsets=None, words=(), watch=()):
    """Runs a script over both folders, with these words, watched by a command where there is one, and compares all that it printed with a plain machine."""
    status, output = room.run([*FOLDERS, *words], script.encode(), watch)
    if status:
        raise Wrong(f"status {status}\n{output}")
    machine = check(script, output, before)
    if rowsets is not None and rowsets_in(output) != rowsets:
        raise Wrong(f"{rowsets_in(output)} rowsets and not {rowsets}\n{output}")
    return machine, output


def times_in(output):
    return sorted({int(it) for it in re.findall(r"^(?:end \d+ \d+|at) (\d+)", output, re.M)})


def at_all_times(times):
    return "".join(f"scan at {at}\n" for time in times for at in (time - 1, time))


def a_flush_shows_nothing(room):
    """Rows are the same at each time before and after a flush, and in the next run, which reads them from files."""
    lines = [
        'insert "a" 5 ; insert "b" 2 ; insert "d" 4', 'update "a" n=6', 'delete "b"', 'delete "d"', 'insert "d" 8', "scan now",
        "flush", "scan now", 'update "a" n=9 ; insert "c" 3', 'insert "b" 7', 'delete "d"', "scan now",
    ]
    script = TABLE + "".join(f"{it}\n" for it in lines)
    machine, output = plays(room, script, rowsets=1)
    times = times_in(output)
    for rowsets in (1, 1):
        machine, output = plays(room, TABLE + at_all_times(times), machine, rowsets)
    machine, output = plays(room, TABLE + "flush\n" + at_all_times(times) + "flush\n", machine, 2)
    plays(room, TABLE + at_all_times(times), machine, 2)


def rows_of_several_rowsets_are_one_table(room):
    """A key that was deleted and inserted anew lies in several disk rowsets, and is one row at each time."""
    machine, times = None, []
    for rowsets in range(1, 6):
        lines = ['insert "k" 1' if rowsets == 1 else f'insert "k" {rowsets}', f'insert "only{rowsets}" 0', 'update "k" n=77', "flush", 'delete "k"']
        machine, output = plays(room, TABLE + "".join(f"{it}\n" for it in lines), machine, rowsets)
        times += times_in(output)
    plays(room, TABLE + at_all_times(times), machine, 5)


def a_flush_of_nothing_is_done(room):
    """A flush of no row is done, and makes no disk rowset; nor does one of rows that a mark has made past."""
    machine, output = plays(room, TABLE + "flush\nflush\n", None, 0)
    if [line for line in output.splitlines() if line == "done"] != ["done"] * 2:
        raise Wrong(output)
    machine, output = plays(room, TABLE + 'insert "a" 1\nflush\nflush\n', machine, 1)
    machine, output = plays(room, TABLE + "flush\n", machine, 1)
    machine, output = plays(room, TABLE + 'insert "gone" 1\ndelete "gone"\nmark 4611686018427387904\nflush\nscan now\n', machine)
    plays(room, TABLE + "scan now\n", machine)


def a_flush_leaves_its_files(room):
    """A flush writes the base file and the UNDO file of its rowset under the next numbers, and the superblock names both, and the second MemRowSet that it froze."""
    machine, output = plays(room, TABLE + 'insert "a" 5 ; insert "b" 2\nflush\n', None, 1)
    time = times_in(output)[0]
    base = spelled.base_file([b"a", b"b"], (2, [5, 2]))
    undo = spelled.delta_file(spelled.UNDO, (0, time, spelled.DELETE), (1, time, spelled.DELETE))
    files = held(room, "DATA")
    if sorted(files) != ["f1", "f2", "f3", "f4"] or files["f3"] != base or files["f4"] != undo:
        raise Wrong(f"{ {it: files[it].hex() for it in files} }")
    rowset = spelled.rowset(1, 0, (3, len(base)), [(4, len(undo))])
    last = spelled.slot(spelled.body(3, COLUMNS, [rowset], last=time, need=2, last_mem=2, next_rowset=2, next_file=5))
    if last not in files.values():
        raise Wrong(f"no slot is {last.hex()}: {files['f1'].hex()} {files['f2'].hex()}")


def prints(room, words, lines, replies, history):
    """One session of these lines over devices in memory prints this."""
    script = "".join(f"{it}\n" for it in ["table", "column id int64 key", "column v string", "session", *lines])
    wanted = "".join(f"{it}\n" for it in ["session 1", *replies, "history", *history])
    ended = room.run(["memory", "run", *words], script.encode())
    if ended != (0, wanted):
        raise Wrong(f"{words}: the status is {ended[0]}; it wrote\n{ended[1]}and not\n{wanted}")


def a_write_has_room_after_a_flush(room):
    """What needs more cells than the pool has is refused; a row that finds none free has those of the row that went to a file."""
    for words, lines, replies, history in PRINTED:
        prints(room, words, lines, replies, history)


def a_session_begins_with_room(room):
    """Where the unflushed rows of a log take more cells than the words give, a session flushes before its first command, though it only reads; the next finds nothing to flush."""
    machine, _ = plays(room, TABLE + "".join(f'insert "{it:05}" {it}\n' for it in range(2_000)), None, 0)
    for cells, rowsets in ((262_144, 0), (1_024, 1), (1_024, 1)):
        machine, _ = plays(room, TABLE + "scan now\n", machine, rowsets, ["--pool", str(cells)])


def changes_go_through_all_files(room):
    """Changes are flushed, merged and folded, and the scans at three times print what they are to."""
    lines = ['insert 1 "a"', "flush", 'update 1 v="b"', "flush-deltas", 'update 1 v="c"', "flush-deltas", "minor", "major", "scan at 4096", "scan at 8192", "scan now"]
    replies = ["at 4096 ok", "done", "at 8192 ok", "done", "at 12288 ok", "done", "done", "done", "rows 4096 1", '1 "a"', "rows 8192 1", '1 "b"', "rows 16384 1", '1 "c"']
    history = [
        "begin 1 1 4096 1", "end 1 1 4096", "chore 1 2", "begin 1 3 8192 2", "end 1 3 8192", "chore 1 4", "begin 1 5 12288 3", "end 1 5 12288", "chore 1 6",
        "chore 1 7", "chore 1 8", "rows 1 9 4096", "rows 1 10 8192", "look 1 11 16384 4", "rows 1 11 16384", "tablet ahm 0 last 16384 rowsets 1",
    ]
    prints(room, [], lines, replies, history)


def a_record_that_is_lost_is_refused(room):
    """A superblock counts the records that its rowsets hold: a log with fewer, or rows of other columns, are refused, and nothing changes."""
    plays(room, TABLE + 'insert "a" 5\nflush\n', None, 1)
    log = log_now(room)
    first = len(log_of(records_in(log)[:1])) - 1
    with open(room.path("LOG/f1"), "r+b") as it:
        it.seek(first)
        it.write(b"\0")
    ended = room.run(FOLDERS, (TABLE + "scan now\n").encode())
    if ended != (3, "refused B4 2 1\n"):
        raise Wrong(f"{ended}")
    with open(room.path("LOG/f1"), "r+b") as it:
        it.seek(first)
        it.write(b"\1")
    ended = room.run(FOLDERS, TABLE.replace("n int64 default 7", "n int32 default 7").encode())
    if ended != (3, "refused B5 2\n"):
        raise Wrong(f"{ended}")
    status, output = room.run(FOLDERS, (TABLE + "scan now\n").encode())
    if status or '"a" 5' not in output:
        raise Wrong(f"status {status}\n{output}")


def later_changes_go_to_files(room):
    """Changes of rows in files are flushed, merged and folded, and the rows are the same at each time, in this run and in the next."""
    first = ['insert "a" 1 ; insert "b" 2 ; insert "c" 3', "flush", 'update "a" n=10', 'delete "b"', "flush-deltas", "scan now"]
    second = ['update "a" n=11', 'insert "b" 22', "flush-deltas", 'delete "c"', "minor", "scan now", "minor"]
    third = ['update "a" n=12', "major", 'upsert "c" n=33', "flush", "flush-deltas", "minor", "major", "scan now"]
    machine, times = None, []
    for lines in (first, second, third):
        machine, output = plays(room, TABLE + "".join(f"{it}\n" for it in lines), machine)
        if [line for line in output.splitlines() if line == "done"] != ["done"] * sum(it in CHORES for it in lines):
            raise Wrong(output)
        times += times_in(output)
        machine, output = plays(room, TABLE + at_all_times(times), machine)


def random_sessions_flush(room):
    """Sessions that write the same keys ask for maintenance in between, run after run, and each line and reply is a plain machine's."""
    for seed in range(int(os.environ.get("RUNS", "6"))):
        rng, before, words = random.Random(seed), None, ["dirs", f"LOG{seed}", f"DATA{seed}", "run"]
        for name in words[1:3]:
            os.mkdir(room.path(name))
        times = []
        for _ in range(4):
            lines = []
            for _ in range(rng.choice((1, 2, 3))):
                said = [command(rng, 8, 2**60) if rng.random() < 0.85 else rng.choice(CHORES) for _ in range(40)]
                said = [f"scan at {rng.choice(times)}" if times and rng.random() < 0.1 else it for it in said]
                lines += ["session", *said]
            script = HEAD + "".join(f"{it}\n" for it in lines)
            status, output = room.run(words, script.encode())
            if status:
                raise Wrong(f"seed {seed}: status {status}\n{output}")
            before = check(script, output, before)
            times += times_in(output)


def the_example_opens_its_files(room):
    ran = subprocess.run([f"{TOP}/examples/flush.sh"], capture_output=True, env={**os.environ, "KT": room.program})
    wanted = b'1 "first"\n2 "two"\nrowsets 1\nf1\nf2\nf3\nf4\n'
    if ran.returncode or ran.stderr or ran.stdout != wanted:
        raise Wrong(f"examples/flush.sh ended with {ran.returncode}: {ran.stdout} {ran.stderr}")


ALL = [
    a_flush_shows_nothing,
    rows_of_several_rowsets_are_one_table,
    a_flush_of_nothing_is_done,
    a_flush_leaves_its_files,
    a_write_has_room_after_a_flush,
    a_session_begins_with_room,
    changes_go_through_all_files,
    a_record_that_is_lost_is_refused,
    later_changes_go_to_files,
    random_sessions_flush,
    the_example_opens_its_files,
]
