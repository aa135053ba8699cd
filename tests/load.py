"""Scripts that load: each summary is that of a plain fold, however the four sessions ran beside each other."""
from room import Wrong

HEAD = "table\ncolumn id int64 key\ncolumn v int64\n"
STEP, MORE, ALL_ONES = 6364136223846793005, 1442695040888963407, 2**64 - 1

# Files of up to 16 blocks of 1,024 bytes, and an error beyond that.
SMALL_FILES = ["bash", "-c", 'trap "" XFSZ; ulimit -f 16; exec "$0" "$@"']


def fold(many, rows):
    """Does the writes of a load on these rows, one session after another, and returns its summary."""
    ok = present = absent = 0
    for session in range(1, 5):
        drawn = session
        for _ in range(many):
            drawn = drawn * STEP + MORE & ALL_ONES
            y = drawn >> 33
            kind, key = y % 4, 4 * (y // 4 % 256) + session - 1
            if kind == 0 and key in rows:
                present += 1
            elif kind > 1 and key not in rows:
                absent += 1
            else:
                ok += 1
                if kind == 3:
                    del rows[key]
                else:
                    rows[key] = y // 1024 % 1000
    return f"load {many}\nok {ok}\npresent {present}\nabsent {absent}\nrows {len(rows)}\nsum {sum(rows.values())}\n"


def runs(room, words, script, wanted, status=0, before=()):
    ended = room.run(words, (HEAD + script).encode(), before)
    if ended != (status, wanted):
        raise Wrong(f"{words} over {script} ends with {ended} and not {(status, wanted)}")


def in_folders(*options):
    return ["dirs", "LOG", "DATA", "run", *options]


def shows(room, rows):
    """A scan over the folders shows these rows, by rising key."""
    status, output = room.run(in_folders(), f"{HEAD}session\nscan now\n".encode())
    lines = output.splitlines()
    wanted = [f"{key} {rows[key]}" for key in sorted(rows)]
    if status or lines[2 : lines.index("history")] != wanted:
        raise Wrong(f"a scan ends with {status} and shows\n{output}and not {wanted}")


def a_load_of_one_write(room):
    """Four operations, of which one finds what it asks for, with any number of workers."""
    for workers in range(5):
        runs(room, ["memory", "run", "--workers", str(workers)], "load 1\n", "load 1\nok 1\npresent 0\nabsent 3\nrows 1\nsum 52\n")


def loads_in_memory(room):
    """With and without workers, in a large pool and in the least, a load comes to the same."""
    wanted = fold(2_000, {})
    for options in ([], ["--workers", "2"], ["--pool", "1024"], ["--workers", "4", "--pool", "1024"]):
        runs(room, ["memory", "run", *options], "load 2000\n", wanted)


def loads_in_folders(room):
    """A load begins with the rows that the one before it has left, which a scan shows too."""
    rows = {}
    for many, options in ((2_000, []), (2_000, ["--workers", "2"]), (65, ["--workers", "4", "--pool", "1024"]), (1, [])):
        runs(room, in_folders(*options), f"load {many}\n", fold(many, rows))
        shows(room, rows)


def a_load_over_other_rows(room):
    """Rows that no load writes stay, and are counted and summed up with the others, to less than any number of 64 bits."""
    rows = {-1: -(2**63), 1_024: -(2**63), 5_000: -7, 1_023: 2**63 - 1}
    lines = "".join(f"insert {key} {v}\n" for key, v in rows.items())
    status, output = room.run(in_folders(), f"{HEAD}session\n{lines}".encode())
    if status:
        raise Wrong(f"the rows are written with {status}: {output}")
    for many in (1, 300):
        runs(room, in_folders(), f"load {many}\n", fold(many, rows))
        shows(room, rows)


def a_load_that_is_stopped(room):
    """Where the log takes no more, that is all that is said. The next run opens what is there."""
    runs(room, in_folders(), "load 2000\n", "tablet stopped\n", 4, SMALL_FILES)
    status, output = room.run(in_folders(), f"{HEAD}session\nscan now\n".encode())
    if status:
        raise Wrong(f"the next run ends with {status}: {output}")


ALL = [a_load_of_one_write, loads_in_memory, loads_in_folders, a_load_over_other_rows, a_load_that_is_stopped]
