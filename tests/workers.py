"""Background workers: they do what the tablet needs beside the sessions, and nothing of it shows, at any time, in this run and in the next."""
import os
import random

from flushes import CHORES, at_all_times, plays, times_in
from machine import check
from room import Wrong
from rowsets import all_named
from spelling import KEY
from files import Table
from stores import held
from stress import HEAD, command

NUMBERS = Table(("id", "int64", KEY), ("n", "int64", 0))
SESSION = NUMBERS.head

ONE, FOUR = ["--workers", "1"], ["--workers", "4"]

# Reads, in which a worker has time.
READS = "scan at 1 where id=1\n" * 100


def writes(operations):
    """Lines of 64 operations each."""
    return "".join(" ; ".join(operations[at : at + 64]) + "\n" for at in range(0, len(operations), 64))


def shapes(room):
    """How many UNDO and REDO files each rowset has."""
    return [(len(undos), len(redos)) for _, _, undos, redos in all_named(held(room, "DATA"), NUMBERS.columns)]


def comes_to(room, workers, machine, holds):
    """Lets workers go on until this holds of the rowsets, which are looked at once a run has ended."""
    for _ in range(50):
        if holds(shapes(room)):
            return machine
        machine, _ = plays(room, SESSION + READS, machine, words=workers)
    raise Wrong(f"{workers} leave {shapes(room)}")


def reads_the_same(room, times, machine):
    """A run without workers shows the rows at each time."""
    plays(room, SESSION + at_all_times(random.Random(1).sample(times, min(8, len(times)))), machine)


def workers_flush_many_rows(room):
    """8,192 rows in memory go to files, and those that are written beside it too."""
    machine, output = plays(room, SESSION + writes([f"insert {it} {it}" for it in range(8_960)]) + "scan now where id>=8900\n", words=ONE)
    machine = comes_to(room, ONE, machine, lambda it: len(it) >= 1)
    reads_the_same(room, times_in(output), machine)


def workers_write_many_changes(room):
    """4,096 changes of one rowset go to a file, and then into its base file, since they are a quarter of its rows.

    A worker that had found the same changes may still write what came since then to a file.
    """
    machine, _ = plays(room, SESSION + writes([f"insert {it} 0" for it in range(5_000)]) + "flush\n", None, 1)
    machine, output = plays(room, SESSION + writes([f"update {it} n={it}" for it in range(4_500)]), machine, words=FOUR)
    machine = comes_to(room, FOUR, machine, lambda it: [undos for undos, _ in it] == [2])
    reads_the_same(room, times_in(output), machine)


def workers_merge_four_files(room):
    """Four REDO files of one rowset become one."""
    changes = "".join(f"update {it} n=7\nflush-deltas\n" for it in range(3))
    machine, first = plays(room, SESSION + writes([f"insert {it} 0" for it in range(64)]) + "flush\n" + changes, None, 1)
    if shapes(room) != [(1, 3)]:
        raise Wrong(f"three files are {shapes(room)}")
    machine, output = plays(room, SESSION + "update 3 n=7\nflush-deltas\n", machine, words=ONE)
    machine = comes_to(room, ONE, machine, lambda it: it == [(1, 1)])
    reads_the_same(room, [*times_in(first), *times_in(output)], machine)


def workers_compact_three_rowsets(room):
    """Three rowsets that have a key in their ranges become one; a fourth, beside them, stays."""
    rows = [(100, 101)] + [(it, it + 10) for it in range(3)]
    lines = "".join(f"insert {low} 0 ; insert {high} 0\nflush\n" for low, high in rows)
    machine, output = plays(room, SESSION + lines, None, 4)
    machine = comes_to(room, FOUR, machine, lambda it: len(it) == 2)
    reads_the_same(room, times_in(output), machine)


def workers_compact_beside_writes(room):
    """Three rowsets with one range of keys become one while sessions change, delete and insert anew what they have."""
    rows = [[f"insert {it} 0" for it in range(of, 6_000, 3)] for of in range(3)]
    machine, _ = plays(room, SESSION + "".join(f"{writes(some)}flush\n" for some in rows), None, 3)
    lines = []
    for of in range(4):
        mine = range(of, 6_000, 120)
        lines += ["session", *(f"update {it} n=1" for it in mine), *(f"delete {it}" for it in mine[::2]), *(f"insert {it} 2" for it in mine[::4])]
    machine, output = plays(room, SESSION.removesuffix("session\n") + "".join(f"{it}\n" for it in lines), machine, words=FOUR)
    machine = comes_to(room, FOUR, machine, lambda it: len(it) < 3)
    reads_the_same(room, times_in(output), machine)


def sessions_that_need_room_beside_compactions(room):
    """Writes that find no cells free, and have them once rows went to files, end beside sessions and workers that compact."""
    machine = None
    for workers in (0, 1, 4):
        rng = random.Random(workers)
        said = [[*["compact"] * 6, "flush"], *([f'upsert {rng.randrange(40)} v="{"v" * rng.choice((9, 2_000))}"' for _ in range(30)] for _ in range(3))]
        lines = "".join(f"{it}\n" for some in said for it in ["session", *some])
        machine, output = plays(room, HEAD + lines, machine, words=["--workers", str(workers), "--pool", "1024"])
        machine, _ = plays(room, f"{HEAD}session\n{at_all_times(rng.sample(times_in(output), 4))}", machine)


def workers_end_without_work(room):
    """Where there is nothing to do, a run prints with workers what it prints without, and ends."""
    for lines in ("", "session\n", 'session\ninsert 1 "a"\nscan now\n', 'session\ninsert 1 "a"\nflush\ncompact\nscan now\n'):
        script = f"table\ncolumn id int64 key\ncolumn v string\n{lines}".encode()
        wanted = room.run(["memory", "run"], script)
        for workers in range(5):
            ended = room.run(["memory", "run", "--workers", str(workers)], script)
            if ended != wanted:
                raise Wrong(f"{workers} workers: {ended} and not {wanted}")


def random_sessions_beside_workers(room):
    """Sessions that write the same keys and ask for maintenance, with workers and few cells, run after run, and each line and reply is a plain machine's."""
    for seed in range(int(os.environ.get("RUNS", "4"))):
        rng, before, words = random.Random(seed), None, ["dirs", f"LOG{seed}", f"DATA{seed}", "run"]
        for name in words[1:3]:
            os.mkdir(room.path(name))
        times = [1]
        for workers in (1, 2, 4):
            lines = []
            for _ in range(rng.choice((1, 2, 4))):
                said = [command(rng, 40, 2**60) if rng.random() < 0.95 else rng.choice(CHORES) for _ in range(60)]
                said = [f"scan at {rng.choice(times)}" if it.startswith("mark") or rng.random() < 0.1 else it for it in said]
                said += [f'upsert {rng.randrange(40)} v="{"v" * 2_000}"' for _ in range(8)]
                rng.shuffle(said)
                lines += ["session", *said]
            script = HEAD + "".join(f"{it}\n" for it in lines)
            status, output = room.run([*words, "--workers", str(workers), "--pool", "1024"], script.encode())
            if status:
                raise Wrong(f"seed {seed}: status {status}\n{output}")
            before = check(script, output, before)
            times += times_in(output)


ALL = [
    workers_flush_many_rows,
    workers_write_many_changes,
    workers_merge_four_files,
    workers_compact_three_rowsets,
    workers_compact_beside_writes,
    sessions_that_need_room_beside_compactions,
    workers_end_without_work,
    random_sessions_beside_workers,
]
