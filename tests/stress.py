#!/usr/bin/env python3
"""Runs sessions that write and read the same keys, and has a plain machine compare each line and each reply.

  tests/stress.py [RUNS [SESSIONS [COMMANDS]]]     with the built program, in memory and over two folders that stay"""
import os
import random
import subprocess
import sys
import tempfile

sys.dont_write_bytecode = True
TOP = os.path.dirname(os.path.dirname(os.path.realpath(__file__)))

from machine import Disagrees, check

HEAD = "table\ncolumn id int64 key\ncolumn v string\ncolumn n int32 nullable default 7\n"


def operation(rng, key):
    kind = rng.choice(("insert", "insert", "upsert", "upsert", "update", "delete", "insert-ignore", "update-ignore", "delete-ignore"))
    text = '"' + rng.choice("abcdef") * rng.randrange(4) + '"'
    if kind in ("insert", "insert-ignore"):
        return f"{kind} {key} {text} {rng.choice(('null', rng.randrange(-9, 9)))}"
    if kind in ("delete", "delete-ignore"):
        return f"{kind} {key}"
    return f"{kind} {key} v={text}" + rng.choice(("", f" n={rng.randrange(-9, 9)}", " n=null"))


def command(rng, keys, latest):
    kind = rng.randrange(10)
    if kind < 6:
        chosen = rng.sample(range(1, keys + 1), rng.choice((1, 1, 1, 2, 3)))
        return " ; ".join(operation(rng, it) for it in chosen)
    tail = rng.choice(("", " select v,id", " where n>0", ' where v<"c" and n is not null'))
    if kind < 8:
        return f"scan now{tail}"
    return f"mark {rng.randrange(latest)}" if kind == 8 else f"scan at {rng.randrange(latest)}{tail}"


def random_script(rng, sessions, commands, latest):
    """A script of sessions over few keys, whose scans and marks name times up to the latest."""
    lines = []
    for _ in range(sessions):
        lines += ["session", *(command(rng, 8, latest) for _ in range(commands))]
    return HEAD + "".join(f"{it}\n" for it in lines)


def tries(program, folder, seed, sessions, commands):
    """One run in memory, and two over folders, the second over what the first left."""
    rng, before = random.Random(seed), None
    where = ["dirs", f"{folder}/LOG{seed}", f"{folder}/DATA{seed}"]
    for name in where[1:]:
        os.mkdir(name)
    for words, latest in ((["memory"], 4096 * sessions * commands), (where, 2**60), (where, 2**60)):
        script = random_script(rng, sessions, commands, latest)
        ran = subprocess.run([program, *words, "run"], input=script.encode(), capture_output=True, timeout=120)
        if ran.returncode or ran.stderr:
            raise Disagrees(f"seed {seed}: status {ran.returncode} {ran.stderr}")
        try:
            machine = check(script, ran.stdout.decode("latin-1"), before if words is where else None)
        except Disagrees as no:
            raise Disagrees(f"seed {seed}, {words}: {no}\n{script}\n{ran.stdout.decode('latin-1')}") from None
        before = machine if words is where else before


def main():
    runs, sessions, commands = [int(it) for it in (sys.argv[1:] + ["500", "16", "20"][len(sys.argv) - 1 :])]
    with tempfile.TemporaryDirectory() as folder:
        for seed in range(runs):
            tries(f"{TOP}/crates/kt_main/out/kt_main", folder, seed, sessions, commands)
    print(f"{runs} runs of {sessions} sessions: each line is one of the machine's, and each reply")


if __name__ == "__main__":
    main()
