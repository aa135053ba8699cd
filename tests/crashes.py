#!/usr/bin/env python3
"""Random sessions with maintenance and workers, and what a crash at any call on a file may leave of their folders.

  tests/crashes.py [RUNS]     with the built program

The calls of a run are watched, and done again on a copy of its folders up to some moment. A write of which no sync of its file
follows is then left out, there, there by half, or ones in its place; a name that came or went since its folder was synced is
there or not. What was left opens with the first writes of the run, at each time, and goes on."""
import os
import random
import re
import struct
import sys
import tempfile

sys.dont_write_bytecode = True
TOP = os.path.dirname(os.path.dirname(os.path.realpath(__file__)))

from flushes import CHORES, at_all_times, plays
from logs import FOLDERS, records_in
from machine import Disagrees, Machine, Script, asks
from room import Room, Wrong
from runs import calls_of, has_strace, traced
from stores import fill, held
from stress import HEAD, command

WATCHED = ["-f", "-xx", "-s", "1000000", "-e", "trace=openat,pwrite64,fsync,ftruncate,unlink,unlinkat"]


# ---- folders as calls leave them


class File:
    """The bytes of a file, those of its last sync, and what was done to it since: places with bytes, or with none where it was cut."""

    def __init__(self, bytes_=b""):
        self.now, self.stable, self.since = bytes_, bytes_, []

    def sync(self):
        self.stable, self.since = self.now, []

    def left(self, rng):
        found = self.stable
        for at, bytes_ in self.since:
            if bytes_ is None:
                found = rng.choice((found, found[:at]))
            else:
                found = put(found, at, rng.choice((b"", bytes_, bytes_[: len(bytes_) // 2], b"\1" * len(bytes_))))
        return found


def put(file, at, bytes_):
    return file[:at].ljust(at, b"\0") + bytes_ + file[at + len(bytes_) :] if bytes_ else file


class Folder:
    """The files of a folder, and those of its last sync."""

    def __init__(self, files):
        self.now = {name: File(it) for name, it in files.items()}
        self.stable = dict(self.now)

    def make(self, name):
        self.now[name] = File()

    def remove(self, name):
        del self.now[name]

    def write(self, name, at, bytes_):
        file = self.now[name]
        file.now = put(file.now, at, bytes_)
        file.since.append((at, bytes_))

    def cut(self, name, to):
        file = self.now[name]
        file.now = file.now[:to]
        file.since.append((to, None))

    def sync(self, name):
        if name:
            self.now[name].sync()
        else:
            self.stable = dict(self.now)

    def left(self, rng):
        chosen = {name: rng.choice((self.now.get(name), self.stable.get(name))) for name in sorted({*self.now, *self.stable})}
        return {name: it.left(rng) for name, it in chosen.items() if it}


def left_behind(before, calls, rng):
    """What a crash after these calls may leave of the folders."""
    folders = {name: Folder(files) for name, files in before.items()}
    for folder, call, *given in calls:
        getattr(folders[folder], call)(*given)
    return {name: it.left(rng) for name, it in folders.items()}


# ---- calls that were watched


def ended(lines):
    """The calls of all threads in the order in which they ended."""
    begun = {}
    for line in lines:
        thread, text = line.split(maxsplit=1)
        again = re.match(r"<\.\.\. \w+ resumed>", text)
        if text.endswith(" <unfinished ...>"):
            begun[thread] = text.removesuffix(" <unfinished ...>")
        else:
            yield begun.pop(thread) + text[again.end() :] if again else text


def changes_in(lines):
    """What was done to the files of both folders: the folder, the call, the file, and what the call was given."""
    for line in ended(lines):
        found = re.match(r"(\w+)\((.*)\) += \d+(<.*>)?$", line)
        if not found:
            continue
        word, given, made = found.groups()
        texts = [bytes.fromhex(it.replace("\\x", "")) for it in re.findall(r'[<"]((?:\\x..)*)[>"]', given + (made or ""))]
        path = texts[0] if word in ("pwrite64", "fsync", "ftruncate") else texts[-1]
        *_, folder, name = path.decode().split("/")
        if word == "fsync" and name in ("LOG", "DATA"):
            yield name, "sync", None
        if folder not in ("LOG", "DATA") or not re.fullmatch(r"f\d+", name):
            continue
        if word == "openat" and "O_EXCL" in given:
            yield folder, "make", name
        elif word == "pwrite64":
            yield folder, "write", name, int(given.rsplit(", ", 1)[1]), texts[1]
        elif word == "ftruncate":
            yield folder, "cut", name, int(given.rsplit(", ", 1)[1])
        elif word == "fsync":
            yield folder, "sync", name
        elif word.startswith("unlink"):
            yield folder, "remove", name


# ---- runs and openings


def said(rng, times):
    """A command, on times that were before where it names one."""
    if rng.random() < 0.2:
        return rng.choice(CHORES)
    word = command(rng, 8, 2)
    named = rng.choice(times) if times else 1
    return re.sub(r"^(scan at|mark) \d+", rf"\1 {named}", word) if rng.random() < 0.5 or not word.startswith("mark") else "scan now"


def written(rng):
    """A write."""
    words = (command(rng, 8, 2) for _ in iter(int, 1))
    return next(it for it in words if not it.startswith(("scan", "mark")))


def beside(calls):
    """How often the log was written while new files of the store were."""
    count, is_out = 0, False
    for folder, call, name, *_ in calls:
        if folder == "DATA" and name:
            is_out = name not in ("f1", "f2") and (is_out or call == "make")
        count += is_out and folder == "LOG" and call == "write"
    return count


class Chain:
    """What went on in a room so far: its writes and marks, and the plain machine of them."""

    def __init__(self, room, rng):
        self.room, self.rng, self.writes, self.marks, self.machine, self.beside = room, rng, [], [0], None, 0

    def sessions(self):
        """The lines of random sessions; or of some that only write, while another one has what was written before merged, again and again."""
        if self.rng.random() < 0.5:
            return [[said(self.rng, self.writes) for _ in range(20)] for _ in range(self.rng.choice((1, 2, 3)))]
        return [["flush", *["compact"] * 5], *([written(self.rng) for _ in range(12)] for _ in range(3))]

    def runs(self):
        """Runs random sessions. Returns both folders as they were, and the calls on their files."""
        lines = [line for it in self.sessions() for line in ["session", *it]]
        before = {folder: held(self.room, folder) for folder in ("LOG", "DATA")}
        script = HEAD + "".join(f"{it}\n" for it in lines)
        words = ["--workers", str(self.rng.choice((0, 0, 1, 4))), "--pool", "1024"]
        self.machine, output = plays(self.room, script, self.machine, words=words, watch=traced(self.room, *WATCHED))
        self.writes += [int(it) for it in re.findall(r"^begin \d+ \d+ (\d+)", output, re.M)]
        self.marks += [int(it) for it in re.findall(r"^ahm (\d+)", output, re.M)]
        calls = list(changes_in(calls_of(self.room)))
        self.beside += beside(calls)
        return before, calls

    def opened(self, count):
        """The machine that an opening with so many of the writes leaves."""
        status, output = self.room.run(FOLDERS, HEAD.encode())
        found = re.fullmatch(r"history\ntablet ahm (\d+) last (\d+) rowsets \d+\n", output)
        asks(status == 0 and found, f"status {status}\n{output}")
        (mark, last), newest = map(int, found.groups()), self.writes[count - 1] if count else 0
        asks(mark in self.marks and last >= newest, f"it opens with the mark {mark} and the time {last}: {self.marks}, {newest}")
        machine = Machine(Script(HEAD), None, mark)
        machine.c = last
        machine.past = {key: [it for it in rows if it[0] <= newest] for key, rows in self.machine.past.items()}
        return machine

    def crashes(self, image):
        """Opens what a crash left, reads it at some times, before and after maintenance, and goes on from there. Returns how many writes it has."""
        for folder, files in image.items():
            fill(self.room, folder, files)
        there = [struct.unpack_from("<Q", it, 1)[0] for it in records_in(image["LOG"].get("f1", b"")) if it[0] == 1]
        asks(there == self.writes[: len(there)], f"the log has the writes {there} and not {self.writes}")
        machine = self.opened(len(there))
        scans = at_all_times(self.rng.sample(self.writes, min(10, len(self.writes))))
        script = f"{HEAD}session\n{scans}flush\ncompact\n{scans}"
        try:
            self.machine, _ = plays(self.room, script, machine)
        except Disagrees as no:
            raise Disagrees(f"{no}\n{ {at: {name: it.hex() for name, it in files.items()} for at, files in image.items()} }") from None
        self.writes = there
        return len(there)


def tries(room, seed):
    """Three runs, each over what a crash left of the one before; what was left of each is opened at its end and at two moments, or it is not. Returns how
    often the log was written beside files of the store."""
    rng = random.Random(seed)
    chain = Chain(room, rng)
    for _ in range(3):
        before, calls = chain.runs()
        writes, machine = list(chain.writes), chain.machine
        for at in (len(calls), rng.randrange(len(calls)), rng.randrange(len(calls))):
            chain.writes, chain.machine = list(writes), machine
            count = chain.crashes(left_behind(before, calls[:at], rng))
            asks(at < len(calls) or count == len(writes), f"{count} writes are there at the end, of {len(writes)}")
    return chain.beside


def a_crash_leaves_the_first_writes(room, runs=4):
    """What a crash at any call leaves of random sessions opens with their first writes, and nothing else, at each time."""
    if not has_strace():
        return 0
    count = 0
    for seed in range(runs):
        fill(room, "LOG", {})
        fill(room, "DATA", {})
        try:
            count += tries(room, seed)
        except Disagrees as no:
            raise Wrong(f"seed {seed}: {no}") from None
    return count


def main():
    runs = int(sys.argv[1]) if sys.argv[1:] else 500
    with tempfile.TemporaryDirectory() as folder:
        count = a_crash_leaves_the_first_writes(Room(f"{TOP}/crates/kt_main/out/kt_main", folder), runs)
    print(f"{3 * runs} runs of sessions: what a crash leaves of each is its first writes. {count} times the log was written beside new files of the store")


ALL = [a_crash_leaves_the_first_writes]

if __name__ == "__main__":
    main()
