#!/usr/bin/env python3
"""Asks the checker about runs, as they were printed and with something changed, and has a plain fold say the same.

  tests/judged.py [RUNS]     with the built program, in memory and over two folders that stay"""
import os
import random
import re
import subprocess
import sys
import tempfile

sys.dont_write_bytecode = True
TOP = os.path.dirname(os.path.dirname(os.path.realpath(__file__)))

from machine import LITERAL, Disagrees, Machine, Script
from room import Wrong
from simulated import opened, opening_of, simulated
from stress import random_script

NONE = "opening ahm 0 last 0\nrows 0\noutput\n"


def sessions_in(lines):
    """The replies of each session, each a list of lines."""
    found, due = [], 0
    for line in lines:
        if due:
            found[-1][-1].append(line)
            due -= 1
        elif line.startswith("session "):
            found.append([])
        else:
            found[-1].append([line])
            due = int(line.split(" ")[2]) if line.startswith("rows ") else 0
    return found


def item(items, number):
    return items[number - 1] if items is not None and 1 <= number <= len(items) else None


def wrong_reply(script, replies, machine):
    """The first reply that is not the machine's, by session."""
    for s in range(1, max(len(script.sessions), len(replies)) + 1):
        commands, printed = item(script.sessions, s), item(replies, s)
        if commands is None or printed is None:
            return f"no reply {s} 0"
        for i in range(1, max(len(commands), len(printed)) + 1):
            wanted = machine.replies.get((s, i), ["stopped"] if machine.is_stopped else None)
            if item(commands, i) is None or item(printed, i) is None or printed[i - 1] != wanted:
                return f"no reply {s} {i}"
    return None


def verdict(text, output, before=None, mark=0):
    """What a plain fold says of an output."""
    script, lines = Script(text), output.splitlines()
    machine, cut = Machine(script, before, mark), lines.index("history")
    for number, line in enumerate(lines[cut + 1 : -1], 1):
        try:
            machine.take(line)
        except (Disagrees, LookupError, AttributeError, TypeError, ValueError):
            return f"no event {number}"
    wrong = wrong_reply(script, sessions_in(lines[:cut]), machine)
    if wrong:
        return wrong
    last = re.sub(" rowsets .*", "", lines[-1])
    numbers = f"tablet ahm {machine.a} last {machine.c}"
    return "yes" if last == "tablet stopped" or not machine.is_stopped and last == numbers else "no end"


def changed(rng, output):
    """An output with a line, a reply, a row or a number changed."""
    lines = output.splitlines()
    at = rng.randrange(len(lines))
    how = rng.randrange(6)
    if how == 0:
        del lines[at]
    elif how == 1:
        lines.insert(at, lines[rng.randrange(len(lines))])
    elif how == 2:
        other = rng.randrange(len(lines))
        lines[at], lines[other] = lines[other], lines[at]
    else:
        words = re.findall(LITERAL, lines[at])
        which = rng.randrange(len(words))
        if re.fullmatch("-?[0-9]+", words[which]):
            words[which] = str(max(0, int(words[which]) + rng.choice((-1, 1, 7))))
        elif words[which] in ("ok", "present", "absent", "ignored"):
            words[which] = rng.choice(("ok", "present", "absent", "ignored"))
        elif words[which][0] == '"':
            words[which] = '"z"'
        lines[at] = " ".join(words)
    return "".join(f"{it}\n" for it in lines)


def is_output(output):
    """Whether a text has the form of an output, as far as a fold over its lines needs it."""
    lines = output.splitlines()
    if lines.count("history") != 1 or not lines or not re.fullmatch("tablet (stopped|ahm [0-9]+ last [0-9]+ rowsets [0-9]+)", lines[-1]):
        return False
    cut = lines.index("history")
    forms = {"begin": 4, "end": 3, "look": 4, "rows": 3, "ancient": 4, "busy": 4, "mark": 3, "chore": 2, "large": 3, "stop": 0}
    for line in lines[cut + 1 : -1]:
        word, *numbers = line.split(" ")
        if forms.get(word) != len(numbers) or not all(it.isdigit() for it in numbers):
            return False
    return are_replies(lines[:cut])


def are_replies(lines):
    due, session = 0, 0
    for line in lines:
        if due:
            if not re.fullmatch(f"({LITERAL})( ({LITERAL}))*", line) or not all(is_literal(it) for it in re.findall(LITERAL, line)):
                return False
            due -= 1
        elif line == f"session {session + 1}":
            session += 1
        elif not session or not re.fullmatch(r"at \d+( (ok|present|absent|ignored))*|rows \d+ \d+|(ancient|busy) \d+ \d+|(ahm|large) \d+|done|stopped", line):
            return False
        elif line.startswith("rows "):
            due = int(line.split(" ")[2])
    return due == 0


def is_literal(word):
    return re.fullmatch(r'null|true|false|0|-?[1-9][0-9]*|x?"(?:[^"\\]|\\.)*"', word)


def answer(program, source, *words):
    ran = subprocess.run([program, "check", *words], input=source.encode("latin-1"), capture_output=True, timeout=120)
    if ran.stderr:
        raise Wrong(f"standard error is {ran.stderr}")
    return ran.returncode, ran.stdout.decode("latin-1").removesuffix("\n")


def compare(program, what, script, opening, output, other, before, mark=0):
    """Asks the checker about what became of an output, and compares what it says with the plain fold."""
    status, said = answer(program, script + opening + other)
    if is_output(other):
        wanted = verdict(script, other, before, mark)
        right = (status, said) == (0 if wanted == "yes" else 8, wanted)
    else:
        # The bytes that it shares with an output are the front of one.
        shared = len(os.path.commonprefix([output, other]))
        wanted = "check place"
        right = status == 9 and re.fullmatch("check place [0-9]+", said) and 0 <= int(said[12:]) - len(script + opening) - shared <= len(other) - shared
    if not right:
        raise Wrong(f"{what}: status {status} `{said}`, and the fold says `{wanted}`:\n{script}{opening}{other}")


def judge_changed(program, what, rng, script, opening, output, before, mark=0):
    """Has an output judged, whole and changed."""
    said = answer(program, script + opening + output)
    if said != (0, "yes"):
        raise Wrong(f"{what}: a run is answered {said}:\n{script}{opening}{output}")
    compare(program, what, script, opening, output, changed(rng, output), before, mark)


def try_runs(program, folder, seed):
    """Runs a random script in memory, and two over folders, and has each output judged."""
    rng, before = random.Random(seed), None
    sessions, commands = rng.randrange(1, 5), rng.randrange(1, 12)
    where = ["dirs", f"{folder}/LOG{seed}", f"{folder}/DATA{seed}"]
    for name in where[1:]:
        os.mkdir(name)
    for words, latest in ((["memory"], 4096 * sessions * commands), (where, 2**60), (where, 2**60)):
        script = random_script(rng, sessions, commands, latest)
        ran = subprocess.run([program, *words, "run"], input=script.encode(), capture_output=True, timeout=120)
        if ran.returncode:
            raise Wrong(f"seed {seed}: status {ran.returncode}")
        output = ran.stdout.decode("latin-1")
        over, mark = (before, before.a) if words is where and before else (None, 0)
        judge_changed(program, f"seed {seed}", rng, script, opening_of(over, mark) if over else NONE, output, over, mark)
        if words is where:
            before = replayed(script, output, before, mark)


def try_simulated(program, seed):
    """Has a simulated run judged, mostly over rows at a mark and writes above it, and sometimes one that is stopped."""
    rng, before, mark = random.Random(seed), None, 0
    sessions, commands = rng.randrange(1, 5), rng.randrange(1, 10)
    if rng.random() < 0.7:
        before, mark = opened(rng, random_script(rng, sessions, commands, 4096 * sessions * commands))
    script = random_script(rng, sessions, commands, (before.c if before else 0) + 4096 * sessions * commands)
    most = rng.randrange(200) if rng.random() < 0.2 else None
    output = simulated(rng, script, Machine(Script(script), before, mark), most)
    judge_changed(program, f"simulated {seed}", rng, script, opening_of(before, mark) if before else NONE, output, before, mark)


def replayed(script, output, before, mark):
    machine, lines = Machine(Script(script), before, mark), output.splitlines()
    for line in lines[lines.index("history") + 1 : -1]:
        machine.take(line)
    return machine


def random_runs_are_judged(room):
    """The checker says yes of runs, and of changed ones what a plain fold says."""
    for seed in range(17):
        try_runs(room.program, room.folder, seed)
    for seed in range(50):
        try_simulated(room.program, seed)


def examples_are_runs(room):
    """The checker says yes of what each example prints, and of the summary of a load that no output begins so."""
    for name in sorted(it for it in os.listdir(f"{TOP}/examples") if it.endswith(".kt")):
        with open(f"{TOP}/examples/{name}", encoding="latin-1") as it:
            script = it.read()
        status, output = room.run(["memory", "run"], script.encode("latin-1"))
        said = answer(room.program, script + NONE + output)
        wanted = (9, f"check place {len(script + NONE)}") if "\nload " in script else (0, "yes")
        if status or said != wanted:
            raise Wrong(f"{name} is answered {said}")


# A write is in the way of a scan, the mark rises past another scan, and a write needs 1,082 cells.
LARGE = f'insert 1 "{"b" * 30_000}"'
TWO = f'table\ncolumn id int64 key\ncolumn v string\nsession\ninsert 1 "a"\nscan now\nmark 4096\n{LARGE}\nsession\nscan at 4096\ninsert 1 "c"\nscan at 100\nscan at 4096\n'
LINES = [
    "begin 1 1 4096 1",
    "busy 2 1 4096 4096",
    "end 1 1 4096",
    "begin 2 2 4097 0",
    "look 1 2 8192 2",
    "end 2 2 4097",
    "rows 1 2 8192",
    "mark 1 3 4096",
    "ancient 2 3 100 4096",
    "large 1 4 1082",
    "rows 2 4 4096",
    "stop",
]
FAULTS = [
    (0, "begin 1 1 4097 1", 1),
    (1, "busy 2 1 4096 4097", 2),
    (1, "rows 2 1 4096", 2),
    (1, "begin 2 2 4097 0", 2),
    (2, "begin 2 2 4097 0", 3),
    (4, "look 1 2 8191 2", 5),
    (5, "end 2 2 4096", 6),
    (6, "rows 1 2 8191", 7),
    (7, "mark 1 3 8192", 8),
    (8, "ancient 2 3 100 0", 9),
    (9, "large 1 4 1083", 10),
    (10, "stop", 12),
]


def each_kind_of_line_is_judged(room):
    """A history with a line of each kind is a run, and with one line changed the first that is not allowed is told."""

    def said(lines, cells):
        return answer(room.program, "".join([TWO, NONE, "history\n", *(f"{it}\n" for it in lines), "tablet stopped\n"]), "--pool", str(cells))

    changes = [(said(LINES, 1024), "no reply 1 0"), (said(LINES, 1082), "no event 10")]
    changes += [(said([*LINES[:at], line, *LINES[at + 1 :]], 1024), f"no event {fault}") for at, line, fault in FAULTS]
    for found, wanted in changes:
        if found != (8, wanted):
            raise Wrong(f"the answer is {found} and not {wanted}")


# The output of an insert and a scan of the present.
ONE = 'table\ncolumn id int64 key\ncolumn v string\nsession\ninsert 1 "a"\nscan now\n'
OUTPUT = ["session 1", "at 4096 ok", "rows 8192 1", '1 "a"', "history", "begin 1 1 4096 1", "end 1 1 4096", "look 1 2 8192 2", "rows 1 2 8192", "tablet ahm 0 last 8192 rowsets 0"]
WRONG = [
    (1, 2, ["at 4096 present"], "no reply 1 1"),
    (2, 4, ["rows 8192 0"], "no reply 1 2"),
    (3, 4, ['1 "b"'], "no reply 1 2"),
    (2, 4, ["stopped"], "no reply 1 2"),
    (2, 4, [], "no reply 1 2"),
    (4, 4, ["done"], "no reply 1 3"),
    (4, 4, ["session 2"], "no reply 2 0"),
    (5, 6, ["begin 1 1 4097 1"], "no event 1"),
    (9, 10, ["tablet ahm 0 last 8193 rowsets 0"], "no end"),
]


def each_reply_is_judged(room):
    """The output of a run with one reply, line or number in place of another is told where it is not the run's."""
    for start, end, lines, wanted in WRONG:
        output = "".join(f"{it}\n" for it in [*OUTPUT[:start], *lines, *OUTPUT[end:]])
        found = answer(room.program, ONE + NONE + output)
        if found != (8, wanted):
            raise Wrong(f"the answer is {found} and not {wanted}")


# Replies and events of which the program prints some seldom, and others not yet.
OTHERS = "session 1\nbusy 4096 4096\nahm 18446744073709551615\nsession 2\nsession 3\ndone\nlarge 1026\nstopped\nhistory\nbusy 1 1 4096 4096\nmark 1 2 18446744073709551615\nchore 3 1\nlarge 3 2 1026\nstop\ntablet stopped\n"

# Texts behind an opening, and where each is at fault, if it has not the form of an output.
FORMS = [
    ("session 1\nrows 4096 0\nat 8192 ok\nat 12288 ok\nat 16384 ok\nrows 20480 3\n-7 \"minus\"\n3 \"\"\n20 \"b\"\nhistory\nlook 1 1 4096 1\nrows 1 1 4096\nbegin 1 2 8192 2\nend 1 2 8192\nbegin 1 3 12288 3\nend 1 3 12288\nbegin 1 4 16384 4\nend 1 4 16384\nlook 1 5 20480 5\nrows 1 5 20480\ntablet ahm 0 last 20480 rowsets 0\n", None),
    ("session 1\nat 4096 ok ignored absent present\nstopped\nstopped\nhistory\nbegin 1 1 4096 1\nend 1 1 4096\nbegin 1 2 8192 2\nstop\ntablet stopped\n", None),
    ("session 1\nat 4096 ok\nrows 4096 1\n1 \"a\"\nsession 2\nat 8192 ok\nahm 8192\nancient 8191 8192\nhistory\nbegin 1 1 4096 1\nend 1 1 4096\nbegin 2 1 8192 2\nend 2 1 8192\nrows 1 2 4096\nmark 2 2 8192\nancient 2 3 8191 8192\ntablet ahm 8192 last 8192 rowsets 0\n", None),
    ("session 1\nrows 8192 1\n\"a\\x00\\\"\\\\\\x7f\xff\" x\"0af0\" -128 true null\nhistory\ntablet stopped\n", None),
    (OTHERS, None),
    ("history\ntablet ahm 0 last 0 rowsets 0\n", None),
    ("", 0),
    ("history\n", 8),
    ("history\ntablet stopped", 22),
    ("history\ntablet stopped\n\n", 23),
    ("session 2\nhistory\ntablet stopped\n", 8),
    ("done\nhistory\ntablet stopped\n", 0),
    ("session 1\nat 04096 ok\nhistory\ntablet stopped\n", 14),
    ("session 1\nrows 8192 2\n1 \"a\"\nhistory\ntablet stopped\n", 28),
    ("session 1\nrows 8192 0\n1 \"a\"\nhistory\ntablet stopped\n", 22),
    ("session 1\nlarge 1026\nsession 3\nhistory\ntablet stopped\n", 29),
    ("history\nbegin 4294967296 1 1 1\ntablet stopped\n", 23),
    ("history\nstop \ntablet stopped\n", 12),
    ("history\ntablet ahm 0 last 8192\n", 30),
    ("history\ntablet stoped\n", 19),
    ("session 1\nahm 18446744073709551616\nhistory\ntablet stopped\n", 33),
    ("session 1\ndonehistory\ntablet stopped\n", 14),
    ("session 1\nrows 4096 1\n7 \"a\\x1g\"\nhistory\ntablet stopped\n", 29),
]


def texts_have_the_form_of_an_output(room):
    """A text behind an opening is judged, or the place of its first fault is told."""
    for text, place in FORMS:
        status, said = answer(room.program, ONE + NONE + text)
        if place is None:
            right = status in (0, 8)
        else:
            right = (status, said) == (9, f"check place {len(ONE + NONE) + place}")
        if not right:
            raise Wrong(f"the answer is {(status, said)}, the place {place}:\n{text}")


ALL = [random_runs_are_judged, examples_are_runs, each_kind_of_line_is_judged, each_reply_is_judged, texts_have_the_form_of_an_output]


def main():
    runs = int(sys.argv[1]) if sys.argv[1:] else 2000
    program, tried = f"{TOP}/crates/kt_main/out/kt_main", 0
    for seed in range(1000, 1000 + runs):
        if tried >= runs:
            break
        with tempfile.TemporaryDirectory(prefix="kt-judged-") as folder:
            try_runs(program, folder, seed)
        for more in range(3):
            try_simulated(program, 3 * seed + more)
        tried += 6
    print(f"tests/judged.py: {tried} runs are answered yes, and {tried} changed ones as a plain fold does")


if __name__ == "__main__":
    main()
