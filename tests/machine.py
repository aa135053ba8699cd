"""A plain machine: reads a script and what a program printed of it, and says where the two disagree.

It knows nothing of how the engine works: it replays the lines of the history one by one over lists of rows, asks of each
whether it is allowed there, and compares each printed reply with its own."""
import re

CAP, MICRO = 2**50 - 1, 4096
CHORES = ("flush", "flush-deltas", "minor", "major", "compact")
LITERAL = r'x?"(?:[^"\\]|\\.)*"|[^ ]+'
OUTCOMES = {  # of an absent key, of a present one: what becomes of the row, and the word
    "insert": (("set", "ok"), (None, "present")),
    "upsert": (("set", "ok"), ("change", "ok")),
    "update": ((None, "absent"), ("change", "ok")),
    "delete": ((None, "absent"), ("drop", "ok")),
    "insert-ignore": (("set", "ok"), (None, "ignored")),
    "update-ignore": ((None, "ignored"), ("change", "ok")),
    "delete-ignore": ((None, "ignored"), ("drop", "ok")),
}


class Disagrees(Exception):
    """The output is none of a run of the script."""


def asks(holds, why):
    if not holds:
        raise Disagrees(why)


class Column:
    def __init__(self, line):
        words = re.findall(LITERAL, line)
        self.name, self.kind, self.is_key = words[1], words[2], "key" in words[3:4]
        self.default = words[words.index("default") + 1] if "default" in words else "null"


def value_of(literal):
    """A value that compares as cells of one kind do; null is none."""
    if literal == "null":
        return None
    if literal in ("true", "false"):
        return literal == "true"
    if literal.startswith('x"'):
        return bytes.fromhex(literal[2:-1])
    if literal.startswith('"'):
        text = re.sub(r'\\(x..|.)', lambda it: chr(int(it[1][1:], 16)) if it[1][0] == "x" else it[1], literal[1:-1])
        return text.encode("latin-1")
    return int(literal)


class Script:
    """The columns of a script, and the commands of each session."""

    def __init__(self, text):
        lines = text.splitlines()
        at = 1
        while at < len(lines) and lines[at].startswith("column "):
            at += 1
        self.columns = [Column(it) for it in lines[1:at]]
        self.keys = [it for it in self.columns if it.is_key]
        self.sessions = []
        for line in lines[at:]:
            if line == "session":
                self.sessions.append([])
            else:
                self.sessions[-1].append(line)

    def command(self, s, i):
        asks(1 <= s <= len(self.sessions) and 1 <= i <= len(self.sessions[s - 1]), f"session {s} has no command {i}")
        return self.sessions[s - 1][i - 1]

    def operations(self, line):
        """The operations of a write: the word, the key, and the cells that it names."""
        found, words, one = [], re.findall(LITERAL, line), []
        for word in [*words, ";"]:
            if word != ";":
                one.append(word)
                continue
            kind, rest, cells = one[0], one[1:], {}
            if kind in ("insert", "insert-ignore"):
                cells = {it.name: literal for it, literal in zip(self.columns, rest)}
            elif kind not in ("delete", "delete-ignore"):
                cells = dict(it.split("=", 1) for it in joined(rest[len(self.keys):]))
            cells.update({it.name: literal for it, literal in zip(self.keys, rest)})
            found.append((kind, tuple(rest[: len(self.keys)]), cells))
            one = []
        return found

    def shown(self, line, rows):
        """The lines of a scan over these rows."""
        wanted = re.search(r" select ([^ ]+)", line)
        names = wanted[1].split(",") if wanted else [it.name for it in self.columns]
        tests = re.search(r" where (.*)", line)
        kept = [it for it in rows.items() if passes(tests[1] if tests else "", it[1])]
        return [" ".join(row[it] for it in names) for _, row in sorted(kept, key=lambda it: tuple(map(value_of, it[0])))]


def joined(words):
    """The words NAME=LIT, put together again where a literal has a blank."""
    found = []
    for word in words:
        if re.match(r"\w+=", word):
            found.append(word)
        else:
            found[-1] += f" {word}"
    return found


def passes(tests, row):
    for test in re.findall(r'(\w+)(=|<=|>=|<|>| is not null| is null)(x?"(?:[^"\\]|\\.)*"|[^ ]*)', tests):
        name, sign, literal = test
        if name == "and":
            continue
        cell = value_of(row[name])
        if sign.startswith(" is"):
            if (cell is None) != (sign == " is null"):
                return False
            continue
        other = value_of(literal)
        if cell is None or not {"=": cell == other, "<": cell < other, "<=": cell <= other, ">": cell > other, ">=": cell >= other}[sign]:
            return False
    return True


class Machine:
    """The tablet machine over the lines of a history."""

    def __init__(self, script, before=None, mark=0):
        self.script, self.a = script, mark
        # of each key its rows by rising timestamp
        self.past = {key: list(rows) for key, rows in before.past.items()} if before else {}
        self.c = before.c if before else 0
        self.flying, self.replies, self.is_stopped = {}, {}, False
        self.next = {s: (1, None) for s in range(1, len(script.sessions) + 1)}

    def row_at(self, key, t):
        return next((row for ts, row in reversed(self.past.get(key, [])) if ts <= t), None)

    def rows_at(self, t):
        found = {key: self.row_at(key, t) for key in self.past}
        return {key: row for key, row in found.items() if row is not None}

    def least(self):
        return min((ts for _, ts, _, _ in self.flying.values()), default=None)

    def drawn(self, m):
        return max(self.c + 1, min(m, CAP) * MICRO)

    def reply(self, s, i, lines):
        self.replies[s, i] = lines
        self.next[s] = (i + 1, None)

    def turn(self, s, i, look=None):
        asks(self.next.get(s) == (i, look) and s not in self.flying, f"command {i} of session {s} is not the next, or its write flies")
        return self.script.command(s, i)

    def take(self, line):
        """Replays one line."""
        asks(not self.is_stopped, f"a line behind `stop`: {line}")
        word, *rest = line.split(" ")
        getattr(self, f"take_{word}")(*map(int, rest))

    def take_begin(self, s, i, ts, m):
        operations = self.script.operations(self.turn(s, i))
        keys = {key for _, key, _ in operations}
        for other, (_, _, held, _) in self.flying.items():
            asks(not keys & held, f"write {i} of session {s} began beside the one of session {other} on its key")
        asks(ts == self.drawn(m), f"write {i} of session {s} has the timestamp {ts}")
        words = []
        for kind, key, cells in operations:
            before = self.row_at(key, ts - 1)
            what, word = OUTCOMES[kind][before is not None]
            words.append(word)
            if what == "set":
                filled = {it.name: cells.get(it.name, it.default) for it in self.script.columns}
                self.past.setdefault(key, []).append((ts, filled))
            elif what == "change":
                self.past[key].append((ts, {**before, **cells}))
            elif what == "drop":
                self.past[key].append((ts, None))
        self.c = ts
        self.flying[s] = (i, ts, keys, words)

    def take_end(self, s, i, ts):
        asks(s in self.flying and self.flying[s][:2] == (i, ts), f"write {i} of session {s} does not fly")
        words = self.flying.pop(s)[3]
        self.reply(s, i, [" ".join(["at", str(ts), *words])])

    def take_look(self, s, i, t, m):
        asks(self.turn(s, i).startswith("scan now"), f"command {i} of session {s} is no scan of the present")
        asks(t == self.drawn(m), f"scan {i} of session {s} drew {t}")
        self.c, self.next[s] = t, (i, t)

    def scan(self, s, i, t):
        """The line of the scan that may be answered at t."""
        line = self.script.command(s, i)
        if line.startswith("scan now"):
            return self.turn(s, i, t)
        asks(re.match(r"scan at (\d+)", line) and re.match(r"scan at (\d+)", line)[1] == str(t), f"command {i} of session {s} is no scan at {t}")
        return self.turn(s, i)

    def take_rows(self, s, i, t):
        line = self.scan(s, i, t)
        asks(self.a <= t and (self.least() is None or t < self.least()), f"scan {i} of session {s} was answered at {t} too early")
        shown = self.script.shown(line, self.rows_at(t))
        self.c = max(self.c, t)
        self.reply(s, i, [f"rows {t} {len(shown)}", *shown])

    def take_ancient(self, s, i, t, a):
        self.scan(s, i, t)
        asks(t < a and a == self.a, f"scan {i} of session {s} was told of the mark {a}")
        self.reply(s, i, [f"ancient {t} {a}"])

    def take_busy(self, s, i, t, f):
        asks(self.turn(s, i).startswith("scan at"), f"command {i} of session {s} is no scan of the past")
        self.scan(s, i, t)
        asks(t >= self.a and f == self.least() and f <= t, f"scan {i} of session {s} was told that {f} flies")
        self.reply(s, i, [f"busy {t} {f}"])

    def take_mark(self, s, i, a):
        line = self.turn(s, i)
        asks(line.startswith("mark "), f"command {i} of session {s} is no mark")
        clean = self.c if self.least() is None else self.least() - 1
        asks(a == max(self.a, min(int(line[5:]), clean)), f"mark {i} of session {s} left {a}")
        self.a = a
        self.reply(s, i, [f"ahm {a}"])

    def take_chore(self, s, i):
        asks(self.turn(s, i) in CHORES, f"command {i} of session {s} is no maintenance")
        self.reply(s, i, ["done"])

    def take_large(self, s, i, n):
        """A write that needs more cells than the pool has. How many these are is not counted here."""
        line = self.turn(s, i)
        asks(line not in CHORES and not re.match("scan |mark ", line), f"command {i} of session {s} is no write")
        self.reply(s, i, [f"large {n}"])

    def take_stop(self):
        self.is_stopped = True


def check(script_text, output, before=None):
    """Replays what was printed, over what the machine of an earlier run left, its mark too. Returns the machine at its end. How many disk rowsets
    there are it cannot tell."""
    script, lines = Script(script_text), output.splitlines()
    machine, cut = Machine(script, before, before.a if before else 0), lines.index("history")
    for line in lines[cut + 1 : -1]:
        machine.take(line)
    wanted = []
    for s, commands in enumerate(script.sessions, 1):
        wanted.append(f"session {s}")
        for i in range(1, len(commands) + 1):
            asks(machine.is_stopped or (s, i) in machine.replies, f"command {i} of session {s} was not answered")
            wanted += machine.replies.get((s, i), ["stopped"])
    for at, (one, other) in enumerate(zip(wanted, lines[:cut])):
        asks(one == other, f"line {at + 1} of the output is `{other}`, and the machine has `{one}`")
    asks(len(wanted) == cut, f"{cut} lines of replies, and the machine has {len(wanted)}")
    last = "tablet stopped" if machine.is_stopped else f"tablet ahm {machine.a} last {machine.c} rowsets"
    asks(re.sub(r" \d+$", "", lines[-1]) == last if not machine.is_stopped else lines[-1] == last, f"the last line is `{lines[-1]}` and not `{last}`")
    return machine
