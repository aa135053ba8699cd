"""A folder of its own for each case, the steps of a case, and how what comes out is compared."""
import os
import re
import subprocess

from machine import Disagrees, check


class Wrong(Exception):
    """Something came out otherwise than the case says."""


def bytes_of(word):
    return word.encode("latin-1").decode("unicode_escape").encode("latin-1")


def steps_of(text):
    """Returns the steps of a case: the words of each line at the margin, and its block."""
    steps = []
    for line in text.partition("\n\n")[2].splitlines():
        if line.startswith("    "):
            steps[-1][1].append(line[4:])
        elif line:
            steps.append((line.split(), []))
    return [(words, "".join(f"{it}\n" for it in block)) for words, block in steps]


def hexadecimal(block):
    return "".join("".join(line.partition("#")[0].split()) for line in block.splitlines())


def compare(what, pattern, text, numbers):
    """Compares a text with what is wanted, in which `<name>` is a number."""
    parts, seen = re.split(r"<([a-z]+)>", pattern), set()
    for at in range(1, len(parts), 2):
        name = parts[at]
        known = re.escape(numbers[name]) if name in numbers else rf"(?P<{name}>[0-9a-f]+)"
        parts[at] = f"(?P={name})" if name in seen and name not in numbers else known
        seen.add(name)
    parts[::2] = map(re.escape, parts[::2])
    found = re.fullmatch("".join(parts), text)
    if not found:
        raise Wrong(f"{what} is\n{text}and not\n{pattern}")
    numbers.update(found.groupdict())


class Room:
    """A folder of its own for a case, with the program that it runs."""

    def __init__(self, program, folder):
        self.program, self.folder, self.numbers = program, folder, {}
        self.closed, self.streams, self.ended = [], {}, None
        for name in ("LOG", "DATA"):
            os.mkdir(self.path(name))

    def path(self, name):
        return os.path.join(self.folder, os.fsdecode(bytes_of(name)))

    def start(self, words, before=(), **streams):
        """Starts the program, by the command `before` where there is one."""
        closes = "".join(f" {it}>&-" for it in self.closed)
        shell = ["bash", "-c", f'ulimit -c 0; exec "$0" "$@"{closes}']
        how = {"stdin": subprocess.PIPE, "stdout": subprocess.PIPE, "stderr": subprocess.PIPE, **streams}
        return subprocess.Popen([*shell, *before, self.program, *map(bytes_of, words)], cwd=self.folder, **how)

    def run(self, words, script, before=(), **streams):
        """Runs the program to its end. Returns its status and its output."""
        started = self.start(words, before, **streams)
        output, errors = started.communicate(None if "stdin" in streams else script, timeout=120)
        if errors:
            raise Wrong(f"standard error is\n{errors.decode(errors='replace')}")
        return started.returncode, (output or b"").decode("latin-1")

    def step(self, words, block):
        verb, rest = words[0], words[1:]
        if verb == "file":
            with open(self.path(rest[0]), "wb") as it:
                it.write(bytes.fromhex(hexadecimal(block)))
        elif verb == "no":
            os.rmdir(self.path(rest[0]))
        elif verb == "closed":
            self.closed.append(int(rest[0]))
        elif verb in ("input", "output"):
            stream = "stdin" if verb == "input" else "stdout"
            self.streams[stream] = os.open(self.path(rest[0]), os.O_RDONLY if verb == "input" else os.O_WRONLY)
        elif verb == "run":
            script = re.sub(r"<([a-z]+)>", lambda it: self.numbers.get(it[1], it[0]), block)
            self.ended = self.run(rest, script.encode("latin-1"), **self.streams)
            for it in self.streams.values():
                os.close(it)
            self.closed, self.streams = [], {}
        elif verb == "ends":
            if self.ended[0] != int(rest[0]):
                raise Wrong(f"the status is {self.ended[0]} and not {rest[0]}; it wrote\n{self.ended[1]}")
            compare("the output", block, self.ended[1], self.numbers)
        elif verb == "holds":
            with open(self.path(rest[0]), "rb") as it:
                compare(rest[0], hexadecimal(block) + "\n", it.read().hex() + "\n", self.numbers)
        elif verb == "lists":
            names = sorted(it for it in os.listdir(self.path(rest[0])) if it != "lock")
            if names != sorted(rest[1:]):
                raise Wrong(f"{rest[0]} has {names}")
        else:
            raise Wrong(f"no step is named {verb}")


def try_case(room, text):
    for words, block in steps_of(text):
        room.step(words, block)


def try_example(room, script, output):
    room.ended = room.run(["memory", "run"], script)
    if output is not None:
        room.step(["ends", "0"], output.decode("latin-1"))
        return
    if room.ended[0]:
        raise Wrong(f"the status is {room.ended[0]}; it wrote\n{room.ended[1]}")
    try:
        check(script.decode("latin-1"), room.ended[1])
    except Disagrees as no:
        raise Wrong(f"{no}; it wrote\n{room.ended[1]}") from None
