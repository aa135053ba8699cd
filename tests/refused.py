"""The texts of tests/refused.txt: which are taken, and the line and the reason of each that is refused.

A section begins with `# what it shows` and a line `below TEXT`; each row is `LINE REASON TEXT`, and the program is given
the text below the first. `0 0` is a text that is taken. `\\n` is a newline, `\\xNN` a byte; `{N:TEXT}` is so many copies,
and `{#A..B:TEXT}` one for each number, with the number in the place of `#`.
"""
import os
import re
import subprocess

HERE = os.path.dirname(os.path.realpath(__file__))


def expand(text):
    """Returns the text with its copies written out."""
    out, at = [], 0
    while at < len(text):
        if text[at] != "{":
            out.append(text[at])
            at += 1
            continue
        end, depth = at + 1, 1
        while depth:
            depth += {"{": 1, "}": -1}.get(text[end], 0)
            end += 1
        count, what = text[at + 1:end - 1].split(":", 1)
        what = expand(what)
        if count.startswith("#"):
            first, last = map(int, count[1:].split(".."))
            out += [what.replace("#", str(n)) for n in range(first, last + 1)]
        else:
            out.append(what * int(count))
        at = end
    return "".join(out)


def bytes_of(text):
    """Returns the bytes that an escaped text says."""
    named = {"n": "\n", "\\": "\\"}
    plain = re.sub(r"\\(x[0-9a-f]{2}|.)", lambda m: named.get(m[1]) or chr(int(m[1][1:], 16)), expand(text))
    return plain.encode("latin-1")


def rows():
    """Returns what each row shows, its text, and the line that the program prints, or none where it is taken."""
    shows, below = "", b""
    with open(f"{HERE}/refused.txt", encoding="latin-1", newline="\n") as it:
        for line in it.read().split("\n"):
            if line.startswith("# "):
                shows = line[2:]
            elif line.startswith("below "):
                below = bytes_of(line[6:])
            elif line:
                number, reason, text = line.split(" ", 2)
                refusal = f"script line {number} reason {reason}\n".encode() if reason != "0" else None
                yield f"{shows}: {line[:60]}", below + bytes_of(text), refusal


def wrong(program):
    """Returns the rows of which the program says something else, and how many rows there are."""
    found, many = [], 0
    for name, text, refusal in rows():
        many += 1
        try:
            ended = subprocess.run([program, "memory", "run"], input=text, capture_output=True, timeout=240)
        except subprocess.TimeoutExpired:
            found.append(f"{name}: it did not end in 240 seconds")
            continue
        if refusal is None and ended.returncode != 0:
            found.append(f"{name}: refused, {ended.stdout[:60]!r}")
        elif refusal is not None and (ended.returncode, ended.stdout) != (2, refusal):
            found.append(f"{name}: {ended.returncode} {ended.stdout[:60]!r}")
    return found, many
