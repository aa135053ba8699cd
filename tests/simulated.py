"""Random histories over a plain machine, the openings that they leave, and what is printed of a run."""
from machine import Machine, Script


def scan_line(machine, s, i, t, waits):
    """The line that answers a scan at a time, or none where it has to wait."""
    if t < machine.a:
        return f"ancient {s} {i} {t} {machine.a}"
    least = machine.least()
    if least is None or t < least:
        return f"rows {s} {i} {t}"
    return None if waits else f"busy {s} {i} {t} {least}"


def next_line(machine, s, reading):
    """The line with which a session may go on at a reading of the clock, or none."""
    if s in machine.flying:
        i, ts, _, _ = machine.flying[s]
        return f"end {s} {i} {ts}"
    i, look = machine.next[s]
    if i > len(machine.script.sessions[s - 1]):
        return None
    if look is not None:
        return scan_line(machine, s, i, look, True)
    command = machine.script.command(s, i)
    if command.startswith("scan now"):
        return f"look {s} {i} {machine.drawn(reading)} {reading}"
    if command.startswith("scan at "):
        return scan_line(machine, s, i, int(command.split(" ")[2]), False)
    if command.startswith("mark "):
        clean = machine.c if machine.least() is None else machine.least() - 1
        return f"mark {s} {i} {max(machine.a, min(int(command[5:]), clean))}"
    keys = {key for _, key, _ in machine.script.operations(command)}
    if any(keys & held for _, _, held, _ in machine.flying.values()):
        return None
    return f"begin {s} {i} {machine.drawn(reading)} {reading}"


def simulated(rng, script, machine, most=None):
    """The output of a random run of a script, of which a stop ends the history after so many lines."""
    history, reading = [], rng.randrange(1, 50)
    while most is None or len(history) < most:
        reading += rng.randrange(3)
        lines = [it for it in (next_line(machine, s, reading) for s in machine.next) if it]
        if not lines:
            break
        history.append(rng.choice(lines))
        machine.take(history[-1])
    if most is not None:
        history.append("stop")
        machine.take("stop")
    return "".join(f"{it}\n" for it in [*replies_of(machine), "history", *history, last_line(rng, machine)])


def replies_of(machine):
    found = []
    for s, commands in enumerate(machine.script.sessions, 1):
        found.append(f"session {s}")
        for i in range(1, len(commands) + 1):
            found += machine.replies.get((s, i), ["stopped"])
    return found


def last_line(rng, machine):
    if machine.is_stopped:
        return "tablet stopped"
    return f"tablet ahm {machine.a} last {machine.c} rowsets {rng.randrange(3)}"


def change_of(columns, key, before, after):
    """The line of a change from one row of a key to another."""
    if after is None:
        return "del " + " ".join(key)
    if before is None:
        return "ins " + " ".join(after[it.name] for it in columns)
    return " ".join(["upd", *key, *(f"{it.name}={after[it.name]}" for it in columns if not it.is_key)])


def opening_of(machine, mark=0):
    """The opening at a mark that a machine leaves, over one whole number as key, and with every write above the mark."""
    columns, writes = machine.script.columns, {}
    rows = sorted((int(key[0]), " ".join(row[it.name] for it in columns)) for key, row in machine.rows_at(mark).items())
    for key, versions in machine.past.items():
        for (_, before), (ts, after) in zip([(0, None), *versions], versions):
            if ts > mark:
                writes.setdefault(ts, []).append((int(key[0]), change_of(columns, key, before, after)))
    lines = [f"opening ahm {mark} last {machine.c}", f"rows {len(rows)}", *(line for _, line in rows)]
    for ts, changes in sorted(writes.items()):
        lines += [f"write {ts} {len(changes)}", *(line for _, line in sorted(changes))]
    return "".join(f"{it}\n" for it in [*lines, "output"])


def opened(rng, text):
    """The machine behind a random run of a script, and a mark at which it may be opened again."""
    machine = Machine(Script(text))
    simulated(rng, text, machine)
    return machine, rng.choice((machine.a, rng.randrange(machine.c + 1)))
