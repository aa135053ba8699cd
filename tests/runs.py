"""What takes two programs, a killed one, or its system calls."""
import fcntl
import os
import random
import re
import shutil
import signal
import subprocess
import time

from machine import Disagrees, check
from room import Wrong
from stress import random_script, tries

TOP = os.path.dirname(os.path.dirname(os.path.realpath(__file__)))

TABLE = "table\ncolumn id int64 key\ncolumn v string\nsession\n"
FOLDERS = ["dirs", "LOG", "DATA", "run"]


def script(*lines):
    return (TABLE + "".join(f"{it}\n" for it in lines)).encode()


def wants(holds, why):
    if not holds:
        raise Wrong(why)


def ids_in(room):
    """Opens the log, and returns the ids of the rows that it holds."""
    status, output = room.run(FOLDERS, script("scan now"))
    wants(status == 0, f"the log does not open: status {status}, {output}")
    return [int(it) for it in re.findall(r'^(\d+) "', output, re.M)]


def has_strace():
    """Whether strace is here: it is fetched where it can be."""
    if not shutil.which("strace") and shutil.which("apt-get"):
        subprocess.run(["apt-get", "install", "-y", "strace"], stdin=subprocess.DEVNULL, capture_output=True)
    if not shutil.which("strace"):
        print("tests/check: left out, since there is no strace to be had: what watches system calls", flush=True)
    return shutil.which("strace")


def traced(room, *words):
    return ["strace", "-qq", "-y", "-o", room.path("trace"), *words]


def calls_of(room):
    with open(room.path("trace"), encoding="latin-1") as it:
        return it.read().splitlines()


def is_locked(file):
    """Whether some program has a lock on a file."""
    if not os.path.exists(file):
        return False
    with open("/proc/locks", encoding="ascii") as it:
        return re.search(rf" FLOCK .*:{os.stat(file).st_ino} ", it.read())


def a_second_program_stops(room):
    """While a program runs, another one on either of its folders stops, and changes nothing."""
    room.run(FOLDERS, script('insert 1 "a"'))
    os.mkdir(room.path("OTHER"))
    with open(room.path("LOG/f1"), "rb") as it:
        before = it.read()
    first = room.start(FOLDERS)
    for _ in range(600):
        if is_locked(room.path("DATA/lock")):
            break
        time.sleep(0.1)
    for words in (FOLDERS, ["dirs", "LOG", "OTHER", "run"], ["dirs", "OTHER", "DATA", "run"]):
        ended = room.run(words, script('insert 2 "b"'))
        wants(ended == (4, "stopped opening\n"), f"beside another program {words} gave {ended}")
    with open(room.path("LOG/f1"), "rb") as it:
        wants(it.read() == before, "the second program changed the log")
    output, errors = first.communicate(script('insert 3 "c"'), timeout=120)
    wants(first.returncode == 0 and not errors, f"the first program ended with {first.returncode}: {errors} {output}")
    wants(ids_in(room) == [1, 3], "the first program's rows are not there")


def the_folder_is_synced_at_each_opening(room):
    """Killed between making the log's file and syncing its folder, the next run syncs the folder before it answers."""
    if not has_strace():
        return
    kills = traced(room, "-e", "trace=fsync", "-e", "inject=fsync:error=EIO:signal=KILL:when=3")
    killed = room.start(FOLDERS, kills)
    killed.communicate(script('insert 1 "a"'), timeout=120)
    wants(killed.returncode == -signal.SIGKILL, f"the first run ended with {killed.returncode}")
    calls = [it for it in calls_of(room) if it.startswith("fsync")]
    wants([re.search(r"/(\w+(/f\d)?)>", it)[1] for it in calls] == ["DATA", "LOG/f1", "LOG"], f"the first run synced {calls}")
    wants(os.path.exists(room.path("LOG/f1")), "the first run made no file")
    status, output = room.run(FOLDERS, script('insert 2 "b"'), traced(room, "-e", "trace=fsync,write"))
    wants(status == 0, f"the second run ended with {status}: {output}")
    calls = calls_of(room)
    synced = [at for at, it in enumerate(calls) if re.match(r"fsync\(\d+<[^>]*/LOG>\) += 0", it)]
    told = [at for at, it in enumerate(calls) if it.startswith("write(1<")]
    wants(synced and told and synced[0] < told[0], "the second run did not sync the folder before it answered")
    wants(ids_in(room) == [2], "the second run's row is not there")


def a_signal_interrupts_a_stream(room):
    """Reads and writes that signals interrupt are made again, but not for ever."""
    if not has_strace():
        return
    given, taken = room.path("given"), room.path("taken")
    with open(given, "wb") as it:
        it.write(script('insert 1 "a"'))
    for reads, writes, wanted in (("1..9", "1..9", 0), ("1+", "1..9", 5), ("1..9", "1+", 6)):
        injects = ["-e", f"inject=read:error=EINTR:when={reads}", "-e", f"inject=write:error=EINTR:when={writes}"]
        before = traced(room, "-P", given, "-P", taken, "-e", "trace=read,write", *injects)
        with open(given, "rb") as source, open(taken, "wb") as sink:
            status, _ = room.run(["memory", "run"], b"", before, stdin=source, stdout=sink)
        wants(status == wanted, f"with reads {reads} and writes {writes} interrupted the status is {status}")
        with open(taken, "rb") as it:
            wants(it.read().startswith(b"session 1\nat 4096 ok\n") == (status == 0), "the output is another")


def rows_outlive_a_kill(room):
    """A run that is killed leaves a front of its writes, and each write that was printed."""
    many = script(*(f'insert {at} "a"' for at in range(1, 151)))
    for least in (1, 5_000):
        started = room.start(FOLDERS)
        started.stdin.write(many)
        started.stdin.close()
        for _ in range(3000):
            if os.path.exists(room.path("LOG/f1")) and os.path.getsize(room.path("LOG/f1")) > least:
                break
            time.sleep(0.01)
        started.kill()
        started.wait()
        started.stdout.close(), started.stderr.close()
        found = ids_in(room)
        wants(found == list(range(1, len(found) + 1)), f"a killed run left the rows {found}")
    # The pipe is too short for all that the program prints, so it is killed while it prints.
    started = room.start(FOLDERS)
    fcntl.fcntl(started.stdout, fcntl.F_SETPIPE_SZ, 4096)
    started.stdin.write(many)
    started.stdin.close()
    printed = os.read(started.stdout.fileno(), 1)
    started.kill()
    printed += started.stdout.read()
    started.wait()
    started.stdout.close(), started.stderr.close()
    acknowledged = printed.decode().count(" ok\n") + printed.decode().count(" present\n")
    wants(acknowledged > 100, f"only {acknowledged} writes were printed before the pipe was full")
    wants(b"tablet" not in printed, "the program ended before it was killed")
    wants(ids_in(room) == list(range(1, 151)), "a printed write is not there")


def a_device_that_fails_stops_the_run(room):
    """Where the log may not grow any further the run stops, and each write that was answered is there."""
    limits = ["bash", "-c", 'trap "" XFSZ; ulimit -f 1; exec "$0" "$@"']
    status, output = room.run(FOLDERS, script(*(f'insert {at} "a"' for at in range(1, 101))), limits)
    wants(status == 4 and output.endswith("\nstop\ntablet stopped\n"), f"it ended with {status}: {output}")
    answered, found = output.count(" ok\n"), ids_in(room)
    wants(0 < answered < 100 and answered <= len(found), f"{answered} were answered, and there are {found}")
    wants(found == list(range(1, len(found) + 1)), f"the log has {found}")


def keys_in_any_order_are_written_in_time(room):
    """A tree of keys stays flat: 100,000 keys that rise, fall or come in no order are written in a second, not in minutes."""
    orders = [range(100_000), range(100_000, 0, -1), [at * 2_654_435_761 % 2**32 for at in range(100_000)]]
    for ids in orders:
        writes = (" ; ".join(f'insert {it} ""' for it in ids[at : at + 64]) for at in range(0, len(ids), 64))
        begun = time.monotonic()
        status, _ = room.run(["memory", "run"], script(*writes))
        wants(status == 0 and time.monotonic() - begun < 10, f"status {status} after {time.monotonic() - begun:.0f} seconds")


def sessions_share_keys(room):
    """Sixteen sessions write and read the same keys, and a plain machine takes each line and each reply."""
    for seed in range(4):
        try:
            tries(room.program, room.folder, seed, 16, 10)
        except Disagrees as no:
            raise Wrong(str(no)) from None


def kinds_in(script, output):
    """Which kinds of answers a run gives: some of them only where sessions run side by side."""
    found, flying, lines = set(), set(), script.splitlines()
    starts = [at for at, line in enumerate(lines) if line == "session"]
    for line in output.splitlines():
        word, *numbers = line.split(" ")
        if word == "begin":
            found.add("beside another write" if flying else "begin")
            flying.add(numbers[0])
        elif word == "end":
            flying.discard(numbers[0])
        elif word in ("rows", "mark") and len(numbers) == 3 and flying:
            found.add(f"{word} beside a write")
        elif word in ("busy", "ancient", "large") and len(numbers) > 2:
            found.add(word)
        if word == "mark" and int(numbers[2]) < int(lines[starts[int(numbers[0]) - 1] + int(numbers[1])].split(" ")[1]):
            found.add("a mark that is held")
        found |= {it for it in ("absent", "present", "ignored") if word == "at" and it in numbers}
    return found


def answers_of_each_kind_are_given(room):
    """Sessions that run side by side are given each kind of answer, and a plain machine takes each line and each reply."""
    wanted = {
        "begin", "beside another write", "rows beside a write", "mark beside a write", "busy", "ancient", "large", "a mark that is held",
        "absent", "present", "ignored",
    }
    found = set()
    for seed in range(400):
        script = random_script(random.Random(seed), 16, 30, 4096 * 400) + f'upsert 1 v="{"a" * 40_000}"\n'
        status, output = room.run(["memory", "run", "--pool", "1024"], script.encode())
        wants(status == 0, f"seed {seed}: status {status}")
        try:
            check(script, output)
        except Disagrees as no:
            raise Wrong(f"seed {seed}: {no}") from None
        found |= kinds_in(script, output)
        if found >= wanted:
            return
    raise Wrong(f"not given: {wanted - found}")


def timestamp_at(date):
    """What the line of docs/SCRIPT.md gives for a date."""
    with open(f"{TOP}/docs/SCRIPT.md", encoding="utf-8") as it:
        line = re.search(r"^    (echo \$\(\(.*'(.*)'.*)$", it.read(), re.M)
    ran = subprocess.run(["bash", "-c", line[1].replace(line[2], date)], capture_output=True, check=True)
    return int(ran.stdout)


def the_clock_counts_from_2020(room):
    """A write's timestamp lies between the dates before and after its run, and a scan at a date shows what was there then."""
    wants(timestamp_at("2020-01-01 00:00:01Z") == 4096 * 10**6, "the formula is another")
    before = timestamp_at("now")
    status, output = room.run(FOLDERS, script('insert 1 "a"'))
    after = timestamp_at("now")
    at = int(re.search(r"^at (\d+) ok$", output, re.M)[1])
    wants(before - 4096 * 10**6 <= at <= after + 4096 * 10**6, f"{at} is not from {before} to {after}")
    ran = subprocess.run([f"{TOP}/examples/past.sh"], capture_output=True, env={**os.environ, "KT": room.program})
    wants(ran.returncode == 0 and not ran.stderr, f"examples/past.sh ended with {ran.returncode}: {ran.stderr}")
    wants(re.fullmatch(rb'rows (\d+) 1\n1 "before"\n', ran.stdout), f"examples/past.sh printed {ran.stdout}")


def memory_is_refused_at_the_words(room):
    """Want of memory for the words ends with status 7, and nothing is printed."""
    ended = room.run(["memory", "run", *["ab"] * 100_000], b"", ["prlimit", "--as=20000000"])
    wants(ended == (7, ""), f"without memory it gave {ended}")


def kt_passes_on_what_it_is_given(room):
    """The script kt runs the program that is built, with its words, its input and its status."""
    kt = f"{TOP}/kt"
    if room.program != f"{TOP}/crates/kt_main/out/kt_main":
        return
    for words, given, wanted in ((["walk"], b"", 1), (["memory", "run"], b"", 2), (["memory", "run"], TABLE.encode(), 0)):
        ran = subprocess.run([kt, *words], input=given, capture_output=True)
        wants(ran.returncode == wanted and ran.stdout and not ran.stderr, f"kt {words} ended with {ran}")
    for words in ([], ["--help"]):
        ran = subprocess.run([kt, *words], capture_output=True)
        wants(ran.returncode == 0 and b"./kt build" in ran.stdout and not ran.stderr, f"kt {words} ended with {ran}")


ALL = [
    a_second_program_stops,
    the_folder_is_synced_at_each_opening,
    a_signal_interrupts_a_stream,
    rows_outlive_a_kill,
    a_device_that_fails_stops_the_run,
    keys_in_any_order_are_written_in_time,
    sessions_share_keys,
    answers_of_each_kind_are_given,
    the_clock_counts_from_2020,
    memory_is_refused_at_the_words,
    kt_passes_on_what_it_is_given,
]
