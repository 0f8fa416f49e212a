#!/usr/bin/env python3
"""tools/hostile.py: the built program under hostile conditions, on this machine. It proves nothing.

Each of the tries below prints how many cases it had, how many went wrong, and what it saw; the last line is 'N passed, M failed'. A try whose tool is
missing says so and is left out. `tools/hostile.py NAME..` makes the named tries alone. All take some minutes, so the gate does not make them:
docs/RELIABILITY.md has what they gave.

After each fault the file is judged in one way: a second `load` of the same messages, with nothing failing, answers `E5 STALE` to just those
that the file had kept; these are the first ones, with each whose `OK` was written and at most one more; and the file is then, byte for byte,
what a run without faults leaves.
"""
import contextlib
import os
import random
import shutil
import signal
import subprocess
import sys
import tempfile
import time

TOP = os.path.dirname(os.path.dirname(os.path.abspath(__file__)))
PROGRAM = os.environ.get("BGT", f"{TOP}/crates/bgt/out/bgt")
# The calls of the system that `load` makes.
CALLS = ["openat", "lseek", "read", "write", "fsync", "flock", "fstat", "statx"]
ERRORS = ["EIO", "ENOSPC", "EINTR"]


def read(path):
    with open(path, "rb") as it:
        return it.read()


def write(path, data):
    with open(path, "wb") as it:
        it.write(data)


def run(words, data=b"", before=(), limit=None):
    """What the program writes on these words and input, and its status."""
    with tempfile.TemporaryFile() as source, tempfile.TemporaryFile() as sink:
        source.write(data)
        source.seek(0)
        ran = subprocess.run([*before, PROGRAM, *words], stdin=source, stdout=sink, stderr=subprocess.DEVNULL, preexec_fn=limit, timeout=600)
        sink.seek(0)
        return sink.read(), ran.returncode


# A small process that starts the program: what a large one starts counts the starter's memory as its own.
STARTER = "import os, resource, subprocess, sys; it = subprocess.run(sys.argv[2:]); open(sys.argv[1], 'w').write(str(resource.getrusage(resource.RUSAGE_CHILDREN).ru_maxrss // 1024)); sys.exit(it.returncode)"


def small(number):
    """A message that changes nothing: a holder and a moment."""
    minutes, seconds = divmod(number, 60)
    hours, minutes = divmod(minutes, 60)
    return b"BERICHT G0001 2024-01-01T%02d:%02d:%02d\nEINDE\n" % (hours, minutes, seconds)


class Street:
    """Three messages, and the file that they make."""

    def __init__(self, folder):
        self.folder = folder
        self.messages = read(f"{TOP}/examples/street.txt")
        self.whole = self.after(f"{folder}/whole")

    def after(self, path):
        run(["load", path], self.messages)
        return read(path)

    def is_well_again(self, path, kept):
        """Whether a second run finds just so many messages, and makes the file whole."""
        again = run(["load", path], self.messages)[0]
        return again.count(b" E5 STALE ") == kept and again.count(b" OK\n") == 3 - kept and read(path) == self.whole

    def is_well(self, path, told):
        """Whether a second run finds what it may find, and makes the file whole."""
        kept = told.count(b" OK\n")
        again = run(["load", path], self.messages)[0]
        stale, taken = again.count(b" E5 STALE "), again.count(b" OK\n")
        return stale + taken == 3 and kept <= stale <= kept + 1 and read(path) == self.whole


def count(name, cases, wrong, seen=""):
    for each in wrong[:5]:
        print(f"  {name}: wrong: {each}")
    print(f"{name}: {cases} cases, {len(wrong)} wrong{'; ' + seen if seen else ''}", flush=True)
    return cases - len(wrong), len(wrong)


def failing_calls(street):
    """Every call of the system fails in turn, with each of three errors."""
    cases, wrong, seen = 0, [], {}
    for call in CALLS:
        for error in ERRORS:
            number = 0
            while True:
                number += 1
                path = f"{street.folder}/{call}{error}{number}"
                tracer = ["strace", "-qq", "-o", f"{path}.trace", "-e", f"trace={call}", "-e", f"inject={call}:error={error}:when={number}"]
                told, status = run(["load", path], street.messages, tracer)
                if b"INJECTED" not in read(f"{path}.trace"):
                    break
                cases += 1
                seen[status] = seen.get(status, 0) + 1
                if not os.path.exists(path):
                    write(path, b"")
                if status not in (0, 1, 3, 4, 5, 7, 127) or not street.is_well(path, told):
                    wrong.append((call, error, number, status))
    return count("a call of the system fails", cases, wrong, f"statuses {dict(sorted(seen.items()))}")


def small_memory(street):
    """Address space of so many kilobytes: the run begins, and some growth is refused."""
    import resource

    cases, wrong, seen = 0, [], {}
    for kilobytes in range(1024, 16 * 1024, 32):
        path = f"{street.folder}/memory{kilobytes}"
        limit = lambda: resource.setrlimit(resource.RLIMIT_AS, (kilobytes << 10, kilobytes << 10))
        try:
            told, status = run(["load", path], street.messages, limit=limit)
        except subprocess.SubprocessError:
            continue
        if not os.path.exists(path):
            write(path, b"")
        cases += 1
        seen[status] = seen.get(status, 0) + 1
        if status not in (0, 7, 127, -11, -6, -9) and not told or not street.is_well(path, told):
            wrong.append((kilobytes, status))
    return count("little memory", cases, wrong, f"statuses {dict(sorted(seen.items()))}; below 0 or 127 the system did not start the program")


# Memory of which the Nth growth is refused (REFUSE=N), or each from the Nth on (REFUSE=N..), or each between a write to a file and the next
# one to standard output (REFUSE=written). It tells how many growths were asked for, and how many of them between such writes.
REFUSER = r"""
#include <fcntl.h>
#include <stdio.h>
#include <stdlib.h>
#include <sys/syscall.h>
#include <unistd.h>
extern void *__libc_malloc(size_t);
extern void *__libc_realloc(void *, size_t);
static long asked, first, between;
static int later, when_written, written;
static int is_refused(void) {
    asked++;
    between += written;
    return asked == first || (later && asked > first) || (when_written && written);
}
void *malloc(size_t size) { return is_refused() ? NULL : __libc_malloc(size); }
void *realloc(void *at, size_t size) { return is_refused() ? NULL : __libc_realloc(at, size); }
ssize_t write(int file, const void *bytes, size_t size) {
    written = file > 2;
    return syscall(SYS_write, file, bytes, size);
}
ssize_t __write(int file, const void *bytes, size_t size) { return write(file, bytes, size); }
__attribute__((constructor)) static void begin(void) {
    char *end;
    first = strtol(getenv("REFUSE"), &end, 10);
    later = *end == '.';
    when_written = *end == 'w';
    asked = between = 0;
}
__attribute__((destructor)) static void tell(void) {
    char text[64];
    int size = snprintf(text, sizeof text, "%ld %ld", asked, between), file = open(getenv("ASKED"), O_WRONLY | O_CREAT | O_TRUNC, 0600);
    if (syscall(SYS_write, file, text, size) != size) _exit(99);
}
"""


class Refuser:
    """Runs in which growths of memory are refused."""

    def __init__(self, folder):
        self.library, self.said = f"{folder}/refuser.so", f"{folder}/asked"
        write(f"{folder}/refuser.c", REFUSER.encode())
        subprocess.run(["cc", "-shared", "-fPIC", "-O1", "-o", self.library, f"{folder}/refuser.c"], check=True)

    def run(self, words, data, which):
        """What the program writes, its status, how many growths it asked for, and how many of them after it began a record."""
        told, status = run(words, data, ["env", f"LD_PRELOAD={self.library}", f"REFUSE={which}", f"ASKED={self.said}"])
        return told, status, *map(int, read(self.said).split())


def refused_growths(street):
    """Each growth of memory in a load of three messages is refused, alone and with all later ones: the lines of some of the messages
    and status 7, with a file of just these, byte for byte; or the full answer."""
    refuser = Refuser(street.folder)
    texts = [text + b"EINDE\n" for text in street.messages.split(b"EINDE\n")[:-1]]
    files = []
    for kept in range(len(texts) + 1):
        run(["load", f"{street.folder}/kept{kept}"], b"".join(texts[:kept]))
        files.append(read(f"{street.folder}/kept{kept}"))
    cases, wrong, seen = 0, [], {}
    for behind in ("", ".."):
        number = asked = 0
        while number <= asked:
            number += 1
            path = f"{street.folder}/refused{number}{behind}"
            told, status, asked, _ = refuser.run(["load", path], street.messages, f"{number}{behind}")
            data = read(path) if os.path.exists(path) else b""
            kept = told.count(b"\n")
            well = told == b"".join(b"%d OK\n" % (k + 1) for k in range(kept)) and (data == files[kept] or kept == 0 and data == b"")
            well = well and (status == 7 or status == 0 and kept == len(texts)) and street.is_well_again(path, kept)
            if number <= asked:
                cases += 1
                seen[status] = seen.get(status, 0) + 1
            if not well:
                wrong.append((f"{number}{behind}", status, told))
    return count("a growth is refused", cases, wrong, f"statuses {dict(sorted(seen.items()))}")


def refused_when_written(street):
    """From the first write of a record on each growth is refused, until its reply is written: none is asked for, and the run is as one
    with memory. The file has the first message already, since a new file is written before a message is read."""
    refuser = Refuser(street.folder)
    first = street.messages.split(b"EINDE\n")[0] + b"EINDE\n"
    ended = []
    for which in ("0", "written"):
        path = f"{street.folder}/written{which}"
        run(["load", path], first)
        ended.append((*refuser.run(["load", path], street.messages, which), read(path)))
    well = ended[0] == ended[1] and ended[0][3] == 0 and ended[0][0].count(b" OK\n") == 2 and ended[0][4] == street.whole
    return count("growths are refused once a record is begun", 2, [] if well else ended, f"{ended[1][2]} growths, {ended[1][3]} of them then")


def full_disk(street):
    """A file system of 64 kB that fills up: what was answered OK is there when there is room again."""
    folder = f"{street.folder}/full"
    os.mkdir(folder)
    mounted = subprocess.run(["mount", "-t", "tmpfs", "-o", "size=64k", "tmpfs", folder], stderr=subprocess.DEVNULL).returncode == 0
    if not mounted:
        print("a full disk: not tried, no right to mount")
        return 0, 0
    try:
        messages = b"".join(small(k) for k in range(5_000))
        told, status = run(["load", f"{folder}/register"], messages)
        write(f"{street.folder}/moved", read(f"{folder}/register"))
        kept = told.count(b" OK\n")
        again = run(["load", f"{street.folder}/moved"], messages)[0]
        stale = again.count(b" E5 STALE ")
        well = status == 5 and kept <= stale <= kept + 1 and stale + again.count(b" OK\n") == 5_000
        return count("a full disk", 1, [] if well else [(status, kept, stale)], f"status {status} after {kept} messages")
    finally:
        subprocess.run(["umount", folder])


def two_loads(street):
    """A second load on a file that another load has."""
    path = f"{street.folder}/two"
    first = subprocess.Popen([PROGRAM, "load", path], stdin=subprocess.PIPE, stdout=subprocess.PIPE)
    first.stdin.write(street.messages)
    first.stdin.flush()
    replies = [first.stdout.readline() for _ in range(3)]
    before = read(path)
    told, status = run(["load", path], small(1))
    well = status == 5 and told == b"" and read(path) == before and all(line.endswith(b" OK\n") for line in replies)
    first.stdin.close()
    well = well and first.wait() == 0 and read(path) == street.whole
    return count("two loads at once", 1, [] if well else [status])


def killed(street):
    """A load of 10,000 messages is killed at a random moment, a hundred times, and run again each time."""
    path, total = f"{street.folder}/killed", 10_000
    messages = b"".join(small(k) for k in range(total))
    source = f"{street.folder}/messages"
    write(source, messages)
    chance, wrong, known, reached = random.Random(1), [], 0, []
    for turn in range(100):
        with open(source, "rb") as data, open(f"{street.folder}/told", "wb") as sink:
            child = subprocess.Popen([PROGRAM, "load", path], stdin=data, stdout=sink)
            time.sleep(chance.uniform(0.01, 0.4))
            child.send_signal(signal.SIGKILL)
            child.wait()
        told = read(f"{street.folder}/told")
        stale, taken = told.count(b" E5 STALE "), told.count(b" OK\n")
        # What was acknowledged before is stale now, unless the run was killed before it came to it.
        if taken and not known <= stale <= known + 1:
            wrong.append((turn, known, stale))
        known = max(known, stale + taken)
        reached.append(known)
    again = run(["load", path], messages)[0]
    stale = again.count(b" E5 STALE ")
    if not known <= stale <= known + 1 or stale + again.count(b" OK\n") != total:
        wrong.append(("at the end", known, stale))
    return count("killed at a random moment", 100, wrong, f"{known} messages were acknowledged by then")


def stands(folder, data):
    """How a load of nothing has to end on these bytes, by the definition of the file: what is told, and the status.

    A record is one that a register would have written: its text, loaded after those before it, gives these bytes again."""
    if len(data) <= 9:
        return b"", 0
    if data[:8] != b"BGTJ0001":
        return b"NOTJOURNAL\n", 6
    texts, gate = b"", 8
    while data[gate] == 1:
        length = int.from_bytes(data[gate + 1 : gate + 9], "big")
        end = gate + 9 + length
        if gate + 9 > len(data) or end >= len(data):
            return b"DAMAGED %d\n" % gate, 6
        trial = texts + data[gate + 9 : end]
        with contextlib.suppress(FileNotFoundError):
            os.remove(f"{folder}/trial")
        run(["load", f"{folder}/trial"], trial)
        made = read(f"{folder}/trial")
        if made[:8] + made[9:-1] != data[:8] + data[9:end] or len(made) != end + 1:
            return b"DAMAGED %d\n" % gate, 6
        texts, gate = trial, end
    return b"", 0


def changed_bytes(street):
    """A register of two kilobytes with one byte changed, for each byte."""
    wrong, path, seen = [], f"{street.folder}/changed", {}
    whole = street.whole
    for place in range(len(whole)):
        data = bytearray(whole)
        data[place] ^= 1 << (place % 8)
        write(path, bytes(data))
        told, status = run(["load", path])
        want = stands(street.folder, bytes(data))
        seen[status] = seen.get(status, 0) + 1
        if (told, status) != want or status == 6 and read(path) != bytes(data):
            wrong.append((place, told, status, want))
    return count("a byte of the register changed", len(whole), wrong, f"statuses {dict(sorted(seen.items()))}")


def strips(number, rows, lacking):
    """A map of strips beside each other, whose borders have a corner in each row; or one in which a strip in the middle lacks a corner."""
    def line(k):
        return [b"%d %d" % (3 * k + 1 + (row % 2 if 0 < row < rows - 1 else 0), 200_000 + row) for row in range(rows)]

    left, right = line(0), line(number)
    south, north = ([b"%d %d" % (3 * k + 1, y) for k in range(1, number)] for y in (200_000, 199_999 + rows))
    text = [b"BERICHT G0001 2024-01-01T00:00:01\nGEBIED\nRING ", b" ".join([left[0], *south, *right, *north[::-1], *left[:0:-1]])]
    for k in range(number):
        ring = line(k + 1) + line(k)[::-1]
        if lacking and k == number // 2:
            del ring[rows // 2]
        text.append(b"\nT G0001.%032d onbegroeid_terreindeel 0 2024-01-01 fysiekVoorkomen=erf\nRING " % k)
        text.append(b" ".join(ring))
    return b"".join([*text, b"\nEINDE\n"])


def strange_inputs(street):
    """Input that is no message: random bytes, no line end, a long line, a message at the limit of mutations and one past it. And a
    map of 1,392,640 sides, which takes the most memory for its bytes."""
    mutation = b"V G0001.%032d 2024-01-01T00:00:00 2024-01-01\n"
    at_limit = b"BERICHT G0001 2024-01-01T00:00:01\n" + b"".join(mutation % k for k in range(262_144)) + b"EINDE\n"
    past_it = at_limit[:-6] + mutation % 262_144 + b"EINDE\n"
    chance = random.Random(2)
    tries = [
        ("1 MB of random bytes", chance.randbytes(1 << 20), (1,), None),
        ("300 MB without a line end", b"x" * 300_000_000, (1,), b"TAIL 300000000\n"),
        ("a line of 200 MB", b"y" * 200_000_000 + b"\nEINDE\n", (1,), None),
        ("262,144 mutations", at_limit, (1,), b"1 E9 UNKNOWN 1 -\n"),
        ("262,145 mutations", past_it, (1,), b"1 E4 LIMIT mutations\n"),
        ("340 strips of 4,096 sides", strips(340, 2_048, False), (0,), b"1 OK\n"),
    ]
    wrong = []
    for name, data, statuses, want in tries:
        start = time.monotonic()
        told, status = run(["check"], data, [sys.executable, "-c", STARTER, f"{street.folder}/peak"])
        peak = read(f"{street.folder}/peak").decode()
        print(f"  {name}: status {status}, {told[:60]!r}, {peak} MB, {time.monotonic() - start:.1f} s")
        if status not in statuses or want is not None and told != want:
            wrong.append((name, status, told[:60]))
    return count("strange inputs", len(tries), wrong)


def strange_paths(street):
    """Paths that are no file, or none that may be written."""
    folder, wrong = street.folder, []
    os.mkdir(f"{folder}/folder")
    os.mkfifo(f"{folder}/pipe")
    # (whoever opens a pipe waits for its other end)
    paths = [f"{folder}/folder", f"{folder}/pipe", f"{folder}/none/register", "/dev/null", "/dev/zero", "", f"{folder}/" + "n" * 300]
    cases = []
    for path in paths:
        cases += [["load", path], ["state", path, "2024-01-01T00:00:00"]]
    for words in cases:
        told, status = run(words, street.messages)
        if status != 5 or told != b"":
            wrong.append((words, status, told[:60]))
    closed = subprocess.run(f"'{PROGRAM}' check < '{TOP}/examples/street.txt' >&-", shell=True, stderr=subprocess.DEVNULL).returncode
    filled = subprocess.run(f"'{PROGRAM}' check < '{TOP}/examples/street.txt' > /dev/full", shell=True, stderr=subprocess.DEVNULL).returncode
    wrong += [("output", closed, filled)] if (closed, filled) != (4, 4) else []
    return count("strange paths and outputs", len(cases) + 2, wrong)


TRIES = {
    "calls": failing_calls,
    "memory": small_memory,
    "growths": refused_growths,
    "written": refused_when_written,
    "disk": full_disk,
    "two": two_loads,
    "killed": killed,
    "bytes": changed_bytes,
    "inputs": strange_inputs,
    "paths": strange_paths,
}


# What a try needs beside the program.
TOOLS = {"calls": "strace", "growths": "cc", "written": "cc"}


def main(names):
    if not os.access(PROGRAM, os.X_OK):
        print("the program is not built\n0 passed, 0 failed")
        return 0
    passed = failed = 0
    for name in names or TRIES:
        tool = TOOLS.get(name)
        if tool and shutil.which(tool) is None:
            print(f"{name}: not tried, there is no {tool}")
            continue
        with tempfile.TemporaryDirectory() as folder:
            well, ill = TRIES[name](Street(folder))
        passed, failed = passed + well, failed + ill
    print(f"{passed} passed, {failed} failed")
    return 1 if failed else 0


if __name__ == "__main__":
    sys.exit(main(sys.argv[1:]))
