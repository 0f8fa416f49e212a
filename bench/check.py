#!/usr/bin/env python3
"""bench/check.py [N ..]: how fast `bgt check` is on one message with N x N cells (50, 100 and 200 where none is named).

Makes a map of cells with eight corners each, whose borders are bent, runs the built program on it five times, and prints
megabytes a second (the best run) and the peak memory. It is no part of the gate: build the program first with ./bgt.
"""
import os
import sys
import tempfile
import time

HERE = os.path.dirname(os.path.abspath(__file__))
PROGRAM = os.path.join(HERE, "..", "crates", "bgt", "out", "bgt")
ITEM = "begroeid_terreindeel 0 2024-01-01 fysiekVoorkomen=groenvoorziening"


def corner(i, j):
    return 100_000_000 + 10_000 * i, 400_000_000 + 10_000 * j


def across(i, j):
    x, y = corner(i, j)
    return x + 5_000, y + 1_000 * ((i + 2 * j) % 3) - 1_000


def along(i, j):
    x, y = corner(i, j)
    return x + 1_000 * ((2 * i + j) % 3) - 1_000, y + 5_000


def cell(i, j):
    return [corner(i, j), across(i, j), corner(i + 1, j), along(i + 1, j),
            corner(i + 1, j + 1), across(i, j + 1), corner(i, j + 1), along(i, j)]


def area(n):
    up, down = range(n), range(n - 1, -1, -1)
    return ([p for i in up for p in (corner(i, 0), across(i, 0))]
            + [p for j in up for p in (corner(n, j), along(n, j))]
            + [p for i in down for p in (corner(i + 1, n), across(i, n))]
            + [p for j in down for p in (corner(0, j + 1), along(0, j))])


def ring(points):
    return "RING " + " ".join(f"{v // 1000}.{v % 1000:03}" for p in points for v in p)


def message(n):
    lines = ["BERICHT G0001 2024-01-01T00:00:00", "GEBIED", ring(area(n))]
    for j in range(n):
        for i in range(n):
            lines += [f"T G0001.{j * n + i + 1:032} {ITEM}", ring(cell(i, j))]
    return "\n".join(lines + ["EINDE", ""]).encode()


def run(path):
    with open(path, "rb") as source, open(os.devnull, "wb") as sink:
        start = time.perf_counter()
        pid = os.posix_spawn(PROGRAM, [PROGRAM, "check"], os.environ,
                             file_actions=[(os.POSIX_SPAWN_DUP2, source.fileno(), 0),
                                           (os.POSIX_SPAWN_DUP2, sink.fileno(), 1)])
        _, status, used = os.wait4(pid, 0)
        return time.perf_counter() - start, os.waitstatus_to_exitcode(status), used.ru_maxrss


def main():
    print("cells    MB      s     MB/s  peak MB")
    for n in [int(a) for a in sys.argv[1:]] or [50, 100, 200]:
        with tempfile.NamedTemporaryFile() as file:
            text = message(n)
            file.write(text)
            file.flush()
            runs = [run(file.name) for _ in range(5)]
        assert all(status == 0 for _, status, _ in runs), "not accepted"
        seconds = min(r[0] for r in runs)
        size = len(text) / 1e6
        print(f"{n * n:6} {size:6.1f} {seconds:6.3f} {size / seconds:8.1f} {max(r[2] for r in runs) / 1024:8.1f}")


if __name__ == "__main__":
    main()
