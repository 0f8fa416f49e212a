#!/usr/bin/env python3
"""bench/goals.py [--large] [NAME ..]: what the built program costs, beside the goals that are set for it.

Instructions are counted by `valgrind --tool=callgrind`, seconds and memory are those of one plain run. A small message changes one to
four cells of the test map of `trial`; what it costs is what 94 of them cost, behind the first map and six others, over 94, counted from
where each is read to where the next one is. With --large also what is asked of 160,000 cells, which takes some ten minutes. NAME leaves
out all measures but those whose name begins so. BGT names another program. It is no part of the gate: build the program first with
./bgt.
"""
import os
import re
import subprocess
import sys
import tempfile
import time

HERE = os.path.dirname(os.path.abspath(__file__))
sys.path += [HERE, os.path.join(HERE, "..", "tools", "reference")]
from check import ITEM, PROGRAM, message, ring  # noqa: E402
from reference import made  # noqa: E402
from texts import print_message  # noqa: E402

BGT = os.environ.get("BGT", PROGRAM)
HEAD = "BERICHT G0001 2024-01-01T00:00:00"


def instructions(text, *words):
    """How many instructions the program takes on the input."""
    with tempfile.TemporaryDirectory() as folder:
        out = subprocess.run(["valgrind", "--tool=callgrind", f"--callgrind-out-file={folder}/out", BGT, *words],
                             input=text, capture_output=True)
    return int(re.search(rb"Collected : (\d+)", out.stderr)[1])


def plain(text, *words):
    """Seconds and megabytes of one run."""
    with tempfile.NamedTemporaryFile() as file:
        file.write(text)
        file.flush()
        with open(file.name, "rb") as source, open(os.devnull, "wb") as sink:
            start = time.perf_counter()
            pid = os.posix_spawn(BGT, [BGT, *words], os.environ,
                                 file_actions=[(os.POSIX_SPAWN_DUP2, source.fileno(), 0),
                                               (os.POSIX_SPAWN_DUP2, sink.fileno(), 1)])
            _, _, used = os.wait4(pid, 0)
    return time.perf_counter() - start, used.ru_maxrss / 1024


def squares(n, m, level):
    """A message with n × m squares beside each other at a level; at level 0 with their area."""
    corner = lambda i, j: (100_000_000 + 10_000 * i, 400_000_000 + 10_000 * j)
    lines = [HEAD]
    if level == 0:
        edge = ([corner(i, 0) for i in range(n)] + [corner(n, j) for j in range(m)]
                + [corner(i, m) for i in range(n, 0, -1)] + [corner(0, j) for j in range(m, 0, -1)])
        lines += ["GEBIED", ring(edge)]
    item = ITEM.replace(" 0 ", f" {level} ", 1)
    for j in range(m):
        for i in range(n):
            lines += [f"T G0001.{j * n + i + 1:032} {item}",
                      ring([corner(i, j), corner(i + 1, j), corner(i + 1, j + 1), corner(i, j + 1)])]
    return "\n".join(lines + ["EINDE", ""]).encode()


def strip(n):
    """A message with n cells of six corners in a row: the ring of its area has 4n + 2."""
    x = lambda i: 1_000_000 + 10_000 * i
    up = [(x(0) + 5_000 * k, 400_000_000) for k in range(2 * n + 1)]
    down = [(p, 400_010_000) for p, _ in reversed(up)]
    lines = [HEAD, "GEBIED", ring(up + down)]
    for i in range(n):
        lines += [f"T G0001.{i + 1:032} {ITEM}", ring(up[2 * i:2 * i + 3] + down[2 * (n - i) - 2:2 * (n - i) + 1])]
    return "\n".join(lines + ["EINDE", ""]).encode()


def comb(corners):
    """A line for `rings`: a ring with teeth of one metre side by side."""
    teeth = corners // 4
    points = [(100_000_000, 400_000_000), (100_000_000 + 2_000 * teeth, 400_000_000)]
    for k in range(teeth - 1, -1, -1):
        x = 100_000_000 + 2_000 * k
        points += [(x + 1_000 + 999, 400_900_000), (x + 1_000, 400_900_000), (x + 999, 400_001_000), (x, 400_001_000)]
    return (ring(points[:corners]) + "\n").encode()


def holes(count, corners):
    """A message with one object at level 1 that has this many holes of this many corners, each a comb of its own, 16 in a row."""
    lines = [HEAD, f"T G0001.{1:032} {ITEM.replace(' 0 ', ' 1 ', 1)}",
             ring([(100_000_000, 400_000_000), (200_000_000, 400_000_000), (200_000_000, 401_000_000), (100_000_000, 401_000_000)])]
    for h in range(count):
        west, south = 100_010_000 + 100_000 * (h % 16), 400_010_000 + 60_000 * (h // 16)
        low = [(west + 200 * (k + 1), south + 40_000 * (k % 2)) for k in range(corners - 2)]
        points = [(west, south + 50_000)] + low + [(west + 200 * corners, south + 50_000)]
        lines.append("GAT" + ring(points[::-1])[4:])
    return "\n".join(lines + ["EINDE", ""]).encode()


def diagonal(teeth):
    """A message whose area is a comb that runs north-east, with teeth of 141 m that run north-west, side by side: the boxes of all overlap.
    Each tooth is an object, and so is each 4,000 of what they stand on."""
    base = [(100_000_000 + 8 * i, 400_000_000 + 8 * i) for i in range(teeth + 1)]
    tips = [(x + 4 - 100_000, y + 4 + 100_000) for x, y in base[:-1]]
    cuts = list(range(0, teeth, 4_000)) + [teeth]
    below = lambda i: (base[i][0] + 10_000, base[i][1] - 10_000)
    upper = [base[teeth]]
    for i in range(teeth - 1, -1, -1):
        upper += [tips[i], base[i]]
    lines = [HEAD, "GEBIED", ring([below(i) for i in cuts] + upper)]
    objects = [[base[i], base[i + 1], tips[i]] for i in range(teeth)]
    objects += [[below(i), below(j)] + base[i:j + 1][::-1] for i, j in zip(cuts, cuts[1:])]
    for k, points in enumerate(objects):
        lines += [f"T G0001.{k + 1:032} {ITEM}", ring(points)]
    return "\n".join(lines + ["EINDE", ""]).encode()


def text_costs(text):
    """How many instructions `check` takes on each text, from where it is read to where the next one is; the first figure is what
    comes before the first text, and the last one has the end of the program in it."""
    with tempfile.TemporaryDirectory() as folder:
        subprocess.run(["valgrind", "--tool=callgrind", "--dump-before=message_text::read::read_message",
                        f"--callgrind-out-file={folder}/out", BGT, "check"], input=text, capture_output=True)
        parts = sorted(os.listdir(folder), key=lambda part: int(part.partition(".")[2] or 10**9))
        return [int(re.search(r"^(?:summary|totals): (\d+)", open(os.path.join(folder, part)).read(), re.M)[1]) for part in parts]


def small_message(n):
    """Instructions of a small message behind a map of n × n cells and six others, and of the refused one after them all."""
    texts = [print_message(m).encode() for m in made(n)]
    costs = text_costs(b"".join(texts + texts[-1:]))
    return sum(costs[8:102]) / 94, costs[102]


def told(name, figure, goal, unit):
    print(f"{name:58} {figure:14,.2f} {unit:6} goal {goal:14,.2f} {'' if figure <= goal else 'ABOVE'}", flush=True)


def main():
    words = [w for w in sys.argv[1:] if w != "--large"]
    large = "--large" in sys.argv
    wanted = lambda name: not words or any(name.startswith(w) for w in words)
    million = 1e6
    base = None
    if wanted("made"):
        base = instructions(message(100), "check")
        told("made 100: check", base / million, 145, "M")
        if large:
            told("made 400: for each cell, over made 100", instructions(message(400), "check") / 16 / base, 1.15, "times")
            told("made 400: memory", plain(message(400), "check")[1], 260, "MB")
    if wanted("small"):
        small, refused = small_message(100)
        told("small message on 10,000 cells", small, 45_000, "")
        told("small message, refused, over one accepted", refused / small, 10, "times")
        if large:
            told("small message on 160,000 cells, over 10,000", small_message(400)[0] / small, 1.25, "times")
    if wanted("level"):
        flat, above = (instructions(squares(200, 100, level), "check") for level in (0, 1))
        told("level 1 over level 0, 20,000 squares", above / flat, 2, "times")
    if wanted("comb"):
        told("comb of 4,096 corners", instructions(comb(4096), "rings") / million, 30, "M")
    if wanted("strip"):
        told("strip of 16,000 cells, 64,002 corners", instructions(strip(16_000), "check") / million, 600, "M")
    if wanted("holes"):
        told("255 holes of 400 corners", instructions(holes(255, 400), "check") / million, 1200, "M")
    if wanted("diagonal"):
        told("diagonal comb of 65,533 corners, as an area", plain(diagonal(32_761), "check")[0], 1, "s")
    if large and wanted("trial"):
        seconds, megabytes = plain(b"", "trial", "400")
        told("trial 400", seconds, 4, "s")
        told("trial 400: memory", megabytes, 400, "MB")


if __name__ == "__main__":
    main()
