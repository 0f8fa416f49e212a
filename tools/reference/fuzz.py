#!/usr/bin/env python3
"""Runs random streams through a `bgt` program and the reference, and compares all that is told and kept.

    fuzz.py PROGRAM [--seed N] [--count N] [--seconds N] [--out FOLDER]

Each stream goes through `check`, then in two halves through `load` on one file; after each load the file is
compared byte for byte. Before each load the half is explained over the file. Then come queries at random moments, identifications and points, exports loaded into
empty files, and damaged copies of the file. Each difference is made smaller and written to FOLDER.
"""
import argparse
import collections
import os
import random
import re
import subprocess
import tempfile
import time

import reference as ref
import streams

EMPTY = b""


class Program:
    """The program under test, on files of its own folder."""

    def __init__(self, path, folder):
        self.path, self.name, self.calls = path, os.path.join(folder, "F"), 0

    def run(self, words, data=b"", file=b""):
        with open(self.name, "wb") as f:
            f.write(file)
        words = [self.name if w == "F" else w for w in words]
        self.calls += 1
        done = subprocess.run([self.path] + words, input=data, stdout=subprocess.PIPE, stderr=subprocess.DEVNULL)
        with open(self.name, "rb") as f:
            return done.stdout, done.returncode, f.read()


class Fuzz:
    def __init__(self, program, out):
        self.program, self.out = program, out
        self.replies, self.queries, self.statuses = (collections.Counter() for _ in range(3))
        self.differences, self.streams, self.seed = [], 0, None

    # ------------------------------------------------------------ comparing

    def both(self, words, data=b"", file=b""):
        """The reference's answer, after comparing it with the program's."""
        wanted = ref.run(words, data, file)
        got = self.program.run(words, data, file)
        self.count(words, wanted)
        if got != wanted:
            self.report(words, data, file)
        return wanted

    def count(self, words, wanted):
        told, status, _ = wanted
        self.statuses["%s %d" % (words[0] if words else "-", status)] += 1
        if words[:1] in (["check"], ["load"], ["explain"]):
            for line in told.decode("latin-1").splitlines():
                self.replies[reply_name(line)] += 1
        elif status == 0:
            self.queries[words[0] + (" " + told.decode("latin-1").strip() if told in (b"NONE\n", b"BORDER\n") else "")] += 1

    def differ(self, words, data, file):
        return self.program.run(words, data, file) != ref.run(words, data, file)

    def report(self, words, data, file):
        data = self.smaller(words, data, file)
        wanted, got = ref.run(words, data, file), self.program.run(words, data, file)
        number = len(self.differences)
        self.differences.append((words, data, file, wanted, got))
        stem = os.path.join(self.out, "%s-%d" % (self.seed, number))
        for end, content in (("input", data), ("file", file), ("wanted", wanted[0]), ("got", got[0]),
                             ("wanted-file", wanted[2]), ("got-file", got[2])):
            with open(stem + "." + end, "wb") as f:
                f.write(content)
        print("DIFFERENCE %s words %s status wanted %d got %d" % (stem, words, wanted[1], got[1]), flush=True)
        print(first_difference(wanted[0], got[0]), "files equal:", wanted[2] == got[2], flush=True)

    def smaller(self, words, data, file):
        """A smaller input with a difference: fewer texts, then fewer lines."""
        deadline = time.time() + 60
        for cut in (lambda d: [t for t in ref.cut_texts(d)[0]] + [ref.cut_texts(d)[1]], lambda d: d.splitlines(True)):
            pieces, k = cut(data), 0
            while k < len(pieces) and time.time() < deadline:
                fewer = pieces[:k] + pieces[k + 1:]
                if self.differ(words, b"".join(fewer), file):
                    pieces = fewer
                else:
                    k += 1
            data = b"".join(pieces)
        return data

    # ------------------------------------------------------------ one stream

    def one(self, seed):
        self.seed = seed
        rng = random.Random(seed)
        for cache in (ref.shape_note, ref.shape_edges, ref.share, ref.own_pair_sound, ref.map_refusal):
            cache.cache_clear()
        data = streams.stream(rng)
        self.streams += 1
        self.both(["check"], data)
        texts = ref.cut_texts(data)[0]
        half = sum(map(len, texts[:rng.randint(0, len(texts))]))
        start = rng.choice([EMPTY] * 4 + [b"BGTJ0001\0", b"123456789", b"BGT", b"BGTJ0001\0junk" * 3, b"BGTJ0001\2" + b"x" * 700])
        file = start
        for part in (data[:half], data[half:]):
            self.both(["explain", "F"], part, file)
            file = self.both(["load", "F"], part, file)[2]
        self.ask(rng, file)
        if rng.random() < 0.5:
            self.damage(rng, file, data)

    def ask(self, rng, file):
        try:
            state, _ = ref.open_journal(file, ref.STANDARD)
        except ref.BadJournal:
            return
        for _ in range(rng.choice([1, 2, 4])):
            moment = some_moment(rng, state)
            self.both(["state", "F", moment], b"", file)
            self.both(["history", "F", some_ident(rng, state)], b"", file)
            for _ in range(3):
                self.both(["point", "F", *some_point(rng, state), some_moment(rng, state)], b"", file)
        moment = some_moment(rng, state)
        told = self.both(["export", "F", moment], b"", file)[0]
        lines, status, again = self.both(["load", "F"], told, b"")
        if status or b"E" in lines:
            print("EXPORT REFUSED seed", self.seed, moment, lines)
        if told:
            back = self.both(["export", "F", moment], b"", again)[0]
            if back != told:
                print("EXPORT NOT THE SAME seed", self.seed, moment)
        if rng.random() < 0.2:
            self.both(odd_words(rng, state), b"BERICHT G0001 2024-01-01T00:00:00\nEINDE\n", file)

    def damage(self, rng, file, data):
        """A changed file, for a query and for a load."""
        bad = hurt(rng, file)
        self.both(["state", "F", "2024-01-01T00:00:01"], b"", bad)
        self.both([rng.choice(["load", "explain"]), "F"], rng.choice([data, b"BERICHT Z9999 2024-01-01T00:00:00\nEINDE\n"]), bad)


# ---------------------------------------------------------------- what to ask


def some_moment(rng, state):
    moments = [v.since for v in state.versions] + [v.until for v in state.versions if v.until is not None]
    moments += list(state.last.values()) + [a.since for a in state.areas]
    if not moments or rng.random() < 0.1:
        return rng.choice(["2024-01-01T00:00:00", "0000-01-01T00:00:00", "9999-12-31T23:59:59.999", "2024-01-01T00:00:00.001"])
    low, high = ref.read_moment("0000-01-01T00:00:00"), ref.read_moment("9999-12-31T23:59:59.999")
    return ref.print_moment(min(max(rng.choice(moments) + rng.choice([0, 0, 0, -1, 1]), low), high))


def some_ident(rng, state):
    idents = [v.ident for v in state.versions]
    return rng.choice(idents) if idents and rng.random() < 0.9 else "G0001.%032d" % rng.randrange(99)


def some_point(rng, state):
    shapes = [v.item.rings for v in state.versions] + [s for a in state.areas for s in a.shapes]
    if not shapes or rng.random() < 0.05:
        return rng.choice([("100000", "400000"), ("-100000.000", "200000"), ("400000", "800000.000"), ("-0", "200000.001")])
    edges = ref.shape_edges(rng.choice(shapes))
    a, b = rng.choice(edges)
    c, _ = rng.choice(edges)
    x, y = rng.choice([a, ((a[0] + b[0]) // 2, (a[1] + b[1]) // 2), ((a[0] + b[0] + c[0]) // 3, (a[1] + b[1] + c[1]) // 3),
                       (a[0] + 1, a[1]), (a[0], a[1] - 1), (c[0], a[1]), ((a[0] + c[0]) // 2, a[1])])
    clamp = lambda v, r: min(max(v, r[0]), r[1])
    return ref.print_mm(clamp(x, ref.X_RANGE)), ref.print_mm(clamp(y, ref.Y_RANGE))


def odd_words(rng, state):
    m, i = some_moment(rng, state), some_ident(rng, state)
    x, y = some_point(rng, state)
    good = [["check"], ["load", "F"], ["explain", "F"], ["state", "F", m], ["history", "F", i], ["point", "F", x, y, m], ["export", "F", m],
            ["trial", str(rng.randint(2, 5))]]
    words = list(rng.choice(good))
    k = rng.randrange(len(words))
    how = rng.choice(["less", "more", "twice", "field", "field", "case"])
    if how == "less":
        del words[k]
    elif how == "more":
        words.insert(k + 1, rng.choice(["", "x", "F", m]))
    elif how == "twice":
        words.append(words[-1])
    elif how == "case":
        words[0] = words[0].upper()
    elif words[k] != "F" and k:
        words[k] = rng.choice(["", m + "0", "24" + m, i + "0", i[:-1], x + "000", "1.", "+" + y, "200000", "1", "01", "401", "400 ",
                               "0", "2.0", " 2", "199999.999", "2024-01-01", "2024-02-30T00:00:00", m[:10] + "T23:59:60"])
    return ["point"] if not words else words


def hurt(rng, file):
    """One damage to a journal."""
    gates, at = [], 8
    while at + 9 <= len(file) and file[at] == 1:
        gates.append(at)
        at += 9 + int.from_bytes(file[at + 1:at + 9], "big")
    k = rng.randrange(len(file)) if file else 0
    g = rng.choice(gates) if gates else 8
    end = g + 9 + int.from_bytes(file[g + 1:g + 9], "big") if gates else 9
    payload = file[g + 9:end]
    again = lambda new: file[:g] + b"\x01" + len(new).to_bytes(8, "big") + new + file[end:]
    loose = re.sub(rb"\.000 ", b" ", payload, count=1)
    return rng.choice([
        file[:k], file[:max(len(file) - 1, 0)], file[:k] + bytes([rng.randrange(256)]) + file[k + 1:],
        file[:g] + rng.choice([b"\0", b"\2", b"\xff"]) + file[g + 1:], file + b"junk", file + b"\1" * 30,
        file[:at] + b"\1" + file[at + 1:], file[:end] + file[g:], file[:g] + file[end:], again(loose), again(payload + b"\n"),
        again(payload + payload), again(payload[:-6]), again(payload.replace(b"\n", b"\r\n", 1)), again(b""),
        file[:g + 1] + b"\xff" + file[g + 2:], b"BGTJ0002" + file[8:], b"BGTJ0001\1" + bytes(8), b"BGTJ0001\1" + bytes(9),
        b"BGTJ0001\1" + bytes(7) + b"\1" + b"\n\0", file[:8], file[:9], b"bgtj0001\1\1"])


def reply_name(line):
    """What a reply says, without its numbers and names."""
    words = line.split(" ")
    if words[0] in ("TAIL", "NOTJOURNAL", "DAMAGED", "USAGE"):
        return words[0]
    if words[0] in ("POINT", "CROSS"):
        return " ".join(words[:1] + words[3:] if words[0] == "POINT" else words[:1])
    words = words[1:]
    keep = {"E13": [1, 3, 4], "E15": [1, 3], "E17": [1, 2], "E4": [1, 2], "E16": [1, 2]}.get(words[0], [1])
    name = " ".join([words[0]] + [words[k] for k in keep if k < len(words)])
    if words[0] == "E17" and words[2] == "shape":
        name += " " + words[4]
    if words[0] == "E9":
        name += " -" if words[3] == "-" else " moment"
    return name


def first_difference(wanted, got):
    for k, (w, g) in enumerate(zip(wanted.splitlines() + [b"(end)"], got.splitlines() + [b"(end)"]), 1):
        if w != g:
            return "line %d wanted %r got %r" % (k, w[:300], g[:300])
    return "same text"


def main():
    parser = argparse.ArgumentParser(description=__doc__)
    parser.add_argument("program")
    parser.add_argument("--seed", type=int, default=1)
    parser.add_argument("--count", type=int, default=100)
    parser.add_argument("--seconds", type=float, default=1e9)
    parser.add_argument("--out", default="found")
    args = parser.parse_args()
    os.makedirs(args.out, exist_ok=True)
    deadline = time.time() + args.seconds
    with tempfile.TemporaryDirectory() as folder:
        fuzz = Fuzz(Program(args.program, folder), args.out)
        for seed in range(args.seed, args.seed + args.count):
            if time.time() > deadline:
                break
            fuzz.one(seed)
        print("streams %d, calls %d, differences %d" % (fuzz.streams, fuzz.program.calls, len(fuzz.differences)))
        for title, counter in (("replies", fuzz.replies), ("queries", fuzz.queries), ("statuses", fuzz.statuses)):
            print("%s %d" % (title, sum(counter.values())))
            for name in sorted(counter, key=lambda n: (int(re.sub(r"\D", "", n.split(" ")[0]) or 0), n)):
                print("%8d  %s" % (counter[name], name))


if __name__ == "__main__":
    main()
