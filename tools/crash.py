#!/usr/bin/env python3
"""tools/crash.py: the built program is killed at each of its system calls, and run again on the file that is left.

`bgt load FILE` with the three messages of examples/street.txt is killed at each call of the system that touches the file or the
output: at the first of its kind, then at the second, and so on. A second run with the same messages then answers `E5 STALE` to just those that the file had
kept: the first ones, with each whose `OK` was written and at most one more. It takes the others, and the file is then what a run
without a kill leaves, byte for byte.

It proves nothing: the system goes on here, and no power fails. It needs strace, and does nothing without it. The program has to be
built. The last line is 'N passed, M failed'.
"""
import os
import shutil
import subprocess
import sys
import tempfile

TOP = os.path.dirname(os.path.dirname(os.path.abspath(__file__)))
PROGRAM = f"{TOP}/crates/bgt/out/bgt"
# The calls at which it is killed.
CALLS = ["openat", "lseek", "read", "pread64", "write", "pwrite64", "fsync", "fdatasync", "ftruncate", "flock", "fcntl"]


def load(path, messages, call=None, number=0):
    """What a run of `load` on the file writes, and how it ends; killed at that call of its kind, if one is given."""
    words = [PROGRAM, "load", path]
    if call is not None:
        words = ["strace", "-qq", "-o", "/dev/null", "-e", f"trace={call}", "-e", f"inject={call}:signal=KILL:when={number}", *words]
    ran = subprocess.run(words, input=messages, stdout=subprocess.PIPE, stderr=subprocess.DEVNULL)
    return ran.stdout, ran.returncode


def read(path):
    with open(path, "rb") as it:
        return it.read()


def is_well(path, messages, told, whole):
    """Whether the file, after a run that wrote this, has what it may have, and a second run makes it whole."""
    kept = told.count(b" OK\n")
    again, _ = load(path, messages)
    stale, taken = again.count(b" E5 STALE "), again.count(b" OK\n")
    return stale + taken == 3 and kept <= stale <= kept + 1 and read(path) == whole


def tried(folder, messages, whole, call):
    """How many runs that were killed at a call of this kind left what they may, and how many did not."""
    passed = failed = 0
    while True:
        number = passed + failed + 1
        path = f"{folder}/{call}{number}"
        told, status = load(path, messages, call, number)
        if status == 0:
            return passed, failed
        well = is_well(path, messages, told, whole)
        passed, failed = passed + well, failed + (not well)
        if not well:
            print(f"killed at {call} {number}: the file has not what it may have")


def main():
    if shutil.which("strace") is None or not os.access(PROGRAM, os.X_OK):
        print("0 passed, 0 failed")
        return 0
    messages = read(f"{TOP}/examples/street.txt")
    with tempfile.TemporaryDirectory() as folder:
        load(f"{folder}/whole", messages)
        whole = read(f"{folder}/whole")
        ran = [tried(folder, messages, whole, call) for call in CALLS]
    passed, failed = (sum(it) for it in zip(*ran))
    print("bgt load, killed at each call of the system and run again:")
    print(f"{passed} passed, {failed} failed")
    return 1 if failed else 0


if __name__ == "__main__":
    sys.exit(main())
