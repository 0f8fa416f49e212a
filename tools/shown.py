#!/usr/bin/env python3
"""tools/shown.py: what README.md and examples/ show is what the built program writes.

Runs each command of each ```console block of README.md in a scratch folder that has ./bgt and examples/, and compares what it
writes with what the block shows; then answers each examples/NAME.txt and compares with examples/NAME.reply. Each
examples/NAME.map is compared with what is exported, at the moment in its first line, of the register of examples/NAME.txt, and of
the register of the map itself. It proves nothing. The program has to be built. The last line is 'N passed, M failed'.
"""
import os
import re
import subprocess
import sys
import tempfile

TOP = os.path.dirname(os.path.dirname(os.path.abspath(__file__)))


def blocks(text):
    """The console blocks of a page, each as a list of (command, what is shown for it)."""
    for block in re.findall(r"^```console\n(.*?)^```$", text, re.M | re.S):
        parts = re.split(r"^\$ (.*)\n", block, flags=re.M)
        yield list(zip(parts[1::2], parts[2::2]))


def run(command, folder):
    """What a command writes on standard output, in a folder whose ./bgt is the program."""
    return subprocess.run(["sh", "-c", command], cwd=folder, stdout=subprocess.PIPE, stderr=subprocess.DEVNULL).stdout


def scratch(folder):
    """Gives the folder a ./bgt that runs the program of this repository, and its examples."""
    with open(f"{folder}/bgt", "w", encoding="utf-8") as it:
        it.write(f'#!/bin/sh\nexec "{TOP}/bgt" "$@"\n')
    os.chmod(f"{folder}/bgt", 0o755)
    os.symlink(f"{TOP}/examples", f"{folder}/examples")


def differs(name, got, want):
    """Says where what was written is not what is shown, and returns whether it is not."""
    if got == want:
        return False
    print(f"{name}\n  shown:   {want!r}\n  written: {got!r}")
    return True


def exported(messages, moment):
    """The map at the moment of a register of these messages."""
    with tempfile.TemporaryDirectory() as folder:
        scratch(folder)
        return run(f'./bgt load register < "{messages}" > replies; ./bgt export register {moment}', folder)


def main():
    failed = passed = 0
    with open(f"{TOP}/README.md", encoding="utf-8") as it:
        pages = list(blocks(it.read()))
    for block in pages:
        # (a block's commands share a folder, so that one may use what another left)
        with tempfile.TemporaryDirectory() as folder:
            scratch(folder)
            wrong = [differs(f"README.md: {command}", run(command, folder), shown.encode()) for command, shown in block]
        failed, passed = failed + sum(wrong), passed + wrong.count(False)
    for name in sorted(it[:-6] for it in os.listdir(f"{TOP}/examples") if it.endswith(".reply")):
        with open(f"{TOP}/examples/{name}.reply", "rb") as it:
            want = it.read()
        wrong = differs(f"examples/{name}.txt", run(f'"{TOP}/bgt" check < "{TOP}/examples/{name}.txt"', TOP), want)
        failed, passed = failed + wrong, passed + (not wrong)
    for name in sorted(it[:-4] for it in os.listdir(f"{TOP}/examples") if it.endswith(".map")):
        with open(f"{TOP}/examples/{name}.map", "rb") as it:
            want = it.read()
        moment = want.split(b"\n", 1)[0].decode().split()[-1]
        for source in (f"{name}.txt", f"{name}.map"):
            wrong = differs(f"examples/{source} exported", exported(f"{TOP}/examples/{source}", moment), want)
            failed, passed = failed + wrong, passed + (not wrong)
    print("README.md and examples/ against the built program:")
    print(f"{passed} passed, {failed} failed")
    return 1 if failed else 0


if __name__ == "__main__":
    sys.exit(main())
