"""Files that appear under their final name only when they are whole."""
import os
import shutil
import sys
import tempfile
from contextlib import contextmanager
from typing import Iterator

from .problem import USAGE, Problem


@contextmanager
def whole_file(path: str) -> Iterator[str]:
    """A path to write to, in a folder beside the final one. What stands in that folder is renamed when the block ends well.

    A format of several files (shapefiles) leaves them all there; the one that was asked for comes last.
    """
    folder, name = os.path.split(os.path.abspath(path))
    try:
        beside = tempfile.mkdtemp(prefix=f".{name}.", suffix=".part", dir=folder)
    except OSError as fault:
        raise Problem(f"{path} cannot be written: {fault.strerror}", USAGE) from fault
    try:
        yield os.path.join(beside, name)
        for each in sorted(os.listdir(beside), key=lambda it: it == name):
            os.replace(os.path.join(beside, each), os.path.join(folder, each))
    except OSError as fault:
        raise Problem(f"{path} cannot be written: {fault.strerror}", USAGE) from fault
    finally:
        shutil.rmtree(beside, ignore_errors=True)


def write_text(path: str | None, text: str) -> None:
    """Writes a text that is whole to a file, or to standard output where there is no path."""
    if path is None or path == "-":
        sys.stdout.write(text)
        sys.stdout.flush()
        return
    with whole_file(path) as beside, open(beside, "w", encoding="utf-8", newline="\n") as it:
        it.write(text)


def tell(text: str) -> None:
    """A remark for the person at the terminal."""
    print(text, file=sys.stderr)


def counted(number: int, one: str, more: str | None = None) -> str:
    """A number with its word: '1 feature', '3 features'."""
    return f"{number:,} {one if number == 1 else more or one + 's'}"
