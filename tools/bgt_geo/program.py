"""The program bgt: where it is, and what it answers."""
import os
import shutil
import subprocess

from .forms import LAST
from .problem import USAGE, Problem
from .text import AreaVersion, Version, read_state

_TOP = os.path.dirname(os.path.dirname(os.path.dirname(os.path.realpath(__file__))))


def path() -> str:
    """The program: what the variable BGT names, else what this repository built, else what is installed."""
    named = os.environ.get("BGT")
    places = [named] if named else [os.path.join(_TOP, "crates", "bgt", "out", "bgt"), shutil.which("bgt")]
    for place in places:
        if place and os.access(place, os.X_OK):
            return place
    if named:
        raise Problem(f"BGT names {named}, which is no program", USAGE)
    raise Problem("bgt is not built yet: run `./bgt check < examples/street.txt` once, or name the program by the variable BGT", USAGE)


_SENTENCES = {
    2: "bgt takes no such words: {words}",
    4: "bgt could not write what it has of {file}",
    5: "{file} cannot be read",
    7: "there is not enough memory to read {file}",
}


def ask(command: str, file: str, *words: str) -> str:
    """What a query answers about the register of a file."""
    if not os.path.isfile(file):
        raise Problem(f"{file} is missing, or is no file", USAGE)
    try:
        ran = subprocess.run([path(), command, file, *words], stdin=subprocess.DEVNULL, stdout=subprocess.PIPE,
                             stderr=subprocess.DEVNULL, check=False)
    except OSError as fault:
        raise Problem(f"bgt does not run here: {fault.strerror}", USAGE) from fault
    if ran.returncode == 0:
        return ran.stdout.decode("ascii")
    said = ran.stdout.decode("ascii", "replace").split()
    if said[:1] == ["NOTJOURNAL"]:
        raise Problem(f"{file} is no register: it does not begin with the mark of one")
    if said[:1] == ["DAMAGED"]:
        raise Problem(f"{file} is damaged at byte {said[1]}; take the last backup, or the bytes before that place")
    sentence = _SENTENCES.get(ran.returncode, "bgt ended with status {status} on {file}")
    raise Problem(sentence.format(words=" ".join((command, file, *words)), file=file, status=ran.returncode))


def state(file: str, moment: str = LAST) -> tuple[list[AreaVersion], list[Version]]:
    """The areas and the objects that hold at the moment."""
    return read_state(ask("state", file, moment))
