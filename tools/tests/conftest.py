"""What the tests share: the program, a scratch folder, and short ways to run things."""
import os
import subprocess
import sys
from dataclasses import dataclass
from pathlib import Path

import pytest
from hypothesis import settings

TOOLS = Path(__file__).resolve().parent.parent
TOP = TOOLS.parent
sys.path.insert(0, str(TOOLS))

from bgt_geo import main, program  # noqa: E402 (its folder is known only now)
from bgt_geo.problem import Problem  # noqa: E402


# (the same examples in each run, so that a gate does not turn red by chance)
settings.register_profile("bgt", deadline=None, database=None, derandomize=True)
settings.load_profile("bgt")


def _program() -> str | None:
    try:
        return program.path()
    except Problem:
        return None


needs_bgt = pytest.mark.skipif(_program() is None, reason="bgt is not built")


@dataclass
class Ran:
    """What a run wrote and how it ended."""

    status: int
    out: str
    err: str


@pytest.fixture
def geo(capsys):
    """Runs bgt-geo in this process."""
    def run(*words) -> Ran:
        capsys.readouterr()
        try:
            status = main.main([str(word) for word in words])
        except SystemExit as end:
            status = end.code
        said = capsys.readouterr()
        return Ran(status, said.out, said.err)
    return run


def bgt(*words, messages: bytes = b"") -> Ran:
    """Runs the program."""
    ran = subprocess.run([program.path(), *map(str, words)], input=messages, capture_output=True, check=False)
    return Ran(ran.returncode, ran.stdout.decode("ascii"), ran.stderr.decode())


@pytest.fixture
def street() -> list[str]:
    """The lines of the example street."""
    return (TOP / "examples" / "street.txt").read_text().split("\n")[:-1]


@pytest.fixture
def register(tmp_path) -> Path:
    """A register of the example street."""
    path = tmp_path / "register"
    ran = bgt("load", path, messages=(TOP / "examples" / "street.txt").read_bytes())
    assert ran.out == "1 OK\n2 OK\n3 OK\n"
    return path


@pytest.fixture(autouse=True)
def scratch(tmp_path, monkeypatch):
    """Each test runs in a folder of its own."""
    monkeypatch.chdir(tmp_path)
    os.environ.setdefault("MPLCONFIGDIR", str(tmp_path))
