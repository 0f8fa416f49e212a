"""make install puts all in place and what is there runs; make uninstall leaves nothing. setup says what it would do."""
import os
import shutil
import subprocess

import pytest

from bgt_geo import program
from conftest import TOOLS, TOP, needs_bgt


def make(*words):
    return subprocess.run(["make", "-C", str(TOP), *words], capture_output=True, text=True, check=False)


def files(folder):
    return {str(it.relative_to(folder)) for it in folder.rglob("*") if it.is_file()}


@needs_bgt
@pytest.mark.skipif(shutil.which("make") is None, reason="make is not there")
def test_install_run_and_uninstall(tmp_path):
    words = (f"PREFIX={tmp_path}/usr", f"PROGRAM={program.path()}")
    ran = make("install", *words)
    assert ran.returncode == 0, ran.stderr
    there = files(tmp_path / "usr")
    assert {"bin/bgt", "bin/bgt-geo", "lib/bgt/bgt_geo/page.html", "share/man/man1/bgt.1", "share/man/man1/bgt-geo.1",
            "share/bash-completion/completions/bgt-geo", "share/zsh/site-functions/_bgt", "share/fish/vendor_completions.d/bgt.fish"} <= there
    assert not any("pyc" in it for it in there)
    environment = {name: value for name, value in os.environ.items() if name != "BGT"}
    environment.update(PATH=f"{tmp_path}/usr/bin:{os.environ['PATH']}", PYTHONDONTWRITEBYTECODE="1")
    run = "bgt load register < examples/street.txt && bgt-geo picture register -o map.svg && ls map.svg"
    (tmp_path / "examples").symlink_to(TOP / "examples")
    ran = subprocess.run(["sh", "-c", run], cwd=tmp_path, env=environment, capture_output=True, text=True, check=False)
    assert (ran.returncode, ran.stdout) == (0, "1 OK\n2 OK\n3 OK\nmap.svg\n"), ran.stderr
    assert make("uninstall", *words).returncode == 0
    assert files(tmp_path / "usr") == set()


def test_install_without_the_program_says_so(tmp_path):
    ran = make("install", f"PREFIX={tmp_path}/usr", "PROGRAM=/nowhere/bgt")
    assert ran.returncode != 0 and "bgt is not built yet" in ran.stderr and files(tmp_path) == set()


@pytest.mark.skipif(shutil.which("apt-get") is None, reason="no apt-get")
def test_setup_says_what_it_would_do():
    ran = subprocess.run([TOOLS / "setup", "--dry-run"], capture_output=True, text=True, check=False)
    assert ran.returncode == 0 and ran.stdout.startswith(("tools/setup: would install ", "tools/setup: all packages are there"))
    ran = subprocess.run([TOOLS / "setup", "--strange"], capture_output=True, text=True, check=False)
    assert ran.returncode == 2 and "--strange is not understood" in ran.stderr


def complete(shell, line):
    """What bash offers at the end of a line."""
    files = " ".join(f"source {TOOLS}/completion/{name}.bash;" for name in ("bgt", "bgt-geo"))
    script = f'{files} COMP_WORDS=({line}); COMP_CWORD=$((${{#COMP_WORDS[@]}} - 1)); {shell}; echo "${{COMPREPLY[*]}}"'
    return subprocess.run(["bash", "-c", script], capture_output=True, text=True, check=True).stdout.split()


def test_bash_completes():
    assert complete("_bgt", "bgt ex") == ["export"]
    assert complete("_bgt_geo", "bgt-geo p") == ["picture", "page"]
    assert complete("_bgt_geo", "bgt-geo changes r --e") == ["--end"]


@pytest.mark.parametrize(("shell", "files"), [("zsh", ("_bgt", "_bgt-geo")), ("fish", ("bgt.fish", "bgt-geo.fish"))])
def test_other_shells_read_their_files(shell, files):
    if shutil.which(shell) is None:
        pytest.skip(f"{shell} is not there")
    for name in files:
        assert subprocess.run([shell, "-n", TOOLS / "completion" / name], check=False).returncode == 0


def test_a_tool_without_gdal_says_what_is_missing(tmp_path):
    """By a folder that stands before GDAL's and has none."""
    (tmp_path / "osgeo").mkdir()
    (tmp_path / "osgeo" / "__init__.py").write_text("raise ImportError('none here')\n")
    ran = subprocess.run([TOOLS / "bgt-geo", "layers", "x", "-o", "x.gpkg"], env={**os.environ, "PYTHONPATH": str(tmp_path)},
                         capture_output=True, text=True, check=False)
    assert (ran.returncode, ran.stderr) == (2, "bgt-geo: GDAL's bindings are missing (python3-gdal): run tools/setup\n")
