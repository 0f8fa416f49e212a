"""docs/GIS.md shows what the calls write, and its pictures are those that they draw."""
import os
import re
import subprocess

import pytest

from bgt_geo import program
from conftest import TOP, needs_bgt

pytest.importorskip("osgeo")
pytestmark = needs_bgt
PAGE = (TOP / "docs" / "GIS.md").read_text()


def blocks(text):
    """The console blocks of a page, each as a list of (command, what is shown for it)."""
    for block in re.findall(r"^```console\n(.*?)^```$", text, re.M | re.S):
        parts = re.split(r"^\$ (.*)\n", block, flags=re.M)
        yield list(zip(parts[1::2], parts[2::2]))


def scratch(folder):
    """A folder in which the page's commands run: bgt-geo on the path, ./bgt, and the examples."""
    (folder / "bgt").write_text(f'#!/bin/sh\nexec "{program.path()}" "$@"\n')
    (folder / "bgt").chmod(0o755)
    (folder / "examples").symlink_to(TOP / "examples")
    (folder / "tools").symlink_to(TOP / "tools")
    return {**os.environ, "PATH": f"{TOP / 'tools'}:{os.environ['PATH']}", "BGT": program.path(), "PYTHONDONTWRITEBYTECODE": "1"}


def run(command, folder, environment):
    """What a command writes, standard error among it."""
    return subprocess.run(["sh", "-c", command], cwd=folder, env=environment, stdout=subprocess.PIPE, stderr=subprocess.STDOUT, text=True,
                          check=False).stdout


@pytest.fixture(scope="module")
def ran(tmp_path_factory):
    """The page's commands, run once in their order: what was shown and what was written for each, and the folder that they left."""
    folder = tmp_path_factory.mktemp("page")
    environment = scratch(folder)
    return [(command, shown, run(command, folder, environment)) for block in blocks(PAGE) for command, shown in block], folder


def test_each_console_block_is_what_is_written(ran):
    assert len(ran[0]) > 15
    for command, shown, written in ran[0]:
        assert (command, written) == (command, shown)


@pytest.mark.parametrize(("drawn", "kept"), [("neighbourhood.svg", "neighbourhood.svg"), ("pictures/message-2.svg", "refusal.svg")])
def test_the_pictures_are_those_that_are_drawn(ran, drawn, kept):
    assert (ran[1] / drawn).read_text() == (TOP / "docs" / "pictures" / kept).read_text()


def test_man_pages_name_each_call_and_option():
    from bgt_geo import main
    page = (TOP / "docs" / "bgt-geo.1").read_text().replace("\\-", "-")
    calls = next(it for it in main.parser()._actions if it.dest == "call").choices
    for name, call in calls.items():
        assert f".B bgt-geo {name}\n" in page
        for option in (word for it in call._actions for word in it.option_strings if word.startswith("--") and word != "--help"):
            assert option in page or option == "--output"


def test_completions_name_each_call_and_option():
    from bgt_geo import main
    calls = next(it for it in main.parser()._actions if it.dest == "call").choices
    for file in ("bgt-geo.bash", "_bgt-geo", "bgt-geo.fish"):
        text = (TOP / "tools" / "completion" / file).read_text()
        for name, call in calls.items():
            assert name in text
            for option in (word for it in call._actions for word in it.option_strings if word.startswith("--") and word != "--help"):
                assert option in text or f"-l {option[2:]} " in text
