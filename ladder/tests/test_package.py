"""Tests of the package: its map of modules, and `pip install ./ladder` with the command, its pages,
and the viewer."""

from __future__ import annotations

import os
import re
import shutil
import subprocess
import sys
from pathlib import Path

import pytest
from served import HERE, Served, run_ladder

import arena_ladder

ROOT = HERE.parent.parent
SOURCES = ROOT / "ladder/src/arena_ladder"
OPTIONS = ("--quiet", "--no-build-isolation", "--no-index", "--no-deps")


def mapped() -> dict[str, str]:
    """What the map of the modules says of each package, in its order."""
    words = re.split(r"^    (\w+)/ ", arena_ladder.__doc__ or "", flags=re.MULTILINE)
    texts = (it.split("\n\n")[0] for it in words[2::2])
    return dict(zip(words[1::2], texts, strict=True))


def test_map_has_each_module() -> None:
    packages = {it.parent.name for it in SOURCES.glob("*/__init__.py")}
    assert packages == set(mapped())
    for package, text in mapped().items():
        named = set(re.findall(r"\w+", text))
        modules = {it.stem for it in (SOURCES / package).glob("[a-z]*.py")}
        assert modules - named == {it for it in modules if it.endswith("_commands")}, package


def test_packages_import_only_those_before_them() -> None:
    order = list(mapped())
    for at, package in enumerate(order):
        for file in (SOURCES / package).rglob("*.py"):
            found = set(re.findall(r"(?:from|import) arena_ladder\.(\w+)", file.read_text()))
            assert found <= {*order[: at + 1], "texts", "heap"}, file


@pytest.fixture(scope="module")
def installed(tmp_path_factory: pytest.TempPathFactory) -> Path:
    """The folder into which a copy of the package is installed, since a build writes beside it."""
    folder = tmp_path_factory.mktemp("package")
    for name in ("ladder", "viewer"):
        unread = shutil.ignore_patterns("out", "build", "__pycache__", "*.egg-info")
        shutil.copytree(ROOT / name, folder / name, ignore=unread)
    words = ("install", *OPTIONS, "--target", folder / "site", folder / "ladder")
    subprocess.run([sys.executable, "-m", "pip", *words], check=True)
    shutil.rmtree(folder / "viewer")
    return folder / "site"


def run_installed(site: Path, *words: str | Path) -> str:
    """Runs a program of an installed package, and returns what it says."""
    environment = {**os.environ, "PYTHONPATH": str(site)}
    ran = subprocess.run(
        [sys.executable, *words], cwd=site, env=environment, capture_output=True, text=True
    )
    assert (ran.returncode, ran.stderr) == (0, "")
    return ran.stdout


def test_command_has_its_name(installed: Path) -> None:
    said = run_installed(installed, "bin/arena-ladder", "--help")
    assert said.startswith("usage: arena-ladder [-h] COMMAND")
    assert run_ladder("--help").stdout == said.replace("arena-ladder", "ladder")


def test_package_has_the_files_of_its_page(installed: Path) -> None:
    code = (
        "from arena_ladder.page.page_calls import files_of_page as it\n"
        "print(*it().values(), sep='\\n')"
    )
    files = [Path(line) for line in run_installed(installed, "-c", code).splitlines()]
    assert len(files) > 20 and all(installed in it.parents and it.is_file() for it in files)
    for folder in ("arena_client", "arena_ladder"):
        assert (installed / folder / "py.typed").is_file()


def test_match_is_played_and_its_page_is_made(
    installed: Path, program: Path, small_bots: Served
) -> None:
    bots = [small_bots.url(name) for name in ("fleer", "seeker")]
    rules = ("--seed", "1", "--turns", "5", "--program", program)
    said = run_installed(installed, "bin/arena-ladder", "match", *bots, *rules)
    assert said.startswith("5 turns\n")
    page = (installed / "out/matches/0001/game.html").read_text()
    assert f'src="{(installed / "arena_ladder/viewer").as_uri()}/' in page
