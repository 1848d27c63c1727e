"""What all tests under pytest share: their options, the program, and the browser."""

from __future__ import annotations

import os
import subprocess
from collections.abc import Iterator
from pathlib import Path

import pytest
from testing import chromium  # of viewer/

ROOT = Path(__file__).resolve().parent
BUILT = ROOT / "crates/arena/out/arena"


def pytest_addoption(parser: pytest.Parser) -> None:
    parser.addoption("--program", metavar="PATH", default=BUILT, help="arena, if not the built one")
    parser.addoption("--seed", metavar="S", type=int, default=1, help="of what is drawn")


def pytest_configure() -> None:
    """Lets the programs that tests start find the packages and the bots of the ladder."""
    os.environ["PYTHONPATH"] = f"{ROOT}/ladder/src{os.pathsep}{ROOT}/ladder/bots"
    os.environ["PYTHONDONTWRITEBYTECODE"] = "1"


@pytest.fixture(scope="session")
def program(request: pytest.FixtureRequest) -> Path:
    """The path of the program, which has to exist and to have the command `live`."""
    path = Path(request.config.getoption("--program")).resolve()
    if not path.is_file():
        pytest.exit(f"there is no program {path}: ./arena --help proves and builds it", 1)
    if subprocess.run([path, "live", "--help"], capture_output=True).returncode != 0:
        pytest.exit(f"{path} has no command live", 1)
    return path


@pytest.fixture(scope="session")
def browser() -> Iterator[chromium.Browser]:
    """Chromium without a window."""
    try:
        chromium.install()
    except chromium.NotToBeHad as fault:
        pytest.fail(f"Chromium is missing and can't be installed ({fault})")
    opened = chromium.Browser()
    yield opened
    opened.close()
