"""The fixtures of the tests: kills, and bots on the loopback."""

from __future__ import annotations

from collections.abc import Iterator

import pytest
from served import Served, serve_faulty, serve_small


def pytest_addoption(parser: pytest.Parser) -> None:
    parser.addoption("--all", action="store_true", help="ten kills of each kind in place of two")


@pytest.fixture(scope="session")
def kills(request: pytest.FixtureRequest) -> int:
    """The number of kills of each kind of process."""
    return 10 if request.config.getoption("--all") else 2


@pytest.fixture(scope="session")
def small_bots() -> Iterator[Served]:
    """The bots of ladder/bots."""
    with serve_small() as served:
        yield served


@pytest.fixture
def faulty_bots() -> Iterator[Served]:
    """The bots of faulty.py, which fail as planned."""
    with serve_faulty() as served:
        yield served
