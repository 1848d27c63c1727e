"""The options of the tests, and the program that they run."""
from pathlib import Path

import program as runs
import pytest

pytest.register_assert_rewrite("library_games", "library_page")


def pytest_addoption(parser):
    parser.addoption("--library", metavar="FILE", type=Path, help="libarena_c.a, if not the built")
    parser.addoption("--games", metavar="N", type=int, default=2000, help="drawn, if not 2,000")


@pytest.fixture(scope="session", autouse=True)
def run_given_program(program):
    runs.path = program


@pytest.fixture(scope="session")
def library(request):
    """Builds the library, which arena_rules loads; so nothing imports that earlier."""
    import library_page

    file = request.config.getoption("--library")
    words = ["--library", file.resolve()] if file else []
    library_page.ran(runs.ROOT / "bindings/build", *words)


@pytest.fixture
def rules(library):
    """The module arena_rules, with the built library."""
    import arena_rules

    return arena_rules
