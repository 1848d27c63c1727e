"""The options of the tests, and the program that they run."""

import os
from pathlib import Path

import program as runs
import pytest


def pytest_addoption(parser: pytest.Parser) -> None:
    parser.addoption("--files", metavar="N", type=int, default=1000, help="drawn, if not 1,000")
    jobs = min(2, os.cpu_count() or 1)
    parser.addoption("--jobs", metavar="N", type=int, default=jobs, help="at the same time")


@pytest.fixture(scope="session", autouse=True)
def run_given_program(program: Path) -> None:
    runs.path = program
