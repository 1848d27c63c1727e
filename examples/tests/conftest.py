"""Gives the program to the module of tests/ that runs it."""

import program as runs
import pytest


@pytest.fixture(scope="session", autouse=True)
def run_given_program(program):
    runs.path = program
