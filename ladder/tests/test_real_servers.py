"""Real servers of Debian's packages play without a missed move.

They are gunicorn, uvicorn, Node, Java's, and nginx with TLS before one of them; with --all also
those of `MORE`. Those that cannot be had within a minute, or five, are left out, and the test of
each says so.
"""

from __future__ import annotations

import json
import os
from collections import Counter
from collections.abc import Iterator
from contextlib import closing
from dataclasses import dataclass
from pathlib import Path

import pytest
from real_servers import GATE, MORE, Server, missing, serving_all
from served import run_ladder, write_config

from arena_ladder.results.quantiles import quantile
from arena_ladder.results.store import open_store

ROUNDS = 2
TIMEOUT = 6000  # milliseconds, since the machine may be loaded
MOST_SLOWER = 30  # milliseconds than the quickest; waits for acknowledgements take 40


@dataclass
class Played:
    """A ladder of the servers that are there, and why the others are not."""

    rows: dict[str, dict[str, int]]
    latencies: dict[str, Counter[int]]
    missing: dict[str, str]


def servers_of(config: pytest.Config) -> dict[str, Server]:
    return GATE | MORE if config.getoption("--all") else GATE


def pytest_generate_tests(metafunc: pytest.Metafunc) -> None:
    metafunc.parametrize("server", list(servers_of(metafunc.config)))


@pytest.fixture(scope="module")
def played(
    program: Path, request: pytest.FixtureRequest, tmp_path_factory: pytest.TempPathFactory
) -> Iterator[Played]:
    """Plays each server against each other one."""
    wanted = servers_of(request.config)
    left_out = missing(wanted, *(["--all"] if len(wanted) > len(GATE) else []))
    servers = {name: it for name, it in wanted.items() if name not in left_out}
    folder = tmp_path_factory.mktemp("real")
    with serving_all(servers, folder) as urls:
        rows, latencies = play(program, folder, urls) if len(urls) > 1 else ({}, {})
        yield Played(rows, latencies, left_out)


def play(
    program: Path, folder: Path, urls: dict[str, str]
) -> tuple[dict[str, dict[str, int]], dict[str, Counter[int]]]:
    """Plays a ladder, and returns its standings, and how often each bot took each time."""
    members = {"folder": str(folder / "x"), "rounds": ROUNDS, "timeout": TIMEOUT, "turns": 40}
    members |= {"games_a_bot": 4, "at_once": 10}
    config = write_config(folder / "x.toml", urls.items(), seed=1, **members)
    os.environ["SSL_CERT_FILE"] = str(folder / "certificate.pem")
    try:
        ran = run_ladder("play", config, "--program", program)
    finally:
        del os.environ["SSL_CERT_FILE"]
    assert ran.returncode == 0, ran.stderr
    assert "did not say how it looks" not in ran.stderr
    text = run_ladder("standings", folder / "x", "--json").stdout
    with closing(open_store(folder / "x")) as store:
        return {row["bot"]: row for row in json.loads(text)}, store.latencies()


@pytest.mark.slow
def test_real_server_misses_no_move(played: Played, server: str) -> None:
    if server in played.missing:
        pytest.skip(f"{server} is not played: {played.missing[server]}")
    row = played.rows[server]
    assert row["games"] == ROUNDS * (len(played.rows) - 1)
    assert (row["moves"] > 20, row["missed"]) == (True, 0)
    # A quarter of the answers is as quick on a busy machine too.
    quarters = {bot: quantile(it, 0.25) or 0 for bot, it in played.latencies.items()}
    assert quarters[server] <= min(quarters.values()) + MOST_SLOWER
