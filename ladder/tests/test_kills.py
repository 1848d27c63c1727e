"""Kills and stops ladders, hosts and bots at drawn moments, and plays the ladders again."""

from __future__ import annotations

import os
import random
import resource
import signal
import subprocess
import sys
import time
from collections.abc import Callable, Iterator
from contextlib import contextmanager
from dataclasses import dataclass
from pathlib import Path
from typing import Any

import pytest
from served import (
    HERE,
    LADDER,
    SMALL,
    Served,
    bytes_played,
    children_of,
    complaints,
    files_of,
    free_port,
    is_running,
    run_ladder,
    serve_small,
    serving,
    standings_without_times,
    start_play,
    write_config,
)

from arena_ladder.net.misses import Miss

SEED = 20261127
LONGEST = 600  # seconds of a run
GAMES = 10
STOP_SECONDS = 4.0  # for which a process is stopped
SHORT_TIMEOUT = 1500  # milliseconds, less than that
CLOCK = Path("/usr/lib/x86_64-linux-gnu/faketime/libfaketime.so.1")  # of Debian's libfaketime
Process = subprocess.Popen[str]
JUMPS = (3600, -86_400, 30 * 86_400)  # seconds from the true time


@dataclass(frozen=True)
class Undisturbed:
    """The results of a run without kills."""

    files: dict[str, bytes]
    standings: list[dict[str, Any]]

    @property
    def size(self) -> int:
        return sum(map(len, self.files.values()))

    @property
    def moves(self) -> int:
        return sum(row["moves"] for row in self.standings)


def config_in(folder: Path, bots: Served, **members: Any) -> Path:
    """A configuration of ten games, four at once, with the results below `folder`."""
    return write_config(
        folder / "small.toml",
        [(name, bots.url(name)) for name in SMALL],
        **{
            "folder": str(folder / "results"),
            "at_once": 4,
            "turns": 80,
            "timeout": 5000,
            "seed": 1,
            **members,
        },
    )


@pytest.fixture(scope="module")
def undisturbed(
    program: Path, small_bots: Served, tmp_path_factory: pytest.TempPathFactory
) -> Undisturbed:
    folder = tmp_path_factory.mktemp("undisturbed")
    ran = run_ladder("play", config_in(folder, small_bots), "--program", program)
    assert ran.returncode == 0, ran.stderr
    return Undisturbed(files_of(folder / "results"), standings_without_times(folder / "results"))


def wait_for(process: subprocess.Popen[str], is_so: Callable[[], bool]) -> None:
    """Waits until a condition holds; the process has to run meanwhile."""
    ends = time.monotonic() + LONGEST
    while not is_so():
        assert process.poll() is None and time.monotonic() < ends
        time.sleep(0.001)


def drawn_moments(kind: str, count: int, total: int) -> list[int]:
    """Drawn numbers of moves, or sizes of command files, from one to nearly the total."""
    draw = random.Random(f"{SEED} {kind}")
    return [draw.randrange(1, total * 19 // 20) for _ in range(count)]


def assert_same(folder: Path, expected: Undisturbed, program: Path) -> None:
    """Checks that files and standings are those of the undisturbed run, and all games agree."""
    assert files_of(folder) == expected.files
    assert standings_without_times(folder) == expected.standings
    assert not list((folder / "running").iterdir())
    assert run_ladder("check", folder, "--program", program).returncode == 0


@contextmanager
def killed(folder: Path, program: Path, move: int, *words: str) -> Iterator[tuple[Path, Process]]:
    """A ladder that is killed before that move, or its host with the word --host; with its
    configuration, whose bots are served within the context."""
    folder.mkdir()
    bots_that_kill: list[str | Path] = [sys.executable, HERE / "killing.py", *words]
    bots_that_kill += ["--before", str(move), "--ladder", folder / "pid"]
    with serving(bots_that_kill, free_port()) as bots:
        config = config_in(folder, bots)
        process = start_play(config, program)
        (folder / "writing").write_text(str(process.pid))
        (folder / "writing").rename(folder / "pid")
        yield config, process


def test_ladder_that_is_killed_goes_on(
    program: Path, undisturbed: Undisturbed, kills: int, tmp_path: Path
) -> None:
    for at, move in enumerate(drawn_moments("ladder", kills, undisturbed.moves)):
        folder = tmp_path / str(at)
        with killed(folder, program, move) as (config, process):
            process.communicate(timeout=LONGEST)
            assert process.returncode == -signal.SIGKILL
            again = run_ladder("play", config, "--program", program)
        assert (again.returncode, complaints(again.stderr)) == (0, "")
        assert again.stdout.startswith(f"ladder: {GAMES} of {GAMES} games are done, ")
        assert_same(folder / "results", undisturbed, program)
        _, host = (folder / "pid").read_text().split()
        assert not is_running(int(host)), "a host outlived its ladder"


def test_host_that_is_killed_is_followed_by_another(
    program: Path, undisturbed: Undisturbed, kills: int, tmp_path: Path
) -> None:
    for at, move in enumerate(drawn_moments("host", kills, undisturbed.moves)):
        folder = tmp_path / str(at)
        with killed(folder, program, move, "--host") as (_, process):
            error = process.communicate(timeout=LONGEST)[1]
        assert process.returncode == 0, error
        told = complaints(error)
        assert told == "ladder: arena live ended with status -9; its games go on in another\n"
        assert_same(folder / "results", undisturbed, program)


def skip_unless_all(request: pytest.FixtureRequest) -> None:
    if not request.config.getoption("--all"):
        pytest.skip("by hand, with --all: it takes a while")


@pytest.mark.parametrize("is_host", [False, True], ids=["ladder", "host"])
def test_process_that_is_stopped_for_a_while_changes_nothing(
    request: pytest.FixtureRequest,
    program: Path,
    small_bots: Served,
    undisturbed: Undisturbed,
    tmp_path: Path,
    is_host: bool,
) -> None:
    """No move is missed, although the process is stopped for longer than the timeout."""
    skip_unless_all(request)
    for at, moment in enumerate(drawn_moments(f"stop {is_host}", 3, undisturbed.size // 2)):
        folder = tmp_path / str(at)
        folder.mkdir()
        config = config_in(folder, small_bots, timeout=SHORT_TIMEOUT)
        process = start_play(config, program)
        wait_for(process, lambda: bytes_played(folder / "results") > moment)
        stopped = children_of(process.pid)[0] if is_host else process.pid
        os.kill(stopped, signal.SIGSTOP)
        time.sleep(STOP_SECONDS)
        os.kill(stopped, signal.SIGCONT)
        _, error = process.communicate(timeout=LONGEST)
        assert process.returncode == 0, error
        assert_same(folder / "results", undisturbed, program)


def test_clock_that_is_set_changes_nothing(
    request: pytest.FixtureRequest,
    program: Path,
    small_bots: Served,
    undisturbed: Undisturbed,
    tmp_path: Path,
    monkeypatch: pytest.MonkeyPatch,
) -> None:
    """The clock of the ladder and its host jumps an hour on, a day back and a month on."""
    skip_unless_all(request)
    assert CLOCK.is_file(), "Debian's package libfaketime is missing"
    config = config_in(tmp_path, small_bots)
    clock = tmp_path / "clock"
    clock.write_text("+0\n")
    monkeypatch.setenv("FAKETIME_TIMESTAMP_FILE", str(clock))
    monkeypatch.setenv("FAKETIME_NO_CACHE", "1")
    monkeypatch.setenv("FAKETIME_DONT_FAKE_MONOTONIC", "1")
    monkeypatch.setenv("LD_PRELOAD", str(CLOCK))
    process = start_play(config, program)
    for at, jump in enumerate(JUMPS, 1):
        moment = undisturbed.size * at // (1 + len(JUMPS))
        wait_for(process, lambda: bytes_played(tmp_path / "results") > moment)
        clock.write_text(f"{jump:+}\n")
        shown = subprocess.run(["date", "+%s"], capture_output=True, check=True).stdout
        assert abs(int(shown) - time.time() - jump) < 60
    _, error = process.communicate(timeout=LONGEST)
    assert process.returncode == 0, error
    monkeypatch.delenv("LD_PRELOAD")
    assert_same(tmp_path / "results", undisturbed, program)


def test_ladder_that_is_interrupted_says_so(
    program: Path, small_bots: Served, undisturbed: Undisturbed, tmp_path: Path
) -> None:
    config = config_in(tmp_path, small_bots)
    process = start_play(config, program)
    wait_for(process, lambda: bytes_played(tmp_path / "results") > undisturbed.size // 3)
    process.send_signal(signal.SIGTERM)
    _, error = process.communicate(timeout=LONGEST)
    assert process.returncode == 130
    assert complaints(error) == "ladder: stopped; the same command goes on\n"
    assert run_ladder("play", config, "--program", program).returncode == 0
    assert_same(tmp_path / "results", undisturbed, program)


def play_with_limits(config: Path, program: Path, limit: int) -> subprocess.CompletedProcess[str]:
    """Plays a ladder that may open only some descriptors."""
    words: list[str | Path] = [LADDER, "play", config, "--program", program]
    return subprocess.run(
        words,
        capture_output=True,
        text=True,
        preexec_fn=lambda: resource.setrlimit(resource.RLIMIT_NOFILE, (limit, limit)),
    )


def test_ladder_with_few_descriptors_blames_no_bot(
    program: Path, small_bots: Served, undisturbed: Undisturbed, kills: int, tmp_path: Path
) -> None:
    """It ends with the reason; with more of them the same command goes on to the same results."""
    config = config_in(tmp_path, small_bots)
    for limit in range(24 - kills, 25, 2):
        ran = play_with_limits(config, program, limit)
        assert ran.returncode == 1
        assert "Too many open files" in ran.stderr or "unable to open database" in ran.stderr
        assert "Traceback" not in ran.stderr
    assert run_ladder("play", config, "--program", program).returncode == 0
    assert_same(tmp_path / "results", undisturbed, program)


@pytest.mark.root
def test_ladder_on_a_full_disk_goes_on_later(
    program: Path, small_bots: Served, undisturbed: Undisturbed, kills: int, tmp_path: Path
) -> None:
    """It ends with the reason; with more room the same command goes on to the same results."""
    folder = tmp_path / "results"
    folder.mkdir()
    mount = ["mount", "-t", "tmpfs", "-o", "size=60k", "ladder", str(folder)]
    if subprocess.run(mount, capture_output=True).returncode != 0:
        pytest.skip("no file system can be mounted here")
    try:
        config = config_in(tmp_path, small_bots)
        for size in range(60, 60 + 8 * kills, 8):
            subprocess.run(["mount", "-o", f"remount,size={size}k", str(folder)], check=True)
            ran = run_ladder("play", config, "--program", program)
            assert ran.returncode == 1 and "Traceback" not in ran.stderr
            assert "No space left on device" in ran.stderr or "disk is full" in ran.stderr
        subprocess.run(["mount", "-o", "remount,size=20m", str(folder)], check=True)
        assert run_ladder("play", config, "--program", program).returncode == 0
        assert_same(folder, undisturbed, program)
    finally:
        subprocess.run(["umount", str(folder)], check=True)


def test_second_ladder_in_a_folder_is_refused(
    program: Path, small_bots: Served, tmp_path: Path
) -> None:
    config = config_in(tmp_path, small_bots)
    process = start_play(config, program)
    wait_for(process, lambda: bytes_played(tmp_path / "results") > 0)
    process.send_signal(signal.SIGSTOP)  # so that it is not done when the other one has started
    second = run_ladder("play", config, "--program", program)
    assert second.returncode == 1
    assert second.stderr == f"ladder: another ladder is playing in {tmp_path / 'results'}\n"
    process.kill()
    process.communicate()


def test_bots_that_die_lose_and_hold_up_no_game(
    program: Path, small_bots: Served, tmp_path: Path
) -> None:
    """After the process of two bots was killed, their moves are missed, and all games end.

    A killed process answers nothing more: its open connections break off, and others are refused.
    """
    with serve_small() as mortal:
        bots = [("dying1", mortal.url("fleer")), ("dying2", mortal.url("seeker"))]
        bots += [(name, small_bots.url(name)) for name in SMALL[:3]]
        config = write_config(
            tmp_path / "dying.toml", bots, folder=str(tmp_path / "results"), timeout=5000, turns=60
        )
        process = start_play(config, program)
        wait_for(process, lambda: bytes_played(tmp_path / "results") > 20_000)
        mortal.process.kill()
    out, error = process.communicate(timeout=LONGEST)
    assert (process.returncode, complaints(error)) == (0, "")
    rows = {row["bot"]: row for row in standings_without_times(tmp_path / "results")}
    for name, row in rows.items():
        causes = {cause: row[cause] for cause in Miss if row[cause] > 0}
        if name.startswith("dying"):
            assert "refused" in causes and causes.keys() <= {"refused", "cut"}, causes
            assert row["losses"] > 0
        else:
            assert not causes
    checked = run_ladder("check", tmp_path / "results", "--program", program)
    assert checked.stdout == "10 of 10 games agree\n"
