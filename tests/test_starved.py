"""Runs whose threads are starved or refused, and outputs that wait, for tests/hostile."""
import os
import resource
import shutil
import subprocess
import tempfile
import time
from pathlib import Path

import program
import pytest
from program import ROOT, SECONDS, line, run_bytes, text_of

ROUNDS = 200
WORKERS = (2, 3, 4)
# A user id that nobody has: the limit of processes is one of the user's.
NOBODY = 61_999
SMALL = (ROOT / "examples/two_games_interleaved.jsonl").read_bytes()


@pytest.fixture(scope="module")
def large():
    """The path of a file whose transcript of 24 MB several threads render, and that transcript."""
    names = [f"g{number}" for number in range(16)]
    snakes = [{"id": "s", "x": 5, "y": 5}]
    solo = {"mode": "solo", "width": 11, "height": 11, "snakes": snakes, "food": []}
    solo |= {"min_food": 0, "food_chance": 0}
    lines = [line(games=[{"game": name, "quota": 65_536} for name in names])]
    lines += [line(game=name, do="new", **solo) for name in names]
    lines += [line(game=name, do="show") for _ in range(5_000) for name in names]
    with tempfile.NamedTemporaryFile("w") as file:
        file.write(text_of(lines))
        file.flush()
        status, text, errors = run_bytes(*words_of(file.name, 1))
        assert (status, errors) == (0, b"") and len(text) > 20_000_000
        yield file.name, text


def words_of(file, workers):
    return ["serve", file, "--blocks", "512", "--workers", str(workers)]


def processor_seconds(command, **more):
    """Runs a command to its end, and returns the processor time that it took."""
    before = resource.getrusage(resource.RUSAGE_CHILDREN)
    subprocess.run(command, check=True, timeout=SECONDS, **more)
    after = resource.getrusage(resource.RUSAGE_CHILDREN)
    return after.ru_utime + after.ru_stime - before.ru_utime - before.ru_stime


def test_four_workers_on_one_processor():
    wanted = run_bytes("serve", "-", "--workers", "1", text=SMALL)
    assert wanted[0] == 0
    one = {min(os.sched_getaffinity(0))}
    how = {"preexec_fn": lambda: os.sched_setaffinity(0, one)}
    for _ in range(ROUNDS):
        assert run_bytes("serve", "-", "--workers", "4", text=SMALL, **how) == wanted


def test_a_large_transcript_on_one_processor(large):
    file, wanted = large
    how = {"preexec_fn": lambda: os.sched_setaffinity(0, {min(os.sched_getaffinity(0))})}
    for workers in WORKERS:
        assert run_bytes(*words_of(file, workers), **how) == (0, wanted, b"")


@pytest.mark.slow
@pytest.mark.parametrize("workers", WORKERS)
def test_a_pipe_that_is_full_for_seconds(large, workers):
    """Nothing is read for two seconds, then all: the same bytes, and no thread was busy while it
    waited."""
    file, wanted = large
    with open("/dev/null", "wb") as output:
        freely = processor_seconds([program.path, *words_of(file, workers)], stdout=output)
    before = resource.getrusage(resource.RUSAGE_CHILDREN)
    with subprocess.Popen([program.path, *words_of(file, workers)], stdout=subprocess.PIPE) as ran:
        time.sleep(2)
        text = ran.stdout.read()
    after = resource.getrusage(resource.RUSAGE_CHILDREN)
    assert (ran.returncode, text == wanted) == (0, True)
    slowly = after.ru_utime + after.ru_stime - before.ru_utime - before.ru_stime
    assert slowly < 2 * freely + 0.5


def test_threads_that_the_system_refuses(large):
    """The user may have one process, so each start of a thread fails."""
    if os.geteuid() != 0:
        pytest.skip("the limit of another user wants root")
    file, wanted = large
    small = run_bytes("serve", "-", "--workers", "1", text=SMALL)
    limit = lambda: resource.setrlimit(resource.RLIMIT_NPROC, (1, 1))
    how = {"user": NOBODY, "preexec_fn": limit, "stdout": subprocess.PIPE}
    with tempfile.TemporaryDirectory() as folder:
        os.chmod(folder, 0o755)
        copy = Path(shutil.copy(program.path, folder))
        copy.chmod(0o755)
        for workers in WORKERS:
            with open(file, "rb") as opened:
                command = [copy, *words_of("-", workers)]
                ran = subprocess.run(command, stdin=opened, timeout=SECONDS, **how)
            assert (ran.returncode, ran.stdout == wanted) == (0, True)
            command = [copy, "serve", "-", "--workers", str(workers)]
            ran = subprocess.run(command, input=SMALL, timeout=SECONDS, **how)
            assert (ran.returncode, ran.stdout) == small[:2]
