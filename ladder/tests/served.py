"""Runs bots in separate processes, and ladders that play them."""

from __future__ import annotations

import json
import math
import select
import socket
import subprocess
import sys
import time
import urllib.request
from collections.abc import Callable, Iterable, Iterator, Sequence
from contextlib import contextmanager
from dataclasses import dataclass
from pathlib import Path
from typing import IO, Any

HERE = Path(__file__).resolve().parent
LADDER = HERE.parent / "ladder"
START_SECONDS = 120  # a busy machine may need half a minute
BUSY = "ladder: this machine is too busy: it plays fewer games at once\n"
SMALL = ("seeker", "fleer", "hungry", "careful", "lazy")


@dataclass(frozen=True)
class Served:
    """The bots of one port, and their process."""

    port: int
    process: subprocess.Popen[bytes]

    def url(self, name: str) -> str:
        return f"http://127.0.0.1:{self.port}/{name}"

    def told(self, what: str) -> dict[str, Any]:
        """What the faulty bots tell of themselves: their `counts`, or the `ids` of requests."""
        with urllib.request.build_opener(urllib.request.ProxyHandler({})).open(
            self.url(what), timeout=START_SECONDS
        ) as answer:
            told: dict[str, Any] = json.load(answer)
        return told


def free_port() -> int:
    """A port for a server. For a minute the system gives it to nobody who asks for any port: one of
    its connections was ended, and rests (TIME_WAIT). Servers may take it nevertheless."""
    with socket.create_server(("127.0.0.1", 0)) as listening:
        place = listening.getsockname()
        with socket.create_connection(place) as asking:
            listening.accept()[0].close()
            asking.recv(1)
        return int(place[1])


@contextmanager
def serving(words: Sequence[str | Path], port: int) -> Iterator[Served]:
    """Runs a server within the context, which begins when the server answers."""
    process = subprocess.Popen([*words, "--port", str(port)])
    try:
        ends = time.monotonic() + START_SECONDS
        while True:
            try:
                socket.create_connection(("127.0.0.1", port), timeout=1).close()
                break
            except OSError:
                assert process.poll() is None and time.monotonic() < ends, "no server"
                time.sleep(0.05)
        yield Served(port, process)
    finally:
        process.terminate()
        process.wait()


def serve_small() -> Any:
    return serving([sys.executable, HERE.parent / "bots" / "serve"], free_port())


def serve_faulty() -> Any:
    return serving([sys.executable, HERE / "faulty.py"], free_port())


def write_config(path: Path, bots: Iterable[tuple[str, str]], **members: Any) -> Path:
    """Writes a configuration; `bots` are pairs of a name and an address."""
    lines = [f"{key} = {json.dumps(value)}" for key, value in members.items()]
    for name, url in bots:
        lines += ["[[bot]]", f"name = {json.dumps(name)}", f"url = {json.dumps(url)}"]
    path.write_text("\n".join(lines) + "\n")
    return path


def start_play(config: Path, program: Path, *words: str) -> subprocess.Popen[str]:
    """Starts to play a ladder in a separate process."""
    return subprocess.Popen(
        [LADDER, "play", config, "--program", program, *words],
        stdout=subprocess.PIPE,
        stderr=subprocess.PIPE,
        text=True,
    )


def first_line(stream: IO[str] | None) -> str:
    """The first line that a program writes; fails if none comes."""
    assert stream is not None
    assert select.select([stream], [], [], START_SECONDS)[0], "the program wrote nothing"
    return stream.readline()


def run_ladder(*words: str | Path) -> subprocess.CompletedProcess[str]:
    """Runs a command of the ladder, and waits for its end."""
    return subprocess.run([LADDER, *words], capture_output=True, text=True)


def complaints(error: str) -> str:
    """What a ladder wrote to its standard error, but that the machine is busy."""
    return error.replace(BUSY, "")


def least_work(work: Callable[[], object], times: int = 5) -> float:
    """The least processor time of some work, in units of that of a fixed loop measured beside it,
    so that a slow or busy machine changes it little. A unit is some 3 ms."""
    spent = unit = math.inf
    for _ in range(times):
        unit = min(unit, seconds_of(lambda: sum(at * at for at in range(50_000))))
        spent = min(spent, seconds_of(work))
    return spent / unit


def seconds_of(work: Callable[[], object]) -> float:
    """The processor time of this process for some work."""
    began = time.process_time()
    work()
    return time.process_time() - began


def board_with(**members: Any) -> Any:
    """A board for code that needs these members alone."""
    return members


def children_of(pid: int) -> list[int]:
    """The running child processes of a process."""
    found = []
    for entry in Path("/proc").iterdir():
        if entry.name.isdigit():
            try:
                after_name = (entry / "stat").read_text().rpartition(")")[2].split()
            except OSError:
                continue
            if int(after_name[1]) == pid and after_name[0] != "Z":
                found.append(int(entry.name))
    return found


def bytes_played(folder: Path) -> int:
    """The total size of the command files of a folder."""
    return sum(path.stat().st_size for path in (folder / "games").glob("*.jsonl"))


def files_of(folder: Path) -> dict[str, bytes]:
    """The command files of a folder by their names."""
    return {path.name: path.read_bytes() for path in (folder / "games").iterdir()}


def standings_without_times(folder: Path) -> list[dict[str, Any]]:
    """The standings of a folder without the columns that differ from run to run."""
    rows: list[dict[str, Any]] = json.loads(run_ladder("standings", folder, "--json").stdout)
    for row in rows:
        del row["median_ms"], row["p99_ms"]
    return rows


def is_running(pid: int) -> bool:
    """Whether a process runs; a zombie does not."""
    try:
        stat = Path(f"/proc/{pid}/stat").read_text()
    except OSError:
        return False
    return stat.rpartition(")")[2].split()[0] != "Z"
