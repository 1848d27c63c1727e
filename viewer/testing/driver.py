# A running chromedriver: started, asked over HTTP, and ended with all that it started. No wait is
# without an end.
import ctypes
import http.client
import json
import os
import shutil
import signal
import subprocess
import time
from contextlib import suppress
from pathlib import Path
from typing import Any

START_SECONDS = 60  # until one says its port
ANSWER_SECONDS = 90  # of a command; the limits of the driver itself are shorter
END_SECONDS = 10  # from asking it to end until it is killed, and then until nobody waits any more
POLL_SECONDS = 0.02
DEATH_SIGNAL = 1  # prctl's option
SAID = b"started successfully on port "
LAST_BYTES = 1000  # of its output, which a message has


class NoAnswer(Exception):
    """A driver that did not start or did not answer in time, with the end of its output."""


def command() -> list[str]:
    """The words that start a driver on a port that it chooses."""
    return [shutil.which("chromedriver") or "chromedriver", "--port=0"]


def end_with_parent() -> None:
    """Lets this process end when the tests are killed, whose group's signals do not reach it."""
    ctypes.CDLL(None).prctl(DEATH_SIGNAL, signal.SIGTERM)


def processes_of(session: int) -> set[int]:
    """The processes of a session, without those that have ended."""
    found: set[int] = set()
    for entry in Path("/proc").iterdir():
        with suppress(OSError, ValueError):
            pid = int(entry.name)
            state, _, _, its = (entry / "stat").read_text().rpartition(")")[2].split()[:4]
            if int(its) == session and state != "Z":
                found.add(pid)
    return found


class Driver:
    """A chromedriver, in a session of its own, so that its processes are found.

    What it writes goes to a file, so that it never waits for a reader.
    """

    def __init__(self, output: Path) -> None:
        self.output = output
        self.port: int | None = None
        with open(output, "wb") as file:
            self.process = subprocess.Popen(
                command(),
                stdin=subprocess.DEVNULL,
                stdout=file,
                stderr=file,
                start_new_session=True,
                preexec_fn=end_with_parent,
            )

    def finds_port(self, ends: float) -> bool:
        """Waits for the line with the port that it chose. Returns whether it came before a moment
        of the monotonic clock, and before the driver ended."""
        while self.port is None and time.monotonic() < ends:
            has_ended = self.process.poll() is not None
            _, said, rest = self.output.read_bytes().partition(SAID)
            if said and b"\n" in rest:
                self.port = int(rest.split(b"\n")[0].strip(b" ."))
            elif has_ended:
                break
            else:
                time.sleep(POLL_SECONDS)
        return self.port is not None

    def ask(self, method: str, path: str, body: Any = None, seconds: float = ANSWER_SECONDS) -> Any:
        """The value of its answer. Raises NoAnswer without one, and RuntimeError for a fault."""
        connection = http.client.HTTPConnection("127.0.0.1", self.port, timeout=seconds)
        try:
            text = None if body is None else json.dumps(body).encode()
            connection.request(method, path, text, {"Content-Type": "application/json"})
            answer = connection.getresponse()
            value = json.loads(answer.read())["value"]
        except (OSError, http.client.HTTPException, ValueError, LookupError) as fault:
            why = f"no answer within {seconds} s ({type(fault).__name__}: {fault})"
            raise NoAnswer(f"{method} {path}: {why}\n{self.last_output()}") from fault
        finally:
            connection.close()
        if answer.status != http.HTTPStatus.OK:
            raise RuntimeError(f"{method} {path}: {value['error']}: {value['message']}")
        return value

    def last_output(self) -> str:
        return self.output.read_bytes()[-LAST_BYTES:].decode(errors="replace")

    def end(self) -> None:
        """Ends it, and kills what is left of it and of its browser after some seconds."""
        began = processes_of(self.process.pid)
        self.process.terminate()
        with suppress(subprocess.TimeoutExpired):
            self.process.wait(END_SECONDS)
        for pid in began & processes_of(self.process.pid):
            with suppress(ProcessLookupError):
                os.kill(pid, signal.SIGKILL)
        with suppress(subprocess.TimeoutExpired):
            self.process.wait(END_SECONDS)


def start_driver(output: Path) -> Driver:
    """Starts a driver that writes to a file, and returns it; raises NoAnswer if it says no port.

    One that ends at once, since another program took its port, is started again.
    """
    ends = time.monotonic() + START_SECONDS
    while True:
        driver = Driver(output)
        try:
            if driver.finds_port(ends):
                return driver
        except BaseException:
            driver.end()
            raise
        driver.end()
        if time.monotonic() >= ends:
            raise NoAnswer(
                f"chromedriver said no port within {START_SECONDS} s:\n{driver.last_output()}"
            )
