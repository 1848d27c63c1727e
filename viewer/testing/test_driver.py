# Tests of the driver's helper, with programs in place of chromedriver: whatever they do, no test
# waits for ever, and nothing of them is left.
import subprocess
import sys
import time
from collections.abc import Callable, Iterator
from pathlib import Path
from typing import Any

import pytest
from testing import chromium, driver

SAYS_PORT = """
import http.server, os, signal, socket, subprocess, sys, time
def say(port):
    print(f"ChromeDriver was started successfully on port {port}.", flush=True)
"""
LISTENS = "s = socket.create_server(('127.0.0.1', 0)); say(s.getsockname()[1])\n"
IS_DEAF = "signal.signal(signal.SIGTERM, signal.SIG_IGN)\n"
HAS_CHILD = "subprocess.Popen(['sleep', '300'])\n"
ANSWERS = """
class Answers(http.server.BaseHTTPRequestHandler):
    def do_POST(self):
        if 'url' in self.path:
            time.sleep(300)
        print('x' * 10**6, flush=True)
        self.rfile.read(int(self.headers['Content-Length'] or 0))
        self.send_response(200)
        self.end_headers()
        self.wfile.write(b'{"value": {"sessionId": "a"}}')
    do_DELETE = do_POST
server = http.server.HTTPServer(('127.0.0.1', 0), Answers)
say(server.server_port)
server.serve_forever()
"""
SLEEPS = "time.sleep(300)\n"


Acts = Callable[[str], list[driver.Driver]]


@pytest.fixture
def acts(monkeypatch: pytest.MonkeyPatch) -> Iterator[Acts]:
    """Puts a program in place of chromedriver, and short limits; returns the drivers."""
    started: list[driver.Driver] = []

    class Kept(driver.Driver):
        def __init__(self, output: Path) -> None:
            super().__init__(output)
            started.append(self)

    def replace(script: str) -> list[driver.Driver]:
        words = [sys.executable, "-c", SAYS_PORT + script] if script else ["true"]
        monkeypatch.setattr(driver, "command", lambda: words)
        return started

    monkeypatch.setattr(driver, "Driver", Kept)
    monkeypatch.setattr(driver, "END_SECONDS", 1)
    monkeypatch.setattr(chromium, "CLOSING_SECONDS", 1)
    ask = driver.Driver.ask

    def ask_briefly(
        self: driver.Driver, method: str, path: str, body: Any = None, seconds: float = 5
    ) -> Any:
        return ask(self, method, path, body, seconds)

    monkeypatch.setattr(Kept, "ask", ask_briefly)
    yield replace
    assert started and all(it.process.returncode is not None for it in started)
    ends = time.monotonic() + 60  # a killed process ends when it runs next
    while any(driver.processes_of(it.process.pid) for it in started):
        assert time.monotonic() < ends
        time.sleep(0.02)


def test_driver_that_says_no_port_is_given_up(acts: Acts, monkeypatch: pytest.MonkeyPatch) -> None:
    monkeypatch.setattr(driver, "START_SECONDS", 1)
    started = acts(SLEEPS)
    with pytest.raises(driver.NoAnswer, match="said no port within 1 s"):
        chromium.Browser()
    assert len(started) == 1


def test_driver_that_ends_at_once_is_started_again(
    acts: Acts, monkeypatch: pytest.MonkeyPatch
) -> None:
    """It does so if another program took its port."""
    monkeypatch.setattr(driver, "START_SECONDS", 6)
    started = acts("")
    with pytest.raises(driver.NoAnswer, match="said no port"):
        chromium.Browser()
    assert len(started) > 1


def test_driver_that_accepts_and_never_answers_is_ended_and_started_once_more(acts: Acts) -> None:
    """With its children, and also if it ignores SIGTERM."""
    started = acts(IS_DEAF + HAS_CHILD + LISTENS + SLEEPS)
    began = time.monotonic()
    with pytest.raises(driver.NoAnswer, match="did not answer 2 times: POST /session: .*5 s"):
        chromium.Browser()
    assert len(started) == 2 and time.monotonic() - began < 300


def test_command_without_an_answer_fails_its_test_and_not_the_next_one(acts: Acts) -> None:
    started = acts(ANSWERS)
    browser = chromium.Browser()
    for count in (1, 2):
        assert browser.run("return 1") == {"sessionId": "a"}
        assert len(started) == count
        with pytest.raises(driver.NoAnswer, match="POST /session/a/url: "):
            browser.go("about:blank")
    for _ in range(2):
        with pytest.raises(driver.NoAnswer, match="did not answer 2 times: POST /session/a/url"):
            browser.run("return 1")
    assert len(started) == 2
    browser.close()
    assert not browser.folder.exists()


def test_driver_that_writes_much_waits_for_no_reader(acts: Acts) -> None:
    started = acts(ANSWERS)
    browser = chromium.Browser()
    assert browser.run("return 1") == {"sessionId": "a"}
    assert len(started[0].output.read_bytes()) > 2 * 10**6
    browser.close()


KILLED = """
import os, pathlib, signal, sys
from testing import driver
driver.command = lambda: [sys.executable, "-c", sys.argv[1]]
print(driver.start_driver(pathlib.Path(sys.argv[2])).process.pid, flush=True)
os.kill(os.getpid(), signal.SIGKILL)
"""


def test_driver_ends_when_the_tests_are_killed(tmp_path: Path) -> None:
    words = [sys.executable, "-c", KILLED, SAYS_PORT + LISTENS + SLEEPS, str(tmp_path / "output")]
    viewer = Path(driver.__file__).resolve().parent.parent
    said = subprocess.run(words, env={"PYTHONPATH": str(viewer)}, stdout=subprocess.PIPE).stdout
    ends = time.monotonic() + 60
    while driver.processes_of(int(said)):
        assert time.monotonic() < ends
        time.sleep(0.02)
