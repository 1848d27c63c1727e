# Chromium without a window: found, or installed from Debian's packages, and driven over the
# WebDriver protocol.
import base64
import os
import shutil
import subprocess
import tempfile
import time
from collections.abc import Sequence
from contextlib import suppress
from pathlib import Path
from typing import Any

from testing.driver import Driver, NoAnswer, start_driver

PACKAGES = {
    "chromium": ["chromium", "fonts-dejavu-core"],
    "chromedriver": ["chromium-driver"],
}  # the packages of each program
# The protocol's key for the reference of an element.
ELEMENT = "element-6066-11e4-a52e-4f735466cecf"
PATIENCE = [
    "-o",
    "Acquire::Retries=1",
    "-o",
    "Acquire::http::Timeout=20",
    "-o",
    "Acquire::https::Timeout=20",
]
INSTALL_SECONDS = 900
PAGE_MILLISECONDS = 60_000  # until a page is loaded
SCRIPT_MILLISECONDS = 30_000  # of a script in it
CLOSING_SECONDS = 20
MOST_STARTS = 2


class NotToBeHad(Exception):
    """The browser is not on the machine, and Debian's packages can't be reached."""


def install() -> None:
    """Installs the missing packages; raises NotToBeHad if that fails."""
    missing = [
        package
        for program, packages in PACKAGES.items()
        if shutil.which(program) is None
        for package in packages
    ]
    if not missing:
        return
    environment = {**os.environ, "DEBIAN_FRONTEND": "noninteractive"}
    for words in (["update"], ["install", "-y", "--no-install-recommends", *missing]):
        try:
            run = subprocess.run(
                ["apt-get", *PATIENCE, *words],
                env=environment,
                stdout=subprocess.PIPE,
                stderr=subprocess.STDOUT,
                text=True,
                timeout=INSTALL_SECONDS,
            )
        except (OSError, subprocess.TimeoutExpired) as fault:
            raise NotToBeHad(f"apt-get {words[0]}: {fault}") from fault
        if run.returncode != 0:
            raise NotToBeHad(
                f"apt-get {words[0]}: {(run.stdout.strip().splitlines() or ['failed'])[-1]}"
            )


class Browser:
    """A window of Chromium and its driver. It resolves no host name but 127.0.0.1.

    A driver that does not answer fails the test that asked it, and is ended with its Chromium. The
    next call starts another one, but only once: after that each call fails at once.
    """

    def __init__(self) -> None:
        self.folder = Path(tempfile.mkdtemp(prefix="viewer-chromium-"))
        self.driver: Driver | None = None
        self.session: str | None = None
        self.starts = 0
        self.why = ""  # the last driver was ended
        try:
            self.start()
        except BaseException:
            self.close()
            raise

    def start(self) -> Driver:
        """The driver, which is started with its Chromium if there is none."""
        while self.driver is None or self.session is None:
            if self.starts == MOST_STARTS:
                raise NoAnswer(f"Chromium did not answer {MOST_STARTS} times: {self.why}")
            self.starts += 1
            profile = self.folder / f"profile{self.starts}"
            self.driver = start_driver(self.folder / f"driver{self.starts}.log")
            try:
                wishes = {"capabilities": {"alwaysMatch": self.wishes(profile)}}
                self.session = self.driver.ask("POST", "/session", wishes)["sessionId"]
            except NoAnswer as fault:
                self.end(fault)
        return self.driver

    def end(self, fault: NoAnswer) -> None:
        """Ends the driver because of a fault."""
        self.session, self.why = None, str(fault)
        driver, self.driver = self.driver, None
        if driver is not None:
            driver.end()

    def wishes(self, profile: Path) -> dict[str, Any]:
        words = [
            "--headless=new",
            "--no-sandbox",
            "--disable-dev-shm-usage",
            "--window-size=1500,1250",
            "--force-device-scale-factor=1",
            "--host-resolver-rules=MAP * ~NOTFOUND, EXCLUDE 127.0.0.1",
            f"--user-data-dir={profile}",
        ]
        return {
            "browserName": "chrome",
            "goog:chromeOptions": {"binary": shutil.which("chromium"), "args": words},
            "goog:loggingPrefs": {"browser": "SEVERE"},
            "timeouts": {"pageLoad": PAGE_MILLISECONDS, "script": SCRIPT_MILLISECONDS},
        }

    def call(self, method: str, path: str, body: Any = None) -> Any:
        """The driver's answer to a request, whose path is below the session."""
        driver = self.start()
        try:
            return driver.ask(method, f"/session/{self.session}{path}", body)
        except NoAnswer as fault:
            self.end(fault)
            raise

    def go(self, address: str) -> None:
        """Loads a page, even if its address differs from the old one only after the `#`."""
        self.call("POST", "/url", {"url": "about:blank"})
        self.call("POST", "/url", {"url": address})

    def run(self, script: str, *arguments: Any) -> Any:
        """Runs the body of a function in the page; returns its value. A promise is awaited."""
        return self.call("POST", "/execute/sync", {"script": script, "args": list(arguments)})

    def element(self, selector: str) -> str:
        found = self.call("POST", "/element", {"using": "css selector", "value": selector})
        return str(found[ELEMENT])

    def click(self, selector: str) -> None:
        self.call("POST", f"/element/{self.element(selector)}/click", {})

    def type_into(self, selector: str, text: str) -> None:
        """Types into an element. For a file input the text is the paths of the files."""
        self.call("POST", f"/element/{self.element(selector)}/value", {"text": text})

    def press(self, *keys: Sequence[str]) -> None:
        """Presses keys one after the other; a tuple of keys is pressed together."""
        actions = []
        for key in keys:
            together = key if isinstance(key, tuple) else (key,)
            actions += [{"type": "keyDown", "value": each} for each in together] + [
                {"type": "keyUp", "value": each} for each in reversed(together)
            ]
        self.call(
            "POST", "/actions", {"actions": [{"type": "key", "id": "keyboard", "actions": actions}]}
        )

    def drop(self, path: Path) -> None:
        """Drops a file on the middle of the page."""
        data = {"items": [], "files": [str(path)], "dragOperationsMask": 1}
        for event in ("dragEnter", "dragOver", "drop"):
            self.call(
                "POST",
                "/goog/cdp/execute",
                {
                    "cmd": "Input.dispatchDragEvent",
                    "params": {"type": event, "x": 600, "y": 400, "data": data},
                },
            )

    def resize(self, width: int, height: int) -> None:
        """Gives the page itself, without the window around it, that size."""
        self.call(
            "POST",
            "/goog/cdp/execute",
            {
                "cmd": "Emulation.setDeviceMetricsOverride",
                "params": {
                    "width": width,
                    "height": height,
                    "deviceScaleFactor": 1,
                    "mobile": False,
                },
            },
        )

    def restore_size(self) -> None:
        self.call(
            "POST",
            "/goog/cdp/execute",
            {"cmd": "Emulation.clearDeviceMetricsOverride", "params": {}},
        )

    def picture(self, selector: str) -> bytes:
        """The bytes of a PNG of an element."""
        return base64.b64decode(self.call("GET", f"/element/{self.element(selector)}/screenshot"))

    def complaints(self) -> list[str]:
        """The errors in the browser's console since the last call."""
        return [entry["message"] for entry in self.call("POST", "/se/log", {"type": "browser"})]

    def wait(self, script: str, *arguments: Any, seconds: float = 60) -> Any:
        """Waits until a script returns a true value, and returns it."""
        ends = time.monotonic() + seconds
        while True:
            value = self.run(script, *arguments)
            if value:
                return value
            if time.monotonic() > ends:
                raise AssertionError(f"not so within {seconds} s: {script} {arguments}")
            time.sleep(0.005)

    def close(self) -> None:
        if self.driver is not None:
            with suppress(NoAnswer, RuntimeError):
                if self.session is not None:
                    self.driver.ask("DELETE", f"/session/{self.session}", seconds=CLOSING_SECONDS)
            self.driver.end()
        shutil.rmtree(self.folder, ignore_errors=True)
