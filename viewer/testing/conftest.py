# The options and the fixtures of the viewer's tests.
from collections.abc import Callable
from collections.abc import Iterator
from pathlib import Path

import pytest
from testing.chromium import Browser
from testing.page import Page
from testing.served import ROOT, Server


def pytest_addoption(parser: pytest.Parser) -> None:
    parser.addoption("--pictures", metavar="FOLDER", default=ROOT / "viewer/out", help="of boards")


@pytest.fixture
def pictures(request: pytest.FixtureRequest) -> Path:
    """The folder of the pictures."""
    folder = Path(request.config.getoption("--pictures"))
    folder.mkdir(parents=True, exist_ok=True)
    return folder


@pytest.fixture(scope="session")
def server() -> Iterator[Server]:
    """Serves the repository."""
    opened = Server()
    yield opened
    opened.close()


@pytest.fixture
def page(browser: Browser) -> Iterator[Page]:
    """The viewer. A test fails if the page leaves an error in the console."""
    browser.complaints()
    yield Page(browser)
    assert browser.complaints() == []


@pytest.fixture
def make_file(tmp_path: Path) -> Callable[[str, str], Path]:
    """Writes a file with that name and content, and returns its path."""

    def write(name: str, content: str) -> Path:
        path = tmp_path / name
        path.write_bytes(content if isinstance(content, bytes) else content.encode())
        return path

    return write
