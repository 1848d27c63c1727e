"""The crates that hold tests alone, and how many tests a crate has."""
import re

from copies import ROOT, dependencies

# .ci/run runs the tests of these without a proof; it proves the other crates and their tests.
UNPROVED = (
    "tests_boards",
    "tests_core",
    "tests_lines",
    "tests_live",
    "tests_plane",
    "tests_program",
    "bs_refused",
)
TEST = re.compile(r"^\s*#\[test\]", re.M)


def count(name: str) -> int:
    """The number of test functions in the crate's files, also in those that no module names."""
    files = (ROOT / "crates" / name / "src").rglob("*.rt")
    return sum(len(TEST.findall(file.read_text())) for file in files)


def proved(is_whole: bool) -> list[str]:
    """The crates with tests that the gate proves; the whole one proves all."""
    names = [name for name in dependencies() if is_whole or name not in UNPROVED]
    return [name for name in names if count(name)]
