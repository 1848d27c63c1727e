"""The packages of the library, for tools/package: libarena-dev, python3-arena-rules, a wheel."""

import gzip
import re
import subprocess
import sys
from collections.abc import Callable
from pathlib import Path

ROOT = Path(__file__).resolve().parent.parent
TEXTS = Path(__file__).resolve().parent / "packaged"
BUILT = ROOT / "out/bindings"
PYTHON = ROOT / "bindings/python/arena_rules"
LIB = "lib/x86_64-linux-gnu"
NAMES = ("libarena-dev", "python3-arena-rules")
STATE = {True: "proved", False: "UNPROVED: nothing of it was checked"}


def make(is_proved: bool) -> None:
    """Builds the library, and checks that it is what it is said to be."""
    words = [str(ROOT / "bindings/build"), *([] if is_proved else ["--unproved"])]
    if subprocess.run(words, stdout=sys.stderr).returncode != 0:
        sys.exit("package: the library was not built")
    found = re.search("^library: (.*)$", (BUILT / "BUILT").read_text(), re.M)
    if found is None or found[1] != STATE[is_proved]:
        sys.exit(f"package: the library is {found and found[1]}, not {STATE[is_proved]}")


def config() -> str:
    """The file for pkg-config, by the folders of the package."""
    text = (BUILT / "arena.pc").read_text()
    text = re.sub("^prefix=.*$", "prefix=/usr", text, flags=re.M)
    text = re.sub("^libdir=.*$", f"libdir=${{prefix}}/{LIB}", text, flags=re.M)
    return re.sub("^includedir=.*$", "includedir=${prefix}/include", text, flags=re.M)


def common(tree: Path, name: str, write: Callable[[Path, bytes | str], None]) -> None:
    """What each package says of itself."""
    place = tree / "share/doc" / name
    write(place / "BUILT", (BUILT / "BUILT").read_bytes())
    write(place / "copyright", (TEXTS / "copyright").read_bytes())
    write(place / "changelog.gz", gzip.compress((ROOT / "CHANGELOG.md").read_bytes(), mtime=0))
    write(place / "SIMULATOR.md", (ROOT / "docs/SIMULATOR.md").read_bytes())


def fill(tree: Path, name: str, write: Callable[[Path, bytes | str], None]) -> None:
    """Fills a folder with what the package of that name has below /usr."""
    common(tree, name, write)
    if name == "libarena-dev":
        write(tree / "include/arena.h", (ROOT / "bindings/c/arena.h").read_bytes())
        for file in ("libarena.a", "libarena.so.1"):
            write(tree / LIB / file, (BUILT / file).read_bytes())
        (tree / LIB / "libarena.so").symlink_to("libarena.so.1")
        write(tree / LIB / "pkgconfig/arena.pc", config())
        return
    to = tree / "lib/python3/dist-packages/arena_rules"
    for path in [*sorted(PYTHON.glob("*.py")), PYTHON / "py.typed", PYTHON / "libarena_rules.so"]:
        write(to / path.name, path.read_bytes())


def wheel(into: Path, is_proved: bool) -> str:
    """Writes the wheel of the module by its own build backend, and returns its name."""
    sys.path.insert(0, str(PYTHON.parent))
    import build_wheel

    version = build_wheel.version() + ("" if is_proved else "+unproved")
    setattr(build_wheel, "version", lambda: version)
    return build_wheel.build_wheel(str(into))


def control(name: str, version: str, is_proved: bool) -> str:
    """The package's control file; one that is not proved says so."""
    text = (TEXTS / f"control.{name}").read_text().replace("VERSION", version)
    return text if is_proved else text.replace(", PROVED", ", UNPROVED: nothing of it was checked")
