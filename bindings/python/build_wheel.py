"""Makes the wheel of arena_rules, for pip: a build backend that needs Python alone.

The wheel has the modules, py.typed and libarena_rules.so, which `bindings/build` makes before.
"""

from __future__ import annotations

import base64
import hashlib
import io
import re
import tarfile
import tomllib
import zipfile
from pathlib import Path
from typing import Any

HERE = Path(__file__).resolve().parent
PACKAGE = HERE / "arena_rules"
LIBRARY = PACKAGE / "libarena_rules.so"
TAG = "py3-none-linux_x86_64"
WHEEL = f"Wheel-Version: 1.0\nGenerator: arena\nRoot-Is-Purelib: false\nTag: {TAG}\n"
DAY = (2020, 1, 1, 0, 0, 0)  # of each file, so that the same files give the same wheel


def _project() -> dict[str, Any]:
    project: dict[str, Any] = tomllib.loads((HERE / "pyproject.toml").read_text())["project"]
    return project


def version() -> str:
    """The version of the package."""
    found = re.search(r'^__version__ = "(.*)"$', (PACKAGE / "__init__.py").read_text(), re.M)
    assert found is not None
    return found[1]


def _metadata() -> str:
    project = _project()
    lines = ["Metadata-Version: 2.1", f"Name: {project['name']}", f"Version: {version()}"]
    lines += [f"Summary: {project['description']}", f"License: {project['license']['text']}"]
    lines += [f"Requires-Python: {project['requires-python']}"]
    for extra, needs in project["optional-dependencies"].items():
        lines.append(f"Provides-Extra: {extra}")
        lines += [f'Requires-Dist: {need}; extra == "{extra}"' for need in needs]
    lines += ["Description-Content-Type: text/markdown", "", (HERE / "README.md").read_text()]
    return "\n".join(lines)


def _contents() -> dict[str, bytes]:
    """The files of the wheel but its record."""
    if not LIBRARY.exists():
        raise SystemExit(
            "arena_rules: no library yet: run bindings/build, or bindings/build --unproved"
        )
    paths = [*sorted(PACKAGE.glob("*.py")), PACKAGE / "py.typed", LIBRARY]
    files = {f"arena_rules/{path.name}": path.read_bytes() for path in paths}
    info = f"arena_rules-{version()}.dist-info"
    files[f"{info}/METADATA"] = _metadata().encode()
    files[f"{info}/WHEEL"] = WHEEL.encode()
    return files


def build_wheel(
    wheel_directory: str, config_settings: Any = None, metadata_directory: str | None = None
) -> str:
    """Writes the wheel into a folder, and returns its name."""
    files, record = _contents(), f"arena_rules-{version()}.dist-info/RECORD"
    lines = []
    for name, content in files.items():
        digest = base64.urlsafe_b64encode(hashlib.sha256(content).digest()).rstrip(b"=").decode()
        lines.append(f"{name},sha256={digest},{len(content)}\n")
    files[record] = "".join([*lines, f"{record},,\n"]).encode()
    wheel = f"arena_rules-{version()}-{TAG}.whl"
    with zipfile.ZipFile(Path(wheel_directory) / wheel, "w", zipfile.ZIP_DEFLATED) as archive:
        for name, content in files.items():
            entry = zipfile.ZipInfo(name, DAY)
            entry.external_attr = 0o100644 << 16
            entry.compress_type = zipfile.ZIP_DEFLATED
            archive.writestr(entry, content)
    return wheel


def build_sdist(sdist_directory: str, config_settings: Any = None) -> str:
    """Writes the sources with the shared object into a folder, and returns the archive's name."""
    stem = f"arena_rules-{version()}"
    files = {name: data for name, data in _contents().items() if name.startswith("arena_rules/")}
    files |= {
        it: (HERE / it).read_bytes() for it in ("pyproject.toml", "README.md", "build_wheel.py")
    }
    files["PKG-INFO"] = _metadata().encode()
    with tarfile.open(Path(sdist_directory) / f"{stem}.tar.gz", "w:gz") as archive:
        for name, data in files.items():
            entry = tarfile.TarInfo(f"{stem}/{name}")
            entry.size = len(data)
            archive.addfile(entry, io.BytesIO(data))
    return f"{stem}.tar.gz"
