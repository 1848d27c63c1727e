"""The crates of the repository, what each uses, and copies of them to try changes in."""
from __future__ import annotations

import shutil
import sys
import tempfile
from collections.abc import Iterator
from contextlib import contextmanager
from pathlib import Path

ROOT = Path(__file__).resolve().parent.parent

Uses = dict[str, list[str]]


def dependencies() -> Uses:
    """The libraries of each crate of the repository, by its line in crates.txt."""
    found = {}
    for line in (ROOT / "crates.txt").read_text().splitlines():
        words = line.split("#")[0].split(":")
        if len(words) == 2:
            found[words[0].split()[0]] = words[1].split()
    return found


def choose(names: list[str], uses: Uses) -> list[str]:
    """The named crates, or all. Ends the program if a name is not in crates.txt."""
    unknown = [name for name in names if name not in uses]
    if unknown:
        sys.exit(f"no crate of crates.txt: {' '.join(unknown)}")
    return names or list(uses)


def below(name: str, uses: Uses) -> list[str]:
    """The crate and the repository's crates that it depends on."""
    found = [name]
    for crate in found:
        found += [d for d in uses.get(crate, []) if d in uses and d not in found]
    return found


def copy_crate(name: str, scratch: Path) -> Path:
    """Copies what a check of the crate reads, with its cached proofs and the built libraries of its
    dependencies. Returns the folder of the copy."""
    if (ROOT / "HANDLES").exists():
        shutil.copy2(ROOT / "HANDLES", scratch)
    (scratch / "crates").mkdir()
    lines, uses = [], dependencies()
    for crate in below(name, uses):
        lines.append(f"{crate}: {' '.join(uses[crate])}\n")
        source = ROOT / "crates" / crate
        is_used_built = crate != name and (source / "out/rlib/stamp").exists()
        left_out = shutil.ignore_patterns(*["incremental"] * is_used_built)
        shutil.copytree(source, scratch / "crates" / crate, ignore=left_out)
    (scratch / "crates.txt").write_text("".join(lines))
    return scratch / "crates" / name


@contextmanager
def copied(name: str) -> Iterator[Path]:
    """The folder of a copy of the crate, which goes at the end."""
    with tempfile.TemporaryDirectory(prefix=f"{name}-", ignore_cleanup_errors=True) as scratch:
        yield copy_crate(name, Path(scratch))
