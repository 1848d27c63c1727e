"""The folder of proved libraries: what one clone proved, other clones of the same user take.

It has a file STAMP.tar for each library and program, with what rt left of it in the crate's out/.
The stamp is rt's own: the same sources, libraries below and kit. What lies there is believed, so a
folder that other users may write to is not used."""
from __future__ import annotations

import os
import shutil
import stat
import subprocess
import tempfile
from pathlib import Path
from typing import Any

import stamps

LIMIT = 10 << 30  # bytes; beyond them what was not used for longest is removed
LIBRARY = ["rlib"]


def place() -> Path | None:
    """The folder: ARENA_PROVED, or one of the user's cache; none where ARENA_PROVED is empty."""
    given = os.environ.get("ARENA_PROVED")
    if given is not None:
        return Path(given).resolve() if given else None
    cache = os.environ.get("XDG_CACHE_HOME") or "~/.cache"
    return Path(cache).expanduser() / "arena"


class Folder:
    """A folder of proved libraries, or none."""

    def __init__(self, path: Path | None) -> None:
        self.path = path
        self.fault = ""  # why it is not used
        if path and path.exists():
            found = path.stat()
            if found.st_uid != os.geteuid() or found.st_mode & (stat.S_IWGRP | stat.S_IWOTH):
                self.path, self.fault = None, f"{path} is not used: others than you may write to it"

    def file(self, crate: Any) -> Path | None:
        """The file of a crate as its sources are, there or not."""
        return self.path and self.path / f"{crate.stamp()}.tar"

    def has(self, crate: Any) -> bool:
        """Whether the folder has a crate as its sources are."""
        file = self.file(crate)
        return file is not None and file.is_file()

    def take(self, rt: Any, crate: Any) -> bool:
        """Lays what the folder has of a crate into its out/, and returns whether it is then built.
        What does not fit is removed again."""
        file = self.file(crate)
        if not file or not file.is_file():
            return False
        out = Path(crate.folder, "out")
        out.mkdir(exist_ok=True)
        with tempfile.TemporaryDirectory(prefix="taken-", dir=out) as room:
            if subprocess.run(["tar", "-C", room, "-xf", file], capture_output=True).returncode:
                return False
            names = laid(crate)
            if sorted(os.listdir(room)) != sorted(names):
                return False
            for name in names:
                remove(out / name)
                os.rename(f"{room}/{name}", out / name)
        if not stamps.is_built(rt, crate):
            for name in names:
                remove(out / name)
            return False
        os.utime(file)
        return True

    def lay(self, crate: Any) -> None:
        """Adds a crate that was just proved. A folder that cannot be written to is left alone."""
        file = self.file(crate)
        if not file:
            return
        packer = "zstd -q -3" if shutil.which("zstd") else "gzip -1"
        part = file.with_suffix(f".{os.getpid()}.{crate.name}")
        words = ["tar", "-C", f"{crate.folder}/out", f"--use-compress-program={packer}", "-cf"]
        try:
            file.parent.mkdir(mode=0o700, parents=True, exist_ok=True)
            subprocess.run([*words, part, *laid(crate)], capture_output=True, check=True)
            os.replace(part, file)
            self.shrink(file)
        except (OSError, subprocess.CalledProcessError):
            part.unlink(missing_ok=True)

    def shrink(self, last: Path) -> None:
        """Removes the files that were not used for longest, but not the last, while all take more
        than the limit."""
        assert self.path
        files = sorted(self.path.glob("*.tar"), key=lambda it: it.stat().st_mtime)
        taken = sum(it.stat().st_size for it in files)
        for file in files:
            if taken <= LIMIT:
                return
            if file != last:
                taken -= file.stat().st_size
                file.unlink(missing_ok=True)


def laid(crate: Any) -> list[str]:
    """What is kept of a crate's out/."""
    return [crate.name, f"{crate.name}.stamp"] if crate.is_program else LIBRARY


def remove(path: Path) -> None:
    """Removes a file or a folder, if it is there."""
    if path.is_dir():
        shutil.rmtree(path)
    else:
        path.unlink(missing_ok=True)
