"""The lock of a folder of results."""

from __future__ import annotations

import fcntl
from collections.abc import Iterator
from contextlib import contextmanager
from pathlib import Path


class LockFault(Exception):
    """A folder in which another ladder is playing."""


@contextmanager
def locked(folder: Path) -> Iterator[None]:
    """Locks a folder, so that no other ladder plays in it meanwhile."""
    with open(folder / "lock", "w") as file:
        try:
            fcntl.flock(file, fcntl.LOCK_EX | fcntl.LOCK_NB)
        except OSError:
            raise LockFault(f"another ladder is playing in {folder}") from None
        yield
