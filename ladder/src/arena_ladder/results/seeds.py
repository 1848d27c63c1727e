"""The seed of a ladder: given by its configuration, or drawn and kept secret until it is closed."""

from __future__ import annotations

import hashlib
import os
import secrets
import tempfile
from dataclasses import replace
from pathlib import Path
from typing import Any

from arena_ladder.game.config import Config
from arena_ladder.results.store import Store, StoreFault

SEED_BITS = 128


def with_seed(config: Config) -> Config:
    """The configuration with its seed: the given one, or that of the folder, drawn if missing."""
    if config.has_seed:
        return config
    path = config.folder / "seed"
    if not path.exists():
        draw_seed(path)
    text = path.read_text().strip()
    if not text.isascii() or not text.isdigit():
        raise StoreFault(f"{path} is no seed: restore it, or begin in another folder")
    return replace(config, seed=int(text))


def draw_seed(path: Path) -> None:
    """Draws a seed. Of several processes that do so at once one decides it for all."""
    path.parent.mkdir(parents=True, exist_ok=True)
    with tempfile.NamedTemporaryFile("w", dir=path.parent, prefix="seed-") as file:
        file.write(f"{secrets.randbits(SEED_BITS)}\n")
        file.flush()
        os.fsync(file.fileno())
        try:
            os.link(file.name, path)
        except FileExistsError:
            pass


def seed_line(identity: dict[str, Any], is_closed: bool) -> str:
    """What everybody may know of a ladder's seed."""
    seed = str(identity["seed"])
    if identity.get("has_seed", True):
        why = "comes from the configuration: anyone who knows it can predict what is drawn"
        return f"the seed {seed} {why}"
    digest = f"the SHA-256 of its digits is {hashlib.sha256(seed.encode()).hexdigest()}"
    return f"the seed was {seed}; {digest}" if is_closed else f"the seed is secret; {digest}"


def seed_line_of(store: Store) -> str:
    """What everybody may know of the seed of a store; empty if it has no ladder."""
    identity = store.identity()
    return seed_line(identity, store.is_closed()) if identity else ""
