"""Tests of seeds that are drawn: secret while games are played, published once it is closed."""

from __future__ import annotations

import hashlib
import multiprocessing
import re
import stat
from pathlib import Path

import pytest
from served import SMALL, Served, run_ladder, write_config

from arena_ladder.game.config import config_of
from arena_ladder.results.backup import copy_kept
from arena_ladder.results.seeds import draw_seed, with_seed
from arena_ladder.results.store import StoreFault

BOTS = [{"name": name, "url": "http://127.0.0.1:1"} for name in SMALL]


def test_drawn_seed_is_kept_in_the_folder(tmp_path: Path) -> None:
    config = config_of({"folder": str(tmp_path / "x"), "bot": BOTS}, "here")
    drawn = with_seed(config)
    assert drawn.seed > 2**64  # all but certain of 128 bits
    assert with_seed(config) == drawn
    assert stat.S_IMODE((tmp_path / "x" / "seed").stat().st_mode) == 0o600
    other = config_of({"folder": str(tmp_path / "y"), "bot": BOTS}, "here")
    assert with_seed(other).seed != drawn.seed
    assert with_seed(other).letters != drawn.letters
    given = config_of({"folder": str(tmp_path / "z"), "bot": BOTS, "seed": 0}, "here")
    assert with_seed(given) == given and not (tmp_path / "z").exists()
    (tmp_path / "x" / "seed").write_text("")
    with pytest.raises(StoreFault, match="is no seed"):
        with_seed(config)


def test_copy_of_a_seed_is_for_its_owner_alone(tmp_path: Path) -> None:
    draw_seed(tmp_path / "seed")
    copy_kept(tmp_path / "seed", tmp_path / "copy")
    assert stat.S_IMODE((tmp_path / "copy").stat().st_mode) == 0o600


def test_seed_of_parts_that_begin_at_once_is_one(tmp_path: Path) -> None:
    with multiprocessing.Pool(8) as pool:
        pool.map(draw_seed, [tmp_path / "x" / "seed"] * 64)
    assert re.fullmatch("[0-9]+\n", (tmp_path / "x" / "seed").read_text())
    assert [it.name for it in (tmp_path / "x").iterdir()] == ["seed"]


def test_seed_is_published_once_the_ladder_is_closed(
    program: Path, small_bots: Served, tmp_path: Path
) -> None:
    """Until then only its digest is; the folder's games are checked by it before and after."""
    folder = tmp_path / "results"
    bots = [(name, small_bots.url(name)) for name in SMALL[:3]]
    config = write_config(
        tmp_path / "x.toml", bots, folder=str(folder), turns=20, timeout=5000, rounds=2
    )
    parts = [
        run_ladder("play", config, "--program", program, "--part", it) for it in ("1/2", "2/2")
    ]
    assert [part.returncode for part in parts] == [0, 0]
    whole = tmp_path / "whole"
    merged = run_ladder("merge", whole, *sorted(folder.glob("part-*")))
    assert merged.stdout == f"ladder: 6 games were added to {whole}\n"
    seed = (folder / "seed").read_text().strip()
    digest = f"the SHA-256 of its digits is {hashlib.sha256(seed.encode()).hexdigest()}"
    for said in (parts[0].stdout, run_ladder("standings", whole).stdout):
        assert f"the seed is secret; {digest}\n" in said and seed not in said
    assert run_ladder("check", whole, "--program", program).returncode == 0
    closed = run_ladder("close", whole)
    assert closed.stdout == f"ladder: the seed was {seed}; {digest}\n"
    assert run_ladder("close", whole).stdout == closed.stdout
    assert run_ladder("standings", whole).stdout.endswith(f"\nthe seed was {seed}; {digest}\n")
    assert run_ladder("check", whole, "--program", program).returncode == 0
    more = run_ladder("merge", whole, folder / "part-1-of-2")
    assert more.returncode == 1 and "of a closed ladder, which gets no more games" in more.stderr
