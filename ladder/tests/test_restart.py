"""Tests of a restart of an endless ladder, which goes on from the state that it kept."""

from __future__ import annotations

from contextlib import closing
from pathlib import Path

import pytest
from synthetic import fill_quickly

from arena_ladder.game.rated import Rated
from arena_ladder.results.store import Store, open_store
from arena_ladder.run.endless import SNAPSHOT_GAMES, name_of, replay, restore

GAMES = SNAPSHOT_GAMES + 30


def test_restart_goes_on_from_the_kept_state(
    tmp_path: Path, monkeypatch: pytest.MonkeyPatch
) -> None:
    """It reads what came later alone, and draws what it would have drawn."""
    fill_quickly(tmp_path / "x", GAMES, bots=6)
    read: list[int] = []
    results = Store.results

    def seen(store: Store, after: int) -> object:
        read.append(after)
        return results(store, after)

    monkeypatch.setattr(Store, "results", seen)
    with closing(open_store(tmp_path / "x")) as store:
        whole = Rated(1, 2)
        assert [row.number for row, _ in replay(store, whole)] == list(range(1, GAMES + 1))
        first, second = Rated(1, 2), Rated(1, 2)
        assert restore(store, first) == GAMES
        kept = store.snapshot()
        assert kept is not None and kept[0] == GAMES
        assert restore(store, second) == GAMES
    assert first.state == second.state == whole.state
    assert read == [0, 0, first.results] and first.results >= GAMES - 1
    following = [it.draw(name_of(GAMES + 1), GAMES + 1, 2) for it in (first, second, whole)]
    assert following[0] == following[1] == following[2] is not None
