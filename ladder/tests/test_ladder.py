"""Whole ladders with failing bots: all games end, and only the planned moves are missed."""

from __future__ import annotations

from pathlib import Path

import faulty
from served import Served, complaints, run_ladder, start_play, write_config

from arena_ladder.results.store import open_store

GAMES = 64
TIMEOUT = 4000  # milliseconds: long, since the bots' process may wait for a processor


def test_64_games_of_four_with_every_fault(
    program: Path, faulty_bots: Served, tmp_path: Path
) -> None:
    """All games end, each replays to the same bytes, and only the planned moves were missed."""
    folder = tmp_path / "results"
    config = write_config(
        tmp_path / "faulty.toml",
        [(name, faulty_bots.url(name)) for name in faulty.NAMES],
        folder=str(folder),
        pairing="tables",
        rounds=GAMES // (len(faulty.NAMES) // 4),
        timeout=TIMEOUT,
        turns=25,
        at_once=GAMES,
        games_a_bot=GAMES,
    )
    played = start_play(config, program)
    out, error = played.communicate(timeout=600)
    assert (played.returncode, complaints(error)) == (0, "")
    assert out.startswith("ladder: 64 of 64 games are done, 64 of them now; ")
    checked = run_ladder("check", folder, "--program", program)
    assert (checked.returncode, checked.stdout) == (0, "64 of 64 games agree\n")
    assert_missed(folder, faulty_bots.told("counts"))


def assert_missed(folder: Path, counts: dict[str, int]) -> None:
    """Checks that the missed moves by cause are those of the planned turns."""
    store = open_store(folder)
    try:
        asked = dict.fromkeys(faulty.NAMES, 0)
        planned = dict.fromkeys(faulty.NAMES, 0)
        for outcome in store.outcomes():
            for finish in outcome.finishes:
                asked[finish.bot] += finish.turns
                planned[finish.bot] += sum(map(faulty.is_planned, range(finish.turns)))
        missed = store.missed()
    finally:
        store.close()
    for name, cause in faulty.CAUSES.items():
        assert planned[name] > 0
        assert missed.get(name) == {cause: planned[name]}, name
        assert counts[name] == asked[name] - planned[name]
    assert "good" not in missed and counts["good"] == asked["good"]
    assert counts["gone"] == faulty.MOVES_OF_GONE < asked["gone"]
    assert missed["gone"] == {"cut": asked["gone"] - faulty.MOVES_OF_GONE}
    assert "trap" not in counts
