"""The change of each rating since an earlier day. A page keeps the ratings of each day once."""

from __future__ import annotations

import json
import os
from contextlib import suppress
from datetime import date
from pathlib import Path
from typing import Any

MOST_DAYS = 8  # that are kept


def with_days(
    folder: Path, rows: list[dict[str, Any]], today: date, begun: str = ""
) -> list[dict[str, Any]]:
    """The rows with `day`: the change since the last earlier day with ratings, None if unknown.

    The first ratings of a day are kept. A folder that can't be written has no changes. Ratings of
    the day `begun`, on which the season began, and of those before it are of another season.
    """
    kept = sorted((folder / "days").glob("????-??-??.json"))
    earlier = [path for path in kept if begun < path.stem < str(today)]
    before = ratings_in(earlier[-1]) if earlier else {}
    if str(today) not in {path.stem for path in kept}:
        with suppress(OSError):
            keep(folder / "days" / f"{today}.json", rows)
            for path in kept[: 1 - MOST_DAYS]:
                path.unlink(missing_ok=True)
    return [{**row, "day": change_of(row, before)} for row in rows]


def change_of(row: dict[str, Any], before: dict[str, int]) -> int | None:
    """How much a rating has changed; None for a bot that had none."""
    elo = before.get(row["bot"])
    return None if elo is None else row["elo"] - elo


def ratings_in(path: Path) -> dict[str, int]:
    """The ratings in a file; none if it can't be read."""
    try:
        return {str(bot): int(elo) for bot, elo in json.loads(path.read_text()).items()}
    except (OSError, ValueError, TypeError, AttributeError):
        return {}


def keep(path: Path, rows: list[dict[str, Any]]) -> None:
    path.parent.mkdir(exist_ok=True)
    unfinished = path.with_suffix(".unfinished")
    unfinished.write_text(json.dumps({row["bot"]: row["elo"] for row in rows if row["games"]}))
    os.replace(unfinished, path)
