"""Which bots of an endless ladder are new, rest, or were removed."""

from __future__ import annotations

from enum import StrEnum

from arena_ladder.results.roster import state_of
from arena_ladder.results.store import Store

FEW_GAMES = 20  # with fewer a bot is new: its rating says little


class Mark(StrEnum):
    """What a reader of the standings has to know of a bot."""

    NONE = ""
    NEW = "new"
    RESTS = "rests"
    REMOVED = "removed"


def marks_of(store: Store) -> dict[str, Mark] | None:
    """The marks of bots that rest or were removed; None for a ladder that is not endless."""
    identity = store.identity()
    if identity is None or identity.get("pairing") != "rating":
        return None
    marks = {}
    for name, player in state_of(store).players.items():
        if not player.is_in:
            marks[name] = Mark.REMOVED
        elif player.is_paused:
            marks[name] = Mark.RESTS
    return marks


def mark_of(marks: dict[str, Mark] | None, bot: str, games: int) -> Mark:
    """The mark of a bot with this number of games."""
    if marks is None:
        return Mark.NONE
    return marks.get(bot, Mark.NEW if games < FEW_GAMES else Mark.NONE)
