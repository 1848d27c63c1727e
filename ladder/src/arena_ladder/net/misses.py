"""Why moves are missed."""

from __future__ import annotations

from enum import StrEnum


class Miss(StrEnum):
    """Why a move was missed: what the answer of the bot was not. docs/LADDER.md has a table."""

    LATE = "late"
    REFUSED = "refused"
    CUT = "cut"
    STATUS = "status"
    LONG = "long"
    JSON = "json"
    DIRECTION = "direction"


class BadAnswer(Exception):
    """An answer of a bot that is not taken, and why."""

    def __init__(self, cause: Miss) -> None:
        super().__init__(cause)
        self.cause = cause
