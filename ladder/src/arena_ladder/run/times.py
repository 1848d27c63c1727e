"""Counts of times, which take as much memory however many times are counted."""

from __future__ import annotations

from array import array

from arena_ladder.results.quantiles import quantile

PARTS = 32  # a time is rounded down by less than a part in so many


class Times:
    """How often each time was seen, in whole units. A time of `most` and more counts as that.

    Times below twice PARTS are exact, others are rounded down.
    """

    def __init__(self, most: int) -> None:
        self.most = most
        self.counts = array("L", bytes(array("L").itemsize * (1 + place_of(most))))

    def add(self, time: int) -> None:
        self.counts[place_of(min(time, self.most))] += 1

    def total(self) -> int:
        return sum(self.counts)

    def quantile(self, share: float) -> int | None:
        """The time that a share of the times do not exceed; None without times."""
        seen = {time_at(place): count for place, count in enumerate(self.counts) if count}
        return quantile(seen, share)


def place_of(time: int) -> int:
    """The place of a time in the counts."""
    shift = max(0, time.bit_length() - PARTS.bit_length())
    return PARTS * shift + (time >> shift)


def time_at(place: int) -> int:
    """The least time that has a place."""
    shift = max(0, place // PARTS - 1)
    return (place - PARTS * shift) << shift
