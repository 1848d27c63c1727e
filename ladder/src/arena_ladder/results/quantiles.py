"""Quantiles of counted values."""

from __future__ import annotations

import math
from collections.abc import Mapping


def quantile(counts: Mapping[int, int], share: float) -> int | None:
    """The least value that a `share` of the counted values does not exceed; None without values."""
    wanted = math.ceil(share * sum(counts.values()))
    seen = 0
    for value in sorted(counts):
        seen += counts[value]
        if seen >= wanted:
            return value
    return None
