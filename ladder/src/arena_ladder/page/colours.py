"""The look of each bot on the page: a colour and a mark, which distinguish it from all others."""

from __future__ import annotations

import colorsys
from collections.abc import Iterable, Iterator, Mapping, Sequence

MARKS = ("plain", "line", "dots", "dashes")  # as viewer/drawing has them
COLOURS = ("#d17700", "#07059c", "#4b998b", "#d4a2ff", "#ad0000", "#03ff99", "#8456de", "#673847")
GROUNDS = ("#eceff3", "#2a323a")  # of the cells of a board, light and dark
APART = 0.12  # in OKLab, where black and white are 1 apart
GOLDEN = 0.618033988749895  # of the circle of hues, from one drawn hue to the next
MOST_TRIES = 64

Colour = tuple[float, float, float]
Looks = dict[str, dict[str, str]]


def looks_of(bots: Sequence[str], chosen: Mapping[str, str]) -> Looks:
    """The look of each bot, in their order: the colour that it chose, or else one of ours.

    A colour that is too near to the board or to the colour of a bot before it is not taken. With
    hundreds of bots the colours of some are near, and their marks may differ.
    """
    given = [oklab(it) for it in GROUNDS]
    kept: dict[str, str] = {}
    for bot in bots:
        if bot in chosen and is_apart(chosen[bot], given):
            kept[bot] = chosen[bot]
            given.append(oklab(chosen[bot]))
    others = [bot for bot in bots if bot not in kept]
    kept.update(zip(others, ours(len(others), given)))
    return {bot: {"colour": kept[bot], "mark": MARKS[at % 4]} for at, bot in enumerate(bots)}


def ours(count: int, given: list[Colour]) -> Iterator[str]:
    """A number of our colours, distinct from the given ones as long as there are such."""
    is_full = False
    for at in range(count):
        found = None if is_full else first_apart([*COLOURS, *hues(at, MOST_TRIES)], given)
        is_full = found is None
        colour = found or next(hues(at, 1))
        given.append(oklab(colour))
        yield colour


def hues(at: int, count: int) -> Iterator[str]:
    """Colours around the circle of hues, from the hue with a number on."""
    for step in range(count):
        hue = (at + step) * GOLDEN % 1.0
        red, green, blue = colorsys.hls_to_rgb(hue, 0.3 + 0.1 * (step % 4), 0.75)
        yield f"#{round(255 * red):02x}{round(255 * green):02x}{round(255 * blue):02x}"


def first_apart(colours: Iterable[str], given: Sequence[Colour]) -> str | None:
    """The first colour that is distinct from the given ones."""
    return next((colour for colour in colours if is_apart(colour, given)), None)


def is_apart(colour: str, others: Iterable[Colour]) -> bool:
    own = oklab(colour)
    return all(sum((a - b) ** 2 for a, b in zip(own, it)) > APART**2 for it in others)


def oklab(colour: str) -> Colour:
    """A colour `#rrggbb` in OKLab, where distances are as eyes see them."""
    red, green, blue = (linear(int(colour[at : at + 2], 16) / 255) for at in (1, 3, 5))
    one = (0.4122214708 * red + 0.5363325363 * green + 0.0514459929 * blue) ** (1 / 3)
    two = (0.2119034982 * red + 0.6806995451 * green + 0.1073969566 * blue) ** (1 / 3)
    three = (0.0883024619 * red + 0.2817188376 * green + 0.6299787005 * blue) ** (1 / 3)
    return (
        0.2104542553 * one + 0.7936177850 * two - 0.0040720468 * three,
        1.9779984951 * one - 2.4285922050 * two + 0.4505937099 * three,
        0.0259040371 * one + 0.7827717662 * two - 0.8086757660 * three,
    )


def linear(part: float) -> float:
    """A part of a colour as light, from the value that screens are sent."""
    return part / 12.92 if part <= 0.04045 else float(((part + 0.055) / 1.055) ** 2.4)
