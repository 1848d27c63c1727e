"""Texts of strangers, made fit for bots, terminals and tables; numbers with their nouns."""

from __future__ import annotations

import unicodedata

UNFIT = ("Cc", "Zl", "Zp")  # kinds of characters that are dropped: controls and ends of lines
FORMULA = ("=", "+", "-", "@")  # with which a spreadsheet begins a formula


def printable(text: str) -> str:
    """A text that every reader of JSON takes, and that moves no cursor of a terminal.

    Control characters are dropped; a lone surrogate, which is no character, becomes `?`.
    """
    kept = "".join(it for it in text if unicodedata.category(it) not in UNFIT)
    return kept.encode("utf-8", "replace").decode()


def counted(number: int, noun: str, form: str = "") -> str:
    """A number with its noun, such as `1 game` and `20 games`; the form `,` gives `2,000 games`."""
    return f"{number:{form}} {noun}" if number == 1 else f"{number:{form}} {noun}s"


def cell_text(text: str) -> str:
    """A text that a spreadsheet shows, and does not compute."""
    fit = printable(text)
    return f"'{fit}" if fit.startswith(FORMULA) else fit
