"""Tests of texts of strangers: what gets on to other bots, terminals and spreadsheets."""

from __future__ import annotations

import csv
import io
import json

import pytest
from rich.console import Console

from arena_ladder.results.standings import Standing, as_csv, as_table
from arena_ladder.texts import cell_text, counted, printable

HARMFUL = "a\x1b[2J\x9b1m\r\n\x00\ud800b[red]\u2028c"


def test_texts_are_fit_for_strict_readers_and_terminals() -> None:
    assert printable(HARMFUL) == "a[2J1m?b[red]c"
    assert printable("Grüße, \U0001f40d \u200d é") == "Grüße, \U0001f40d \u200d é"
    every = "".join(map(chr, range(0x11000)))
    fit = printable(every)
    assert json.loads(json.dumps(fit).encode()) == fit == fit.encode().decode()
    assert not any(ord(it) < 32 or 127 <= ord(it) < 160 for it in fit)


@pytest.mark.parametrize("text", ["=1+1", "+1", "-1", "@a", "\t=1", "\x00=1"])
def test_cells_are_no_formulas(text: str) -> None:
    assert cell_text(text) == "'" + text.lstrip("\t\x00")


def test_names_of_another_folder_do_no_harm_in_any_form() -> None:
    """A folder that was merged may have any names of bots."""
    standings = [Standing(f"={HARMFUL}"), Standing("-1")]
    (first, second) = csv.DictReader(io.StringIO(as_csv(standings)))
    assert (first["bot"], second["bot"]) == ("'=a[2J1m?b[red]c", "'-1")
    text = io.StringIO()
    Console(file=text, width=200, force_terminal=True, color_system=None).print(as_table(standings))
    assert "=a[2J1m?b[red]c" in text.getvalue() and "\x9b" not in text.getvalue()


def test_a_number_agrees_with_its_noun() -> None:
    assert [counted(it, "game") for it in (0, 1, 2, 2000)] == [
        "0 games",
        "1 game",
        "2 games",
        "2000 games",
    ]
    assert counted(2000, "game", ",") == "2,000 games"
