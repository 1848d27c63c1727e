"""The page of a tournament in Chromium, wide and narrow."""

from __future__ import annotations

from pathlib import Path

import pytest
from served import SMALL, Served, write_config
from test_results_page import NARROW, WIDE, fits, page_of, resize
from test_tournaments import play_here
from testing import chromium  # of viewer/

SHOWN = """
const texts = (selector) => [...document.querySelectorAll(selector)].map((it) => it.textContent);
return { titles: texts('.stage h3'), tables: texts('#tables h2'), champion: texts('#champion')[0],
  matches: document.querySelectorAll('.match').length, won: texts('.match .won .bot'),
  last: texts('.stages:last-child .match').join() };
"""
INSIDE = """
const right = (it) => it.getBoundingClientRect().right;
return [...document.querySelectorAll('.match > div > *')]
  .every((it) => right(it) <= right(it.closest('.match')));
"""
LONG = "a-bot-with-a-very-long-name-of32"


@pytest.mark.parametrize("kind", ["double_elimination", "groups"])
def test_bracket_is_looked_at(
    program: Path, small_bots: Served, browser: chromium.Browser, tmp_path: Path, kind: str
) -> None:
    """All matches are there, stage by stage, with names of any length; a game of one opens in the
    viewer. Nobody can enter."""
    path = write_config(
        tmp_path / "cup.toml",
        [(LONG if name == "lazy" else name, small_bots.url(name)) for name in SMALL],
        **{"folder": str(tmp_path / "cup"), "pairing": kind, "games": 2, "turns": 20},
        **{"timeout": 5000, "seed": 1, "name": "Autumn cup"},
    )
    with page_of(play_here(path, program), program) as (_, address):
        for size in (WIDE, NARROW):
            resize(browser, size)
            browser.go(f"{address}bracket.html")
            browser.wait("return document.querySelectorAll('.match').length > 3", seconds=60)
            shown = browser.run(SHOWN)
            assert shown["champion"].endswith(" has won the tournament")
            if kind == "groups":
                assert shown["tables"] == ["Group A", "Group B"]
                assert shown["titles"] == ["Group A", "Group B", "Semifinals", "Final"]
                assert shown["matches"] == 3 + 1 + 2 + 1
            else:
                assert shown["titles"][:3] == [
                    *("Winners: Quarterfinals", "Winners: Semifinals", "Winners: Final")
                ]
                second = ["Second final"] * (shown["titles"][-1] == "Second final")
                assert shown["titles"][-1 - len(second) :] == ["Grand final", *second]
                assert shown["matches"] == 7 + 6 + 1 + len(second)
                assert "bye" not in shown["last"]
            assert shown["won"] and fits(browser) and browser.run(INSIDE)
            assert browser.run("return document.title") == "Autumn cup"
        browser.click(".match .games a")
        browser.wait("return document.body.dataset.state === 'open'", seconds=60)
        browser.click("#back_link")
        browser.wait("return document.querySelectorAll('.match').length > 3", seconds=60)
        browser.click("header a")
        browser.wait("return document.getElementById('facts').textContent")
        hidden = (
            "return ['enter_part', 'seasons_link'].map((id) => document.getElementById(id).hidden)"
        )
        assert browser.run(hidden) == [True, True]
        # A page of the test before may still ask for news of its ladder, which has ended.
        assert [it for it in browser.complaints() if it.startswith(address)] == []
    resize(browser, (1500, 1250))
