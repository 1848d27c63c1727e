#!/usr/bin/env python3
"""Reads transcripts and prints the standings: for each snake its games, wins, draws, losses, turns
lived, and how it went out.

    examples/standings.py [TRANSCRIPT ..]

All games of all files are counted in one table. Without a file the standard input is read. A snake
wins if it alone lives on the final board of a game that is over. It draws if it lives on the final
board of a game that is not over, or if no snake lives and it was among the last to go out. Any
other game is lost. Turns lived count up to the turn in which the snake went out, or to that of the
final board. A game of one snake gives no win, draw or loss. Snakes are sorted by wins, then draws,
then turns lived. Below the table are the numbers of refused commands and stray lines.
"""
import argparse
import json
import sys
from collections import Counter
from pathlib import Path

TITLES = ("snake", "games", "wins", "draws", "losses", "turns lived", "went out by")


class Tally:
    """The totals of one snake over all its games."""

    def __init__(self):
        self.games = self.wins = self.draws = self.losses = self.turns = 0
        self.causes = Counter()


def result_of(snake, board):
    """wins, draws or losses, or None in a game of one snake."""
    living = [other["id"] for other in board["snakes"] if other["out"] is None]
    if len(board["snakes"]) == 1:
        return None
    if snake["out"] is None:
        return "wins" if board["over"] and len(living) == 1 else "draws"
    last = max(other["out"] or 0 for other in board["snakes"])
    return "draws" if not living and snake["out"] == last else "losses"


def add_board(tallies, board):
    """Counts one final board for each of its snakes."""
    for snake in board["snakes"]:
        tally = tallies.setdefault(snake["id"], Tally())
        tally.games += 1
        tally.turns += board["turn"] if snake["out"] is None else snake["out"]
        result = result_of(snake, board)
        if result:
            setattr(tally, result, getattr(tally, result) + 1)
        if snake["cause"]:
            tally.causes[snake["cause"]] += 1


def counted(counter):
    return ", ".join(f"{word} {count}" for word, count in sorted(counter.items()))


def read_transcript(lines):
    """The tally of each snake by its id, the number of refusals and stray lines by reason, and the
    games without a final board."""
    tallies, refused, empty = {}, Counter(), []
    for text in lines:
        entry = json.loads(text)
        if "no" in entry:
            refused[f"{entry['no']} {entry['why']}"] += 1
        elif "final" in entry and entry["board"] is None:
            empty.append(entry["game"])
        elif "final" in entry:
            add_board(tallies, entry["board"])
    return tallies, refused, empty


def table(tallies):
    """The standings as a text with columns."""
    ranked = sorted(
        tallies.items(), key=lambda item: (-item[1].wins, -item[1].draws, -item[1].turns, item[0])
    )
    rows = [TITLES]
    for id, it in ranked:
        rows.append(
            (id, it.games, it.wins, it.draws, it.losses, it.turns, counted(it.causes) or "-")
        )
    widths = [max(len(str(row[column])) for row in rows) for column in range(len(TITLES))]
    return "\n".join(
        "  ".join(str(cell).ljust(width) for cell, width in zip(row, widths)).rstrip()
        for row in rows
    )


def report(lines):
    tallies, refused, empty = read_transcript(lines)
    if not tallies and not refused and not empty:
        raise ValueError("no game was read; of a refused plan arena writes nothing")
    parts = [table(tallies)]
    if refused:
        parts.append(f"refused: {counted(refused)}")
    if empty:
        parts.append(f"no final board: {', '.join(empty)}")
    return "\n".join(parts)


def lines_of(paths):
    """The lines of these files, one file after the other."""
    for path in paths:
        with open(path) as file:
            yield from file


def main():
    parser = argparse.ArgumentParser(
        description=__doc__, formatter_class=argparse.RawDescriptionHelpFormatter
    )
    parser.add_argument("transcripts", nargs="*", metavar="TRANSCRIPT", type=Path)
    given = parser.parse_args()
    try:
        print(report(lines_of(given.transcripts) if given.transcripts else sys.stdin))
    except (OSError, ValueError) as fault:
        sys.exit(f"standings: {fault}")


if __name__ == "__main__":
    main()
