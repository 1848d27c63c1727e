"""The command line of `arena-check`."""

from __future__ import annotations

import argparse
import json
import sys
from collections.abc import Sequence
from itertools import islice
from pathlib import Path

from checker.command_file import MOST_FILE, Checked, Note, Refusal, check

ABOUT = """Says what `arena` would refuse in a command file, and why: each fault with its line, the
column of a JSON fault or the path of a member, and what the member may be. Then notes on what is
taken but has no effect, and a summary, with the number of blocks to serve the file with. So it says
in words what `arena` says by a code: `arena: plan P1` to `P4`, `arena: cannot read the file`, L1 to
L3, A1 to A5 and G1. What depends on how the games go (G2 to G7) is not found. The status is 0 if
nothing is refused, 1 if something is, and 2 if the file cannot be read."""
REFUSED, UNREAD = 1, 2
USUAL_BLOCKS = 64
MOST_LINES = 50
PLAN_HINT = 'the first line has to be the plan, such as {"games":[{"game":"a","quota":1835007}]}'


def parser() -> argparse.ArgumentParser:
    """The parser of the words."""
    words = argparse.ArgumentParser(
        prog="arena-check", description=ABOUT, epilog="example: arena-check examples/stays.jsonl"
    )
    words.add_argument("file", metavar="FILE", help="the command file, or - for the standard input")
    words.add_argument("--json", action="store_true", help="one JSON object in place of the lines")
    usual = f"the most faults that are written, {MOST_LINES} if not given; 0 for all"
    words.add_argument("--most", metavar="N", type=int, default=MOST_LINES, help=usual)
    return words


def read(file: str) -> bytes:
    """The bytes of a file, as far as the host would read them."""
    if file == "-":
        return sys.stdin.buffer.read(MOST_FILE + 1)
    with Path(file).open("rb") as opened:
        return opened.read(MOST_FILE + 1)


def counted(count: int, thing: str) -> str:
    """A number of things."""
    return f"{count} {thing}{'' if count == 1 else 's'}"


def summary(found: Checked) -> list[str]:
    """What was found, in a few lines."""
    refused = len(found.refused_lines())
    if any(it.code.startswith("P") or it.code == "file" for it in found.refusals):
        lines = ["the plan is refused, so nothing is served; the lines after it were not checked"]
        return [*lines, PLAN_HINT] if any(it.code == "P1" for it in found.refusals) else lines
    kinds = ", ".join(f"{count} {word}" for word, count in found.commands.most_common())
    lines = [
        f"version {found.version}, {counted(found.stays, 'game')}, "
        f"at most {found.most_open} at once; {counted(found.lines, 'line')}, {refused} refused",
        f"well formed: {kinds or 'none'}",
    ]
    plan = f" ({found.plan_blocks} for its plan)" if found.plan_blocks < found.most_blocks else ""
    blocks = f"serve it with --blocks {max(found.most_blocks, 1)} or more{plan}"
    return [*lines, f"{blocks}; without the option there are {USUAL_BLOCKS}"]


def first_of(found: Sequence[Refusal | Note], most: int) -> list[str]:
    """The lines of the first refusals or notes, of all if `most` is 0."""
    shown = [it.text() for it in islice(found, most or len(found))]
    more = len(found) - len(shown)
    return [*shown, f"and {more} more; --most 0 writes all"] if more else shown


def as_json(file: str, found: Checked) -> str:
    """All that was found as one JSON object."""
    refusals = [
        {
            "line": it.line,
            "column": it.column,
            "path": it.path or None,
            "message": it.message,
            "code": it.code,
            "why": it.why(),
        }
        for it in found.refusals
    ]
    whole = {
        "file": file,
        "version": found.version,
        "lines": found.lines,
        "games": found.stays,
        "most_open": found.most_open,
        "accepted": dict(sorted(found.commands.items())),
        "blocks": max(found.most_blocks, 1),
        "plan_blocks": found.plan_blocks,
        "refused_lines": len(found.refused_lines()),
        "refusals": refusals,
        "notes": [{"line": it.line, "path": it.path, "message": it.message} for it in found.notes],
    }
    return json.dumps(whole, ensure_ascii=False, indent=1)


def main(words: Sequence[str] | None = None) -> int:
    """Checks a file, and prints what was found."""
    given = parser().parse_args(words)
    try:
        text = read(given.file)
    except OSError as fault:
        print(f"arena-check: {given.file}: {fault.strerror}", file=sys.stderr)
        return UNREAD
    found = check(text)
    if given.json:
        print(as_json(given.file, found))
    else:
        refusals, notes = first_of(found.refusals, given.most), first_of(found.notes, given.most)
        for line in (*refusals, *notes, *summary(found)):
            print(f"{given.file}: {line}")
    return REFUSED if found.refusals else 0
