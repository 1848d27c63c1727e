"""Tries the edits of a crate: alone, or in groups, one check for all whose functions differ.

A check continues after a function that it refuses, and reports the place of each refusal. So an
edit counts as refused only by a refusal of its own function: a place inside it, its line in the
list of what is not proved, or an error in its proof by hand. An edit whose own refusal is not
reported, for example because a refused callee kept its goals from being tried, is tried again with
others of that kind, and at last alone. An edit of a definition, which has no function, is always
tried alone, and counts if the crate is refused.
"""
from __future__ import annotations

import os
import re
import subprocess
import time
from collections.abc import Iterable
from dataclasses import dataclass, field
from pathlib import Path

from .form import Edit, Pairs
from .functions import Function, function_on, place_of, proofs_of

PLACE = re.compile(r"^(?:note: )?(?:\./)?((?:src|specs|proofs)/\S+?):(\d+):\d+: (.*)$")
LISTED = re.compile(r"^fn (\S+): (?:not proved|no proof)(.*)$", re.M)
NOT_PROVED = re.compile(r"^logic=not-proved", re.M)
# Messages that a text could not be parsed, or not be proved because of a fault of the prover.
UNREAD = re.compile(
    r"is not in scope|has no field|is no name|operand is missing|expected the end|a bug in rattle"
)
# An error in a definition or a proof names it, unless the file could not be parsed.
UNPARSED = re.compile(r"error: (?!`[^`]*`: )")
# Messages that a proof no longer fits the text, whatever the edit means. Its twin shows the rest.
NAMES = re.compile(r"has no `|has no field|is not in scope|was not admitted")


@dataclass
class Change:
    """An edit or a twin, as it is tried."""

    name: str
    path: str
    pairs: Pairs
    functions: set[Function] = field(default_factory=set)  # that change; none for a definition
    touched: set[Function | None] = field(default_factory=set)  # also where only spaces change


def change_of(edit: Edit, pairs: Pairs) -> Change:
    """The change that these pairs of an edit make."""
    change, text = Change(edit.name, edit.path, pairs), (edit.crate / edit.path).read_text()
    is_of_bodies = edit.path.startswith("src/")
    for old, new in pairs:
        here = function_on(text, text.count("\n", 0, place_of(text, old)) + 1)
        is_change = old.strip() != new.strip()
        is_of_bodies = is_of_bodies and not (is_change and here is None)
        change.functions |= {here} if is_change and here else set()
        change.touched.add(here)
        text = text.replace(old, new)
    return change if is_of_bodies else Change(edit.name, edit.path, pairs)


@dataclass
class Group:
    """Changes of different functions, and the texts with all of them applied."""

    changes: list[Change] = field(default_factory=list)
    texts: dict[str, str] = field(default_factory=dict)

    def add(self, change: Change, crate: Path) -> bool:
        """Adds the change if it and those of the group change functions, and different ones, and
        its old texts still occur once."""
        text = self.texts.get(change.path) or (crate / change.path).read_text()
        if self.changes and not all(it.functions for it in [change, *self.changes]):
            return False
        if any(it.path == change.path and it.touched & change.touched for it in self.changes):
            return False
        for old, new in change.pairs:
            if text.count(old) != 1:
                return False
            text = text.replace(old, new)
        self.texts[change.path] = text
        self.changes.append(change)
        return True


def groups_of(changes: Iterable[Change], crate: Path, is_shared: bool = True) -> list[Group]:
    """Groups of changes whose functions differ, as few as possible; or one for each change."""
    groups: list[Group] = []
    for change in changes:
        if not (is_shared and any(group.add(change, crate) for group in groups)):
            groups.append(Group())
            groups[-1].add(change, crate)
    return groups


def check(folder: Path, texts: dict[str, str], *words: str) -> tuple[bool, str]:
    """Checks the crate in the folder with these texts: whether it is proved, and rt's output."""
    kept = {path: (folder / path).read_text() for path in texts}
    for path, text in texts.items():
        (folder / path).write_text(text)
    command = ["rt", "check", "--jobs", "1", *words]
    to = subprocess.PIPE
    ran = subprocess.run(command, cwd=folder, stdout=to, stderr=subprocess.STDOUT, text=True)
    for path, text in kept.items():
        (folder / path).write_text(text)
    return ran.returncode == 0, ran.stdout


def is_listed(change: Change, function: str) -> bool:
    """Whether a function that rt lists is one that changes.

    rt names a method by the module of its type, whatever file its `impl` is in.
    """
    parts = re.sub(r"<.*?>", "", function).split("::")
    modules = [
        it for it in Path(change.path).with_suffix("").parts[1:] if it not in ("lib", "main")
    ]
    return any(
        parts[-1] == name and all(it in parts for it in ([kind] if kind else modules))
        for kind, name in change.functions
    )


def refusal_of_definition(change: Change, output: str) -> str | None:
    """The first message of rt, unless it could not read a text."""
    found = [line for line in output.splitlines() if PLACE.match(line)]
    for path, words in re.findall(r"^(?:\./)?(\S+?):\d+:\d+: (error: .*)$", output, re.M):
        is_read = path == change.path or path.startswith(("src/", "specs/"))
        if is_read and (UNPARSED.match(words) or UNREAD.search(words)):
            return None
    return found[0] if found else "the crate is not proved"


def refusal(change: Change, output: str, text: str, crate: Path) -> str | None:
    """The first message of rt that refuses one of the changed functions, or None. An error that the
    proof names something that the edit removed is the last choice."""
    if not change.functions:
        return refusal_of_definition(change, output)
    proofs = [file for it in change.functions for file in proofs_of(crate, change.path, it)]
    by_hand = [str(file.relative_to(crate)) for file in proofs]
    misfit = None
    for line in output.splitlines():
        found = PLACE.match(line)
        if not found:
            continue
        path, number, words = found[1], int(found[2]), found[3]
        is_error = words.startswith("error")
        if path in by_hand and is_error:
            if not NAMES.search(words):
                return line
            misfit = misfit or f"by names of its proof alone: {line}"
        is_refusal = (is_error or line.startswith("note: ")) and not UNREAD.search(words)
        if path == change.path and is_refusal and function_on(text, number) in change.functions:
            return line
    if misfit:
        return misfit
    for function, words in LISTED.findall(output):
        is_own = " did not prove " in words or "it calls" not in words
        if is_own and is_listed(change, function) and not UNREAD.search(words):
            return f"fn {function}{words}"
    return None


def seconds() -> float:
    """The processor time of the child processes so far."""
    times = os.times()
    return times.children_user + times.children_system


class Trial:
    """The edits of one crate, tried in a copy of it. Prints a line for each result."""

    def __init__(self, name: str, folder: Path) -> None:
        self.name, self.folder, self.refused = name, folder, 0

    def is_proved(self) -> bool:
        """Whether the crate is proved without an edit, which its edits need to show anything."""
        is_proved, output = self.check({}, "no edit")
        if not is_proved:
            print(f"{self.name}: NOT PROVED without an edit, so none was tried")
            print("\n".join(f"    {line}" for line in output.splitlines()[-6:]), flush=True)
        return is_proved

    def run(self, changes: list[Change], is_shared: bool = True, end: float | None = None) -> None:
        """Tries the edits, in groups or one by one, and begins no check after that time."""
        while changes:
            left: list[Change] = []
            for group in groups_of(changes, self.folder, is_shared):
                if end and time.monotonic() > end:
                    print(f"{self.name}: stopped after the given time", flush=True)
                    return
                left += [it for it in self.try_group(group) if len(group.changes) > 1]
            is_shared = len(left) < len(changes)
            changes = left

    def try_group(self, group: Group) -> list[Change]:
        """Tries a group in one check, and returns the edits whose own refusal was not reported."""
        is_proved, output = self.check(group.texts, f"{len(group.changes)} edits")
        is_reached = is_proved or NOT_PROVED.search(output) is not None
        if not is_reached and len(group.changes) > 1:
            return self.try_halves(group.changes)
        left = []
        for it in group.changes:
            is_refused = is_reached and not is_proved
            why = refusal(it, output, group.texts[it.path], self.folder) if is_refused else None
            if why:
                self.refused += 1
                print(f"{self.name}/{it.name}: refused: {why[:160]}", flush=True)
            else:
                left.append(it)
        if left == group.changes and len(left) == 1:
            lines = [line for line in output.splitlines() if PLACE.match(line)]
            first = lines[0][:160] if lines else output.strip()[-160:]
            is_elsewhere = is_reached and left[0].functions
            why = f"{'REFUSED ELSEWHERE' if is_elsewhere else 'DID NOT REACH THE PROVER'}: {first}"
            print(f"{self.name}/{left[0].name}: {'NOT REFUSED' if is_proved else why}", flush=True)
        return left

    def try_halves(self, changes: list[Change]) -> list[Change]:
        """Tries the edits in two halves, since one of them kept the prover from starting."""
        middle = len(changes) // 2
        halves = [groups_of(part, self.folder) for part in (changes[:middle], changes[middle:])]
        return [it for half in halves for group in half for it in self.try_group(group)]

    def check(self, texts: dict[str, str], what: str) -> tuple[bool, str]:
        """Checks the crate with these texts, and prints the processor time."""
        began = seconds()
        is_proved, output = check(self.folder, texts)
        spent = f"{seconds() - began:.0f} s of a processor"
        print(f"{self.name}: a check with {what}, {spent}", flush=True)
        return is_proved, output
