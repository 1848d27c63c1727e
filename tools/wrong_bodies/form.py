"""Reads the wrong bodies of a crate, crates/NAME/must-fail/*.edit and crates/NAME/edits.txt.

An entry of edits.txt is a line with a name and a file of the crate, and below it lines that four
spaces indent: `old:` and a text that the file has once, `new:` and what replaces it, `twin:` and
what replaces it in the twin. An entry may have several such pairs, and a text several lines, each
after its word. An entry without `new:` is the twin of the edit of that name in must-fail/, whose
form is the kit's: a line `file:`, and then pairs of `old:` and `new:`. Blank lines part entries,
and a line that begins with `#` is a comment.
"""
from __future__ import annotations

import re
from dataclasses import dataclass, field
from itertools import groupby
from pathlib import Path

Pairs = list[tuple[str, str]]
Lines = list[tuple[int, str]]  # each with its number

HEAD = re.compile(r"([A-Za-z0-9_-][A-Za-z0-9_.-]*): ((?:src|specs|proofs)/\S+)")
TEXT = r"(old|new|twin):(?: (.*))?"
ORDER = re.compile(r"(?:old new (?:twin )?)+|(?:old twin )+")


class Fault(Exception):
    """What is wrong with an edit, after the file and the line that have it."""


@dataclass
class Edit:
    """A wrong body, and its twin if it has one."""

    name: str
    crate: Path
    where: str  # the file and the line that have it
    path: str  # of the file that it changes, in the crate
    pairs: Pairs = field(default_factory=list)
    twin: Pairs = field(default_factory=list)
    is_must_fail: bool = False

    def edited(self, pairs: Pairs) -> str:
        """The text of the file after these pairs."""
        if not (self.crate / self.path).is_file():
            raise Fault(f"{self.where}: there is no file {self.path}")
        return replaced((self.crate / self.path).read_text(), pairs, self.where)


def replaced(text: str, pairs: Pairs, where: str) -> str:
    """The text after these pairs, each of whose old texts occurs once."""
    for old, new in pairs:
        if text.count(old) != 1:
            raise Fault(f"{where}: 'old: {old}' occurs {text.count(old)} times, not once")
        text = text.replace(old, new)
    return text


def lines_of(file: Path) -> Lines:
    """The lines of a file but for its comments."""
    lines = enumerate(file.read_text().split("\n"), 1)
    return [(number, line) for number, line in lines if not line.lstrip().startswith("#")]


def edit_of(file: Path, crate: Path, lines: Lines, indent: str) -> Edit:
    """The edit or the twin that these lines of a file have, whose texts are indented so."""
    where, head = f"{file}:{lines[0][0]}", HEAD.fullmatch(lines[0][1])
    if not head:
        raise Fault(f"{where}: it wants 'NAME: FILE', with a file of src/, specs/ or proofs/")
    texts: Pairs = []
    for number, line in lines[1:]:
        found = re.fullmatch(indent + TEXT, line)
        if not found:
            raise Fault(f"{file}:{number}: it wants 'old:', 'new:' or 'twin:' after '{indent}'")
        is_more = bool(texts) and texts[-1][0] == found[1]
        before = f"{texts.pop()[1]}\n" if is_more else ""
        texts.append((found[1], before + (found[2] or "")))
    if not ORDER.fullmatch("".join(f"{word} " for word, _ in texts)) or ("old", "") in texts:
        raise Fault(f"{where}: {head[1]} wants pairs of 'old:' and 'new:', and 'twin:' after them")
    edit, old = Edit(head[1], crate, where, head[2]), ""
    for word, text in texts:
        if word == "old":
            old = text
        else:
            (edit.pairs if word == "new" else edit.twin).append((old, text))
    return edit


def must_fail_edit(file: Path) -> Edit:
    """The edit that a file of must-fail/ has."""
    lines = [(number, line) for number, line in lines_of(file) if line.strip()]
    edit = edit_of(file, file.parent.parent, lines or [(1, "")], "")
    if edit.name != "file" or edit.twin:
        raise Fault(f"{edit.where}: it wants 'file: FILE', and then pairs of 'old:' and 'new:'")
    edit.name, edit.is_must_fail = file.stem, True
    return edit


def read(crate: Path) -> list[Edit]:
    """The edits of a crate: those of must-fail/, and those of edits.txt."""
    edits = {file.stem: must_fail_edit(file) for file in sorted(crate.glob("must-fail/*.edit"))}
    file, names = crate / "edits.txt", set()
    lines = lines_of(file) if file.exists() else []
    for is_entry, entry in groupby(lines, lambda it: bool(it[1].strip())):
        if not is_entry:
            continue
        edit = edit_of(file, crate, list(entry), "    ")
        known = edits.get(edit.name)
        if edit.name in names or (edit.pairs and known):
            raise Fault(f"{edit.where}: {edit.name} is there twice, or in must-fail/ too")
        names.add(edit.name)
        if edit.pairs:
            edits[edit.name] = edit
        elif (
            known and known.path == edit.path and dict(edit.twin).keys() <= dict(known.pairs).keys()
        ):
            known.twin = edit.twin
        else:
            raise Fault(f"{edit.where}: must-fail/ has no edit {edit.name} of these texts")
    return list(edits.values())
