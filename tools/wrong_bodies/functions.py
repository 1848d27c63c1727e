"""Finds the function at a place of a source file, and the files of its proofs by hand."""
from __future__ import annotations

import re
from pathlib import Path

BY_HAND = ("Answers.antt", "Proof.antt", "Invariants.antt")
FUNCTION = re.compile(
    r"^( *)(?:pub(?:\([a-z]+\))? +)?(?:const +)?(?:unsafe +)?(?:extern +\"C\" +)?fn +([a-z_0-9]+)",
    re.M,
)
IMPL = re.compile(
    r"^(?:unsafe )?impl(?:<[^{]*?>)? +(?:[A-Za-z:]+(?:<[^{]*?>)? +for +)?([A-Za-z]+)", re.M
)

Function = tuple[str, str]  # its type, or "", and its name


def function_at(text: str, place: int) -> Function:
    """The function at a place of a file."""
    before = text[:place]
    heads, impls = list(FUNCTION.finditer(before)), list(IMPL.finditer(before))
    is_open = impls and not re.search(r"^}", before[impls[-1].end() :], re.M)
    return impls[-1][1] if is_open else "", heads[-1][2] if heads else ""


def function_on(text: str, line: int) -> Function | None:
    """The function that contains the line of that number; None if the line is outside every
    function."""
    starts = [0] + [found.end() for found in re.finditer("\n", text)]
    if not 1 <= line <= len(starts):
        return None
    start = starts[line - 1]
    end = text.find("\n", start)
    heads = list(FUNCTION.finditer(text[: end if end >= 0 else len(text)]))
    if not heads:
        return None
    close = re.compile(rf"^{heads[-1][1]}}}", re.M).search(text, heads[-1].end())
    is_within = not close or start <= close.start()
    return function_at(text, heads[-1].end()) if is_within else None


def place_of(text: str, old: str) -> int:
    """Where a text begins in a file, without the spaces at its head."""
    return text.find(old) + len(old) - len(old.lstrip())


def proofs_of(crate: Path, source: str, function: Function) -> list[Path]:
    """The files of the proofs by hand of a function of a source file of the crate. Those of a
    method lie in the folder of its type, whatever file its `impl` is in. The name of the folder of
    a function with closures ends with the function's name."""
    kind, name = function
    module = Path(source).relative_to("src").with_suffix("")
    proofs = crate / "proofs"
    folder = proofs if kind or module.name == "lib" else proofs / module
    found = [
        f
        for file in BY_HAND
        for f in folder.glob(f"**/{file}")
        if f.parent.name == name or f.parent.name.endswith(f"+{name}")
    ]
    return [f for f in found if (kind in f.parts if kind else f.parent.parent == folder)]
