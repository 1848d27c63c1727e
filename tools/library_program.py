"""Makes a program of the library for C, for tools/unproved: `rt try` compiles programs alone.

    tools/library_program.py INTO

Copies crates/arena_c and the crates below it into the folder INTO. There arena_c is a program whose
`main` calls each export once, so that all of them are compiled. What the calls are given does not
matter: that program is never run.
"""
from __future__ import annotations


import re
import shutil
import sys
from pathlib import Path

ROOT = Path(__file__).resolve().parent.parent
LIBRARY = "arena_c"
ROW = re.compile(r"^(\w+)(?: staticlib)?: *(.*)$", re.M)
MODULE = re.compile(r"^mod (\w+);$", re.M)
EXPORT = re.compile(r'pub extern "C" fn (\w+)\(([^)]*)\)', re.S)
STRUCT = re.compile(r"pub struct (\w+)(?:<'a>)? \{(.*?)^\}", re.M | re.S)
ARGUMENT = re.compile(r"\w+: ([^,]+)")
FIELD = re.compile(r"pub (\w+): ([^\n]*),\n")
LIST = re.compile(r"\[(.*); (\w+)\]$")
# A game is not copied by Rattle's code. Here it may be, so that a call can leave one behind.
LINEAR = "#[repr(C)]\npub struct"
COPIED = "#[repr(C)]\n#[derive(Clone, Copy)]\npub struct"
HEAD = """//! Calls each export of the library.
#![tactic(auto)]

"""


def needed(rows: dict[str, str], name: str) -> set[str]:
    """A crate and those below it that crates.txt lists."""
    found = {name}
    for below in rows[name].split():
        found |= needed(rows, below) if below in rows else set()
    return found


def copy_crates(into: Path) -> None:
    """Copies the sources of the library's crates, and writes their crates.txt."""
    rows = dict(ROW.findall((ROOT / "crates.txt").read_text()))
    names = needed(rows, LIBRARY)
    for name in names:
        ignored = shutil.ignore_patterns("out", "must-fail", "edits.txt", "data")
        shutil.copytree(ROOT / "crates" / name, into / "crates" / name, ignore=ignored)
    lines = [f"{name}: {below}\n" for name, below in rows.items() if name in names]
    (into / "crates.txt").write_text("".join(lines))
    for path in (into / "crates").glob("bs_*/src/*.rt"):
        path.write_text(path.read_text().replace(LINEAR, COPIED))


class Values:
    """Some value of each type that an export takes."""

    def __init__(self, crates: Path) -> None:
        self.structs: dict[str, list[tuple[str, str]]] = {}
        self.homes: dict[str, str] = {}
        for path in sorted(crates.glob("bs_*/src/*.rt")):
            for name, body in STRUCT.findall(path.read_text()):
                self.structs[name] = FIELD.findall(body)
                self.homes[name] = path.parents[1].name
        self.used: set[str] = set()

    def of(self, kind: str) -> str:
        """An expression of a type."""
        if found := LIST.match(kind):
            many = self.of(found[1])
            return f"[{many}; {found[2].replace('SEATS', '8')}]"
        if kind.startswith("&"):
            return "&[]"
        name = kind.replace("<'_>", "").replace("<'a>", "")
        if name not in self.structs:
            return "0"
        self.used.add(name)
        fields = ", ".join(f"{field}: {self.of(of)}" for field, of in self.structs[name])
        return f"{name} {{ {fields} }}"

    def lent(self, kind: str) -> str:
        """What an argument borrows."""
        kind = kind.removeprefix("&").removeprefix("mut ")
        return f"[{self.of(kind[1:-1])}]" if kind.startswith("[") else self.of(kind)


def argument_of(values: Values, kind: str, held: str) -> tuple[str, str]:
    """An argument of a type, and the line before the call that it needs."""
    if kind == "Global":
        return "alloc", ""
    if not kind.startswith("&"):
        return values.of(kind), ""
    mut = "mut " if kind.startswith("&mut ") else ""
    word = kind.removeprefix("&").removeprefix("mut ").strip("[]").split("<")[0]
    typed = f": [{word}; 1]" if "[" in kind else f": {word}"
    return f"&{mut}{held}", f"    let {mut}{held}{typed} = {values.lent(kind)};\n"


def call_of(values: Values, module: str, name: str, arguments: str) -> str:
    """A function that makes the values of an export's arguments, and calls it."""
    kinds = [kind.strip() for kind in ARGUMENT.findall(arguments)]
    made = [argument_of(values, kind, f"a{number}") for number, kind in enumerate(kinds)]
    given = ", ".join(argument for argument, _ in made)
    body = "".join(line for _, line in made) + f"    {module}::{name}({given});\n"
    return f"fn call_{name}(alloc: Global) {{\n{body}}}\n\n"


def program(crates: Path) -> str:
    """The text of the program's main.rt."""
    source = crates / LIBRARY / "src"
    modules = MODULE.findall((source / "lib.rt").read_text())
    values, calls, names = Values(crates), [], []
    for module in modules:
        for name, arguments in EXPORT.findall((source / f"{module}.rt").read_text()):
            calls.append(call_of(values, module, name, arguments))
            names.append(name)
    uses: dict[str, list[str]] = {}
    for name in sorted(values.used):
        uses.setdefault(values.homes[name], []).append(name)
    lines = [f"use {crate}::{{{', '.join(uses[crate])}}};\n" for crate in sorted(uses)]
    made = "".join(f"    call_{name}(alloc);\n" for name in names)
    head = HEAD + "".join(f"mod {module};\n" for module in modules) + "\n" + "".join(lines)
    head += "use std::alloc::Global;\nuse std::env;\n\n" + "".join(calls)
    return f"{head}fn main(rt: HostRuntime) {{\n    let alloc = rt.alloc();\n{made}}}\n"


def main() -> None:
    into = Path(sys.argv[1])
    copy_crates(into)
    crates = into / "crates"
    text = program(crates)
    (crates / LIBRARY / "src/lib.rt").unlink()
    (crates / LIBRARY / "src/main.rt").write_text(text)


if __name__ == "__main__":
    main()
