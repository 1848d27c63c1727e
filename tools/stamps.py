"""Loads the kit's own rt, and asks it about the crates: which lie below one, and the stamp of each,
a hash of the sources, the libraries below and the kit, which rt writes beside what it has built."""
from __future__ import annotations

import importlib.machinery
import importlib.util
import os
import shutil
import subprocess
import sys
from collections.abc import Iterable
from pathlib import Path
from typing import Any

ROOT = Path(__file__).resolve().parent.parent
# What is called of rt, of the module rtlib that it loads, and of a crate.
CALLED = ("read_files",)
CALLED_OF_LIB = ("Crate", "guarded", "lock", "stop_on_links", "sum_of", "text_of")
CALLED_OF_CRATE = ("below", "build_rlib", "count", "is_built", "stamp")


class Unknown(Exception):
    """There is no rt, or one that has not the calls that are needed here."""


def load() -> Any:
    """Returns the rt of the PATH as a module. Nothing is written beside it."""
    program = shutil.which("rt")
    if not program:
        raise Unknown("there is no rt on the PATH")
    sys.dont_write_bytecode = True
    loader = importlib.machinery.SourceFileLoader("rt", os.path.realpath(program))
    spec = importlib.util.spec_from_loader("rt", loader)
    try:
        assert spec
        rt = importlib.util.module_from_spec(spec)
        loader.exec_module(rt)
        lacking = [name for name in CALLED if not hasattr(rt, name)]
        lacking += [name for name in CALLED_OF_LIB if not hasattr(rt.rtlib, name)]
        lacking += [name for name in CALLED_OF_CRATE if not hasattr(rt.rtlib.Crate, name)]
    except (AttributeError, OSError, SyntaxError) as fault:
        raise Unknown(f"{program}: {fault}") from fault
    if lacking:
        raise Unknown(f"{program} has no {', '.join(lacking)}")
    return rt


def crates(rt: Any, names: Iterable[str], root: Path = ROOT) -> list[Any]:
    """Returns the crates of these names and those below them, lowest first, each with the stamp
    that its sources have now."""
    known: dict[str, Any] = {}
    found: list[Any] = []
    for name in names:
        folder = f"{root}/crates/{name}"
        crate = known.get(folder) or rt.rtlib.Crate(folder, str(root), known)
        known[folder] = crate
        found += [it for it in [*crate.below(), crate] if it not in found]
    for crate in found:
        rt.read_files(crate)
    for crate in found:
        keep_stamp(crate)
    return found


def keep_stamp(crate: Any) -> None:
    """Has a crate answer with the stamp of its sources as they are now, whatever becomes of them.
    rt computes those of all crates below each time."""
    forget_stamp(crate)
    stamp = crate.stamp()
    crate.stamp = lambda: stamp


def forget_stamp(crate: Any) -> None:
    """Has a crate compute its stamp again."""
    vars(crate).pop("stamp", None)


def program_of(crate: Any) -> Path:
    """The path of a crate's built program."""
    return Path(crate.folder, "out", crate.name)


def is_current(rt: Any, crate: Any, program: Path) -> bool:
    """Whether the file beside a program says that it was built from the sources as they are."""
    kept = rt.rtlib.text_of(f"{program}.stamp")
    return kept is not None and bool(kept == crate.stamp() + rt.rtlib.sum_of(str(program)))


def is_built(rt: Any, crate: Any) -> bool:
    """Whether a crate's library or program is built from the sources as they are."""
    if crate.is_program:
        return is_current(rt, crate, program_of(crate))
    return bool(crate.is_built())


def version() -> str:
    """The kit's line, as `rt version` prints it."""
    ran = subprocess.run(["rt", "version"], capture_output=True, text=True)
    return ran.stdout.strip()
