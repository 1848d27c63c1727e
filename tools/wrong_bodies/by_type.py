"""Checks that the tally's `finish` cannot take a lock.

Taking a lock may wait, and so needs a handle that may wait. `PartKey::finish` has none, so a body
with a lock does not compile, and a must-fail edit, which has to compile, cannot show this. The body
is tried twice: as it is, when rt has to refuse it for the missing handle and for nothing else; and
with the handle added to the signature, when rt has to accept it, so that nothing else is wrong with
it.
"""
from __future__ import annotations

import re
from pathlib import Path

from .form import replaced
from .trials import check

CRATE = "bs_counter"
FILE = "src/key.rt"
LOCK = [
    ("use std::sync::Arc;\n", "use std::sync::{Arc, Mutex};\n"),
    (
        "        start(&tally, &mut seat, part as u64);\n",
        "        let lock = Mutex::new(());\n"
        "        let held = lock.lock(rt);\n"
        "        start(&tally, &mut seat, part as u64);\n",
    ),
]
HANDLE = [
    ("use std::sync::{Arc, Mutex};\n", "use std::sync::{Arc, Mutex, Wait};\n"),
    ("fn finish(self, out: T)", "fn finish<R: Wait>(self, rt: &R, out: T)"),
]


def errors_of(folder: Path, text: str) -> tuple[bool, str]:
    """Whether rt proves `finish` with that text, and the errors that it prints."""
    is_proved, output = check(folder, {FILE: text}, "--only", "PartKey::finish")
    return is_proved, "\n".join(line for line in output.splitlines() if "error" in line)


def is_missing_handle(text: str, errors: str) -> bool:
    """Whether the only error is that the name `rt` is unknown where the lock is taken."""
    line = next(n for n, words in enumerate(text.splitlines(), 1) if "lock.lock(rt)" in words)
    wanted = rf"{re.escape(FILE)}:{line}:\d+: error\[unknown-name\]:.*`rt`.*"
    return re.fullmatch(wanted, errors) is not None


def is_refused(folder: Path) -> bool:
    """Tries both bodies in that copy of the crate, and prints what rt answers to each."""
    without = replaced((folder / FILE).read_text(), LOCK, FILE)
    with_handle = replaced(without, HANDLE, FILE)
    is_proved, errors = errors_of(folder, without)
    is_missing = not is_proved and is_missing_handle(without, errors)
    print(
        f"a lock in `finish`: {'refused for the missing handle' if is_missing else 'NOT REFUSED'}"
    )
    print(f"    {errors}")
    is_proved, errors = errors_of(folder, with_handle)
    print(f"with the handle in its signature: {'accepted' if is_proved else 'NOT ACCEPTED'}")
    if errors:
        print(f"    {errors}")
    return is_missing and is_proved
