"""Compares arena-check with the program on drawn files. One that fails is kept in out/checker."""
import multiprocessing
import random
import subprocess
from collections import Counter
from pathlib import Path
from typing import Any

import pytest
from program import ROOT
from refusals import refused_lines

from checker import drawn_files
from checker.command_file import check

KEPT = ROOT / "out/checker"
SECONDS = 300  # on a busy machine
UNSERVED = 4  # exit status
FORM = "P1 P2 P3 L1 L2 L3 A1 A2 A3 A5 G1".split()
BATCH = 50


def served(path: Path, text: bytes, blocks: int) -> tuple[int, bytes, str]:
    """The status, output and errors of `arena serve`."""
    words = [str(path), "serve", "-", "--blocks", str(blocks), "--workers", "1"]
    ran = subprocess.run(words, input=text, capture_output=True, timeout=SECONDS)
    return ran.returncode, ran.stdout, ran.stderr.decode()


def difference(path: Path, text: bytes) -> tuple[str | None, Counter[str]]:
    """Why arena-check and the program differ on a file, or None; and the codes of the file."""
    found = check(text)
    named = found.refused_lines()
    codes = Counter(named.values())
    plan, most = max(found.plan_blocks, 1), max(found.most_blocks, 1)
    status, output, errors = served(path, text, most)
    if status == UNSERVED:
        seen = {1: errors.strip().rpartition(" ")[2]}
        return (None if named == seen else f"named {named}, refused {seen}"), codes
    if status != 0:
        return f"status {status}: {errors}", codes
    seen = refused_lines(text, output)
    if named != seen:
        only = sorted(set(named.items()) ^ set(seen.items()))
        return f"named and refused differ in {only[:4]}", codes
    if plan > 1 and served(path, text, plan - 1)[2] != "arena: plan P4\n":
        return f"the plan needs fewer blocks than {plan}", codes
    if most > plan:
        status, output, errors = served(path, text, most - 1)
        if status != 0 or "A4" not in refused_lines(text, output).values():
            return f"it needs fewer blocks than {most}", codes
        if served(path, text, plan)[0] != 0:
            return f"the plan needs more blocks than {plan}", codes
    return None, codes


def compare_some(job: tuple[Any, ...]) -> tuple[list[str], Counter[str], int]:
    """Compares some drawn files. Returns the faults, the codes and the number of lines."""
    path, seed, numbers = job
    faults: list[str] = []
    codes: Counter[str] = Counter()
    lines = 0
    for number in numbers:
        text = drawn_files.command_file(random.Random(f"{seed} {number}"))
        try:
            why, found = difference(path, text)
        except Exception as fault:  # kept as the fault of this file
            why, found = repr(fault), Counter()
        codes += found
        lines += text.count(b"\n") + 1
        if why:
            KEPT.mkdir(parents=True, exist_ok=True)
            (KEPT / f"{number}.jsonl").write_bytes(text)
            faults.append(f"{KEPT.relative_to(ROOT)}/{number}.jsonl: {why}")
    return faults, codes, lines


@pytest.mark.slow
def test_drawn_files(program: Path, request: pytest.FixtureRequest) -> None:
    """No file differs; a thousand files have each refusal of form."""
    files, seed, jobs = map(request.config.getoption, ("--files", "--seed", "--jobs"))
    numbers = range(files)
    batches = [(program, seed, numbers[at : at + BATCH]) for at in numbers[::BATCH]]
    faults: list[str] = []
    codes: Counter[str] = Counter()
    lines = 0
    with multiprocessing.Pool(jobs) as pool:
        for some, found, count in pool.imap_unordered(compare_some, batches):
            faults += some
            codes += found
            lines += count
    refused = ", ".join(f"{code} {codes[code]}" for code in FORM)
    print(f"{files} files of {lines} lines, {len(faults)} failed; refused: {refused}")
    assert not faults
    assert files < 1000 or [code for code in FORM if not codes[code]] == []
