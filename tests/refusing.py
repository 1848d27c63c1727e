"""Compiles the library tests/refusing.c, and runs programs with it, which counts and refuses their
requests for memory."""
import os
import struct
import subprocess
import tempfile
from dataclasses import dataclass
from pathlib import Path

import debian

SOURCE = Path(__file__).resolve().parent / "refusing.c"
REPORT = struct.Struct("QQq")  # the report of the library: the members of `Counts`


@dataclass(frozen=True)
class Counts:
    """The counts of a run: its requests, the refused ones, and the memory blocks that were not
    freed."""

    made: int
    refused: int
    held: int


def install():
    """Installs the compiler. Returns the reason if that fails, else None."""
    return debian.install("gcc", "gcc", "libc6-dev")


def compile_library(folder):
    """Compiles the library in the folder, and returns its path."""
    library = Path(folder) / "refusing.so"
    words = ["gcc", "-shared", "-fPIC", "-O1", "-Wall", "-Wextra", "-Werror"]
    subprocess.run([*words, "-o", library, SOURCE, "-ldl"], check=True)
    return library


def run_counted(library, words, seconds, refused=(0, 0), file=os.devnull, **more):
    """Runs a command with the file as standard input. The requests from the first number of
    `refused` to the second are refused; `more` are settings of the library. Returns the status, the
    output and the errors, and the `Counts`. After a timeout of `seconds` the status is a text."""
    settings = {"FIRST": str(refused[0]), "LAST": str(refused[1]), **more}
    with tempfile.NamedTemporaryFile(prefix="refusing-") as report, open(file, "rb") as given:
        report.write(bytes(REPORT.size))
        report.flush()
        environment = {f"REFUSING_{name}": value for name, value in settings.items()}
        environment |= {"LD_PRELOAD": str(library), "REFUSING_REPORT": report.name}
        how = {"env": environment, "stdin": given, "capture_output": True, "timeout": seconds}
        try:
            ran = subprocess.run(words, **how)
            seen = (ran.returncode, ran.stdout, ran.stderr)
        except subprocess.TimeoutExpired:
            seen = (f"no end after {seconds} s", b"", b"")
        return seen, Counts(*REPORT.unpack(Path(report.name).read_bytes()))
