"""What the client raises."""

from __future__ import annotations


class Refused(Exception):
    """A line that the host refused; `code` is one of docs/FORMATS.md, such as G4 or A2."""

    def __init__(self, code: str, why: str) -> None:
        super().__init__(f"{code} {why}")
        self.code = code
        self.why = why


class HostDied(Exception):
    """The host has ended; `status` is its exit status, negative for a signal."""

    def __init__(self, status: int, error: str = "") -> None:
        super().__init__(f"arena live ended with status {status}{': ' + error if error else ''}")
        self.status = status


class HostFault(Exception):
    """A line of the host that answers no line that was sent, or a host that was not started."""
