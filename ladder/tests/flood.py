"""Floods a page on the loopback for some seconds.

    flood.py PORT SECONDS

1,100 connections ask nothing, 60 ask for the events and read nothing, and one asks for files.
"""

from __future__ import annotations

import resource
import socket
import sys
import time
from contextlib import suppress

IDLE = 1100
READERS = 60


def main() -> None:
    port, seconds = int(sys.argv[1]), float(sys.argv[2])
    most = resource.getrlimit(resource.RLIMIT_NOFILE)[1]
    resource.setrlimit(resource.RLIMIT_NOFILE, (min(4096, most), most))
    ends = time.monotonic() + seconds
    opened = []
    for at in range(READERS + IDLE):
        with suppress(OSError):
            opened.append(socket.create_connection(("127.0.0.1", port), timeout=2))
            if at < READERS:
                opened[-1].sendall(b"GET /events HTTP/1.1\r\nHost: x\r\n\r\n")
    while time.monotonic() < ends:
        with suppress(OSError):
            with socket.create_connection(("127.0.0.1", port), timeout=2) as asking:
                asking.sendall(b"GET /page.js HTTP/1.0\r\n\r\n")
                asking.recv(65_536)


if __name__ == "__main__":
    main()
