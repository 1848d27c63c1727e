"""Resolves the names of bots, each in a thread of its own, again and again while a run goes on."""

from __future__ import annotations

import asyncio
import ipaddress
import socket
import threading
from collections.abc import Collection, Iterable

REFRESH_SECONDS = 300.0
RETRY_SECONDS = 15.0  # after a failure


def addresses_of(host: str) -> list[str]:
    """The addresses of a name, each once, as the system orders them; blocks the thread."""
    found = socket.getaddrinfo(host, None, type=socket.SOCK_STREAM)
    return list(dict.fromkeys(str(row[4][0]) for row in found))


def is_address(host: str) -> bool:
    try:
        ipaddress.ip_address(host)
    except ValueError:
        return False
    return True


class Name:
    """What is known of a name: its addresses, empty before the first result or after a failure."""

    def __init__(self) -> None:
        self.addresses: list[str] = []
        self.is_resolved = asyncio.Event()
        self.ends = threading.Event()  # nobody asks for it any more

    def take(self, found: list[str]) -> None:
        """Takes the result of a lookup; after a failure the known addresses stay."""
        if found:
            self.addresses = sorted(found, key=lambda it: it not in self.addresses[:1])
        self.is_resolved.set()


class AddressBook:
    """The addresses of the names of a run.

    The threads are daemons: neither a request nor the end of the program waits for a name server.
    """

    def __init__(self) -> None:
        self.names: dict[str, Name] = {}

    def begin(self, hosts: Iterable[str]) -> None:
        """Starts to resolve names; addresses are none."""
        for host in hosts:
            if host not in self.names and not is_address(host):
                self.names[host] = name = Name()
                words = (host, name, asyncio.get_running_loop())
                threading.Thread(target=self._keep, args=words, daemon=True).start()

    def close(self) -> None:
        for name in self.names.values():
            name.ends.set()

    def keep_only(self, hosts: Collection[str]) -> None:
        """Forgets all names but these, and ends their threads."""
        for host in [it for it in self.names if it not in hosts]:
            self.names.pop(host).ends.set()

    async def of(self, host: str) -> list[str]:
        """The addresses of a host, that which served last first; raises OSError without any.

        Only the first request of a name waits. A failure is remembered until the next lookup.
        """
        if is_address(host):
            return [host]
        self.begin([host])
        name = self.names[host]
        await name.is_resolved.wait()
        if not name.addresses:
            raise OSError(f"the name {host} has no address")
        return list(name.addresses)

    def prefer(self, host: str, address: str) -> None:
        """Puts an address that served first."""
        name = self.names.get(host)
        if name is not None and address in name.addresses[1:]:
            name.addresses.remove(address)
            name.addresses.insert(0, address)

    def defer(self, host: str, address: str) -> None:
        """Puts an address last at which no connection could be made."""
        name = self.names.get(host)
        if name is not None and address in name.addresses[:-1]:
            name.addresses.remove(address)
            name.addresses.append(address)

    def _keep(self, host: str, name: Name, loop: asyncio.AbstractEventLoop) -> None:
        """Resolves a name until it is forgotten, or the run ends."""
        while True:
            try:
                found = addresses_of(host)
            except (OSError, UnicodeError):
                found = []
            try:
                loop.call_soon_threadsafe(name.take, found)
            except RuntimeError:
                return  # the loop is closed
            if name.ends.wait(REFRESH_SECONDS if found else RETRY_SECONDS):
                return
