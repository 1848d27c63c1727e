"""The networks in which bots may be called, so that no stranger's URL reaches a private service."""

from __future__ import annotations

import ipaddress
from collections.abc import Iterable

NAT64 = ipaddress.IPv6Network("64:ff9b::/96")

Address = ipaddress.IPv4Address | ipaddress.IPv6Address


def plain(address: str) -> Address:
    """An address; of one of IPv6 that stands for one of IPv4, that one."""
    found = ipaddress.ip_address(address.partition("%")[0])
    if isinstance(found, ipaddress.IPv6Address):
        inner = found.ipv4_mapped or found.sixtofour
        if inner is None and found in NAT64:
            inner = ipaddress.IPv4Address(int(found) & 0xFFFFFFFF)
        return inner or found
    return found


class Networks:
    """Which addresses bots may have: public ones, and those of named networks.

    Without names (None) the loopback is one of them if `has_loopback` says so.
    """

    def __init__(self, names: Iterable[str] | None, has_loopback: bool) -> None:
        self.has_loopback = names is None and has_loopback
        self.named = [ipaddress.ip_network(name) for name in names or ()]

    def permits(self, address: str) -> bool:
        """Whether a bot may be called at an address of either version."""
        found = plain(address)
        if found.is_loopback:
            return self.has_loopback or self._names(found)
        is_public = found.is_global and not found.is_multicast and not found.is_reserved
        return is_public or self._names(found)

    def _names(self, address: Address) -> bool:
        return any(address in it for it in self.named if it.version == address.version)


def is_loopback(host: str) -> bool:
    """Whether a host is this machine by its name or its address."""
    try:
        return plain(host).is_loopback
    except ValueError:
        return host == "localhost"
