"""The addresses of bots: their parts, and how they are shown."""

from __future__ import annotations

import base64
import re
from functools import lru_cache
from typing import NamedTuple
from urllib.parse import quote, unquote, urlsplit

MOST_URLS = 1024  # whose parts are cached
PORTS = {"http": 80, "https": 443}
PATH_MARKS = "/%:@!$&'()*+,;=~-._"  # which a path has as they are


class Place(NamedTuple):
    """Where a bot is served."""

    is_secure: bool
    host: str
    port: int


class Target(NamedTuple):
    """The parts of a URL that a request needs."""

    place: Place
    path: str
    fields: str  # Host, and Authorization if the URL has a user


@lru_cache(MOST_URLS)
def target_of(url: str) -> Target:
    """Splits a URL; raises ValueError if nothing can be served there."""
    parts = urlsplit(url)
    usual = PORTS.get(parts.scheme)
    if usual is None or not parts.hostname or parts.port == 0:
        raise ValueError("the URL has no host, or is neither http nor https")
    is_number = ":" in parts.hostname  # of IPv6
    host = parts.hostname if is_number else parts.hostname.encode("idna").decode()
    port = parts.port or usual
    fields = f"Host: {named_host(host)}" + ("" if port == usual else f":{port}")
    if parts.username is not None:
        secret = f"{unquote(parts.username)}:{unquote(parts.password or '')}".encode()
        fields += f"\r\nAuthorization: Basic {base64.b64encode(secret).decode()}"
    path = quote(parts.path or "/", safe=PATH_MARKS)
    return Target(Place(parts.scheme == "https", host, port), path, fields)


def request_of(method: str, target: Target, body: bytes, id: str = "") -> bytes:
    """The bytes of a request, with its id if it has one."""
    fields = f"{target.fields}\r\nX-Request-Id: {id}" if id else target.fields
    return (
        f"{method} {target.path} HTTP/1.1\r\n{fields}\r\n"
        "User-Agent: arena-ladder\r\nAccept: */*\r\nAccept-Encoding: identity\r\n"
        f"Content-Type: application/json\r\nContent-Length: {len(body)}\r\n\r\n"
    ).encode() + body


def named_host(host: str) -> str:
    """A host as a URL has it: an address of IPv6 is in brackets."""
    return f"[{host}]" if ":" in host else host


def shown(url: str) -> str:
    """A URL without user and password, for messages and files."""
    return re.sub(r"//[^/?#]*@", "//", url)
