"""A server of TLS 1.3 that floods its clients, by OpenSSL's library itself.

    tls_floods.py --port PORT --key KEY --certificate CERTIFICATE --log FILE

A bot is a path: `quiet` answers and waits; `keys` and `tickets` send new keys and session tickets
behind each answer, `early` new keys before it. Each flood that was cut off is a line of the log.
Python's module ssl sends no such records.
"""

from __future__ import annotations

import argparse
import ctypes
import select
import socket
import threading
from pathlib import Path

PEM = 1
MOST = 200_000  # records of a flood
BODY = b'{"apiversion":"1","move":"up"}'
GOOD = b"HTTP/1.1 200 OK\r\nContent-Length: %d\r\n\r\n%b" % (len(BODY), BODY)

library = ctypes.CDLL("libssl.so.3")
for name in ("TLS_server_method", "SSL_CTX_new", "SSL_new"):
    getattr(library, name).restype = ctypes.c_void_p


class Flooder:
    """One connection."""

    def __init__(self, context: ctypes.c_void_p, wire: socket.socket) -> None:
        self.ssl = ctypes.c_void_p(library.SSL_new(context))
        self.wire = wire
        library.SSL_set_fd(self.ssl, wire.fileno())

    def request(self) -> bytes:
        """The bytes of a request, or none at the end."""
        buffer, text = ctypes.create_string_buffer(65_536), b""
        while not is_whole(text):
            count = library.SSL_read(self.ssl, buffer, len(buffer))
            if count <= 0:
                return b""
            text += buffer.raw[:count]
        return text

    def write(self, text: bytes) -> bool:
        return int(library.SSL_write(self.ssl, text, len(text))) > 0

    def flood(self, is_tickets: bool) -> bool:
        """Sends records that carry no text; returns whether it was cut off."""
        poll = select.poll()
        poll.register(self.wire.fileno(), 0)  # ends of the connection alone
        for _ in range(MOST):
            if is_tickets:
                library.SSL_new_session_ticket(self.ssl)
            else:
                library.SSL_key_update(self.ssl, 1)
            if library.SSL_do_handshake(self.ssl) != 1 or poll.poll(0):
                return True  # OpenSSL does not say so itself for tickets
        return False

    def serve(self, log: Path) -> None:
        """Answers the requests of the connection."""
        if library.SSL_accept(self.ssl) == 1:
            while text := self.request():
                kind = text.split()[1].split(b"/")[1]
                is_early = kind == b"early" and self.flood(False)
                if is_early or not self.write(GOOD):
                    break
                if kind in (b"keys", b"tickets") and self.flood(kind == b"tickets"):
                    is_early = True
                    break
            if is_early:
                with open(log, "ab") as file:
                    file.write(kind + b"\n")
        library.SSL_free(self.ssl)
        self.wire.close()


def is_whole(text: bytes) -> bool:
    """Whether a request has come with its body."""
    head, end, body = text.partition(b"\r\n\r\n")
    length = head.lower().partition(b"content-length:")[2].split(b"\r\n")[0]
    return bool(end) and len(body) >= int(length or 0)


def main() -> None:
    words = argparse.ArgumentParser(description=__doc__)
    words.add_argument("--port", type=int, required=True)
    for name in ("--key", "--certificate", "--log"):
        words.add_argument(name, required=True)
    given = words.parse_args()
    method = ctypes.c_void_p(library.TLS_server_method())
    context = ctypes.c_void_p(library.SSL_CTX_new(method))
    library.SSL_CTX_use_certificate_file(context, given.certificate.encode(), PEM)
    library.SSL_CTX_use_PrivateKey_file(context, given.key.encode(), PEM)
    with socket.create_server(("127.0.0.1", given.port), backlog=64) as listening:
        while True:
            wire, _ = listening.accept()
            serve = Flooder(context, wire).serve
            threading.Thread(target=serve, args=(Path(given.log),), daemon=True).start()


if __name__ == "__main__":
    main()
