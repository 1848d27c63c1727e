"""A bot that walks round a square, on Python's own server.

    standard.py PORT KIND

KIND is 1.0 or 1.1, the version of HTTP, each with a thread for each connection, or `alone`: 1.1
with one thread.
"""

from __future__ import annotations

import http.server
import json
import sys

STEPS = ("up", "left", "down", "right")


class Handler(http.server.BaseHTTPRequestHandler):
    def do_GET(self) -> None:
        self.send({"apiversion": "1"})

    def do_POST(self) -> None:
        state = json.loads(self.rfile.read(int(self.headers["Content-Length"])))
        self.send({"move": STEPS[state["turn"] % 4]} if self.path.endswith("/move") else {})

    def send(self, answer: dict[str, str]) -> None:
        body = json.dumps(answer).encode()
        self.send_response(200)
        if self.protocol_version == "HTTP/1.1":
            self.send_header("Content-Length", str(len(body)))
        self.end_headers()
        self.wfile.write(body)

    def log_message(self, *_: object) -> None:
        pass


def main() -> None:
    port, kind = sys.argv[1:]
    Handler.protocol_version = "HTTP/1.0" if kind == "1.0" else "HTTP/1.1"
    server = http.server.HTTPServer if kind == "alone" else http.server.ThreadingHTTPServer
    server(("127.0.0.1", int(port)), Handler).serve_forever()


if __name__ == "__main__":
    main()
