"""A small Battlesnake server: many bots, each a function of its request, under its own path."""

from __future__ import annotations

import signal
import socket
import subprocess
import sys
from collections.abc import Callable, Mapping, Sequence
from threading import Thread
from typing import Any

from aiohttp import web

BACKLOG = 128
Choose = Callable[[dict[str, Any]], str]
Bots = Mapping[str, tuple[str, Choose]]  # the colour and the function of each, by name
STEPS = {"up": (0, 1), "down": (0, -1), "left": (-1, 0), "right": (1, 0)}


def free_steps(state: dict[str, Any]) -> dict[str, tuple[int, int]]:
    """The directions that lead to a cell without wall or body, with these cells.

    The last part of a body moves away, unless its snake has just eaten.
    """
    board, body = state["board"], state["you"]["body"]
    taken = {(part["x"], part["y"]) for it in board["snakes"] for part in it["body"][:-1]}
    is_wrapped = state["game"]["ruleset"]["name"] == "wrapped"
    steps = {}
    for word, (right, up) in STEPS.items():
        x, y = body[0]["x"] + right, body[0]["y"] + up
        if is_wrapped:
            x, y = x % board["width"], y % board["height"]
        if 0 <= x < board["width"] and 0 <= y < board["height"] and (x, y) not in taken:
            steps[word] = (x, y)
    return steps


def application(name: str, color: str, choose: Choose) -> web.Application:
    """The server of one bot by the official API."""

    async def look(_: web.Request) -> web.Response:
        info = {"apiversion": "1", "author": "arena", "color": color, "head": "default"}
        return web.json_response({**info, "tail": "default", "version": name})

    async def move(request: web.Request) -> web.Response:
        return web.json_response({"move": choose(await request.json())})

    async def hear(_: web.Request) -> web.Response:
        return web.json_response({})

    app = web.Application()
    app.add_routes([web.get("/", look), web.post("/move", move)])
    app.add_routes([web.post("/start", hear), web.post("/end", hear)])
    return app


def listener_of(port: int) -> socket.socket:
    """A socket that listens on 127.0.0.1; ends the program if there can be none."""
    try:
        return socket.create_server(("127.0.0.1", port), backlog=BACKLOG)
    except OSError as fault:
        sys.exit(
            f"serve: port {port} can't be used: {fault.strerror}. Does another ladder/bots/serve "
            "run? --port chooses another port, which the URLs of the configuration have to name"
        )


def tell(bots: Bots, port: int, until: str) -> None:
    """Says on the standard error what is served, where and how long."""
    print(f"serve: {', '.join(bots)} at http://127.0.0.1:{port}/NAME, {until}", file=sys.stderr)


def serve_on(listener: socket.socket, bots: Bots, has_signals: bool) -> None:
    """Serves each bot below its name, until the process is stopped."""
    app = web.Application()
    for name, (color, choose) in bots.items():
        app.add_subapp(f"/{name}/", application(name, color, choose))
    quiet: dict[str, Any] = {"print": lambda *_: None, "access_log": None}
    web.run_app(app, sock=listener, handle_signals=has_signals, **quiet)


def serve(bots: Bots, port: int) -> None:
    """Serves bots on 127.0.0.1 until the process is stopped."""
    listener = listener_of(port)
    tell(bots, port, "until Ctrl-C")
    serve_on(listener, bots, has_signals=True)


def serve_during(command: Sequence[str], bots: Bots, port: int) -> int:
    """Serves bots while a command runs; returns its status.

    Ctrl-C is for the command, which gets it from the terminal; SIGTERM is passed to it.
    """
    listener = listener_of(port)
    tell(bots, port, f"while {' '.join(command[:2])} runs")
    Thread(target=serve_on, args=(listener, bots, False), daemon=True).start()
    signal.signal(signal.SIGINT, lambda *_: None)  # unlike SIG_IGN, not inherited
    try:
        running = subprocess.Popen(command)
    except OSError as fault:
        sys.exit(f"serve: {command[0]} can't be run: {fault.strerror}")
    signal.signal(signal.SIGTERM, lambda *_: running.terminate())
    return running.wait()
