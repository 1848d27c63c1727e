"""Real servers of Debian's packages, each with a bot that walks round a square (real/)."""

from __future__ import annotations

import os
import ssl
import subprocess
import sys
import time
import urllib.request
from collections.abc import Iterator, Sequence
from contextlib import ExitStack, contextmanager
from dataclasses import dataclass
from pathlib import Path

from served import HERE, free_port
from test_tls import make_certificate

REAL = HERE / "real"
START_SECONDS = 120
PATH = f"{os.environ['PATH']}:/usr/sbin"
PYTHON = f"{sys.executable} -B"
ASGI = f"{PYTHON} -m uvicorn --log-level error --app-dir {REAL} --port PORT"
WSGI = f"{PYTHON} -m gunicorn --chdir {REAL} -b 127.0.0.1:PORT"


@dataclass(frozen=True)
class Server:
    """A server: what it needs, how it is started, and where it is then.

    In its words PORT and FOLDER are replaced, and BOT by the port of the server before which it
    stands. `made` are the words by which it is compiled.
    """

    needs: str
    words: str
    url: str = "http://127.0.0.1:PORT"
    made: str = ""
    before: tuple[str, ...] = ()  # the first of them that is there
    listen: str = "PORT"  # of nginx
    version: str = "1.1"  # of HTTP, of nginx


TLS = "https://127.0.0.1:PORT"
NGINX = "nginx -p FOLDER -c FOLDER/PORT.conf"
GATE = {
    "gunicorn": Server("gunicorn", f"{WSGI} wsgi:application"),
    "uvicorn": Server("uvicorn", f"{ASGI} asgi:application"),
    "node": Server("node", f"node {REAL}/bot.mjs PORT 127.0.0.1"),
    "java": Server("javac", f"java {REAL}/Bot.java PORT"),
    "nginx": Server(
        *("nginx", NGINX, TLS), before=("node", "uvicorn", "gunicorn"), listen="PORT ssl"
    ),
}
GO = f"go build -o FOLDER/bot-PORT {REAL}/bot.go"
MORE = {
    "flask": Server("flask", f"{PYTHON} -m flask --app {REAL}/flasks.py run --port PORT"),
    "gthread": Server("gunicorn", f"{WSGI} -k gthread --threads 8 --keep-alive 1 wsgi:application"),
    "fastapi": Server("fastapi", f"{ASGI} strict:application"),
    "http-1.0": Server("", f"{PYTHON} {REAL}/standard.py PORT 1.0"),
    "http-1.1": Server("", f"{PYTHON} {REAL}/standard.py PORT 1.1"),
    "alone": Server("", f"{PYTHON} {REAL}/standard.py PORT alone"),
    "node-ipv6": Server("node", f"node {REAL}/bot.mjs PORT ::1", "http://[::1]:PORT"),
    "java-chunked": Server("javac", f"java {REAL}/Bot.java PORT chunked"),
    "go": Server("go", "FOLDER/bot-PORT PORT", made=GO),
    "go-tls": Server("go", "FOLDER/bot-PORT PORT FOLDER/certificate.pem FOLDER/key.pem", TLS, GO),
    "rust": Server(
        "rustc", "FOLDER/bot-PORT PORT", made=f"rustc -O -o FOLDER/bot-PORT {REAL}/bot.rs"
    ),
    "nginx-flask": Server("nginx", NGINX, before=("flask",), version="1.0"),
    "nginx-node": Server("nginx", NGINX, before=("node",)),
}


def missing(servers: dict[str, Server], *words: str) -> dict[str, str]:
    """Installs what is missing; returns the servers that cannot be had, with the reason."""
    ran = subprocess.run([REAL / "setup", *words], capture_output=True, text=True)
    said = dict(line.split(": ", 1) for line in ran.stdout.splitlines() if ": " in line)
    found = {name: said[it.needs] for name, it in servers.items() if it.needs in said}
    for name, it in servers.items():
        if it.before and found.keys() >= set(it.before):
            found[name] = f"it stands before {it.before[0]}: {found[it.before[0]]}"
    return found


@contextmanager
def running(words: Sequence[str], url: str, log: Path) -> Iterator[None]:
    """Runs a server within the context, which begins when it answers."""
    with log.open("wb") as said:
        environment = {**os.environ, "PATH": PATH}
        process = subprocess.Popen(words, env=environment, stdout=said, stderr=said)
    try:
        wait_for(process, url, log)
        yield
    finally:
        process.terminate()
        try:
            process.wait(10)
        except subprocess.TimeoutExpired:
            process.kill()
            process.wait()


def wait_for(process: subprocess.Popen[bytes], url: str, log: Path) -> None:
    """Waits until a server answers GET /."""
    context = ssl.create_default_context()
    context.check_hostname, context.verify_mode = False, ssl.CERT_NONE
    handlers = (urllib.request.ProxyHandler({}), urllib.request.HTTPSHandler(context=context))
    opener = urllib.request.build_opener(*handlers)
    ends = time.monotonic() + START_SECONDS
    while time.monotonic() < ends:
        assert process.poll() is None, log.read_text()
        try:
            opener.open(f"{url}/", timeout=10).close()
            return
        except OSError:
            time.sleep(0.1)
    raise AssertionError(f"the server of {url} does not answer: {log.read_text()}")


@contextmanager
def serving_all(servers: dict[str, Server], folder: Path) -> Iterator[dict[str, str]]:
    """Runs servers within the context, whose value is their URLs.

    The folder has the certificate of those with TLS.
    """
    make_certificate(folder)
    ports = {name: str(free_port()) for name in servers}
    urls = {name: it.url.replace("PORT", ports[name]) for name, it in servers.items()}
    with ExitStack() as stack:
        for name, it in servers.items():
            given = {"PORT": ports[name], "FOLDER": str(folder)}
            if it.before:
                given["BOT"] = next(ports[bot] for bot in it.before if bot in ports)
                given |= {"LISTEN": filled(it.listen, given), "VERSION": it.version}
                text = filled((REAL / "nginx.conf").read_text(), given)
                (folder / f"{ports[name]}.conf").write_text(text)
            if it.made:
                subprocess.run(filled(it.made, given).split(), check=True, capture_output=True)
            words = filled(it.words, given).split()
            stack.enter_context(running(words, urls[name], folder / f"{name}.log"))
        yield urls


def filled(text: str, given: dict[str, str]) -> str:
    for word, value in given.items():
        text = text.replace(word, value)
    return text
