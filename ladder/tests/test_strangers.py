"""Tests of where bots may be, of long addresses, and of the command for each result."""

from __future__ import annotations

import asyncio
import json
from contextlib import closing
from pathlib import Path

import pytest
from served import Served, complaints, run_ladder, write_config

from arena_ladder.game.config import ConfigFault, config_of
from arena_ladder.net.bots import BotClient
from arena_ladder.net.networks import Networks
from arena_ladder.results.roster import add, keep_networks, replace
from arena_ladder.results.store import Store, StoreFault

PUBLIC = ("93.184.216.34", "8.8.8.8", "2606:2800:220:1::1")
PRIVATE = (
    *("10.1.2.3", "192.168.1.1", "172.16.0.9", "169.254.169.254", "100.64.0.1", "0.0.0.0"),
    *("224.0.0.1", "240.0.0.1", "255.255.255.255", "fe80::1", "fc00::1", "::", "ff02::1"),
    *("::ffff:10.1.2.3", "64:ff9b::a01:203", "2002:a01:203::1", "fe80::1%lo"),
)
LOOPBACK = ("127.0.0.1", "127.8.9.1", "::1", "::ffff:127.0.0.1")


def test_networks_permit_what_is_public_or_named() -> None:
    usual, local = Networks(None, False), Networks(None, True)
    named, none = Networks(["10.1.0.0/16", "fc00::/7", "127.0.0.0/8"], True), Networks([], True)
    for it in PUBLIC:
        assert all(networks.permits(it) for networks in (usual, local, named, none)), it
    for it in PRIVATE:
        assert not any(networks.permits(it) for networks in (usual, local, none)), it
    for it in LOOPBACK:
        permitted = [networks.permits(it) for networks in (usual, local, none)]
        assert permitted == [False, True, False], it
    assert [it for it in (*PRIVATE, *LOOPBACK) if named.permits(it)] == [
        *("10.1.2.3", "fc00::1", "::ffff:10.1.2.3", "64:ff9b::a01:203", "2002:a01:203::1"),
        *("127.0.0.1", "127.8.9.1", "::ffff:127.0.0.1"),
    ]


def endless(folder: Path, url: str, **members: object) -> Path:
    """A folder of an endless ladder with one bot, as `play` leaves it before its first game."""
    table = {"folder": str(folder), "bot": [{"name": "own", "url": url}], "pairing": "rating"}
    config = config_of({**table, "seed": 1, **members}, "here")
    folder.mkdir()
    with closing(Store(folder)) as store:
        store.begin(config.identity, config.bots)
        keep_networks(store, config)
    return folder


def test_strangers_do_not_reach_private_services(tmp_path: Path) -> None:
    folder = endless(tmp_path / "x", "http://93.184.216.34/own")
    for url in ("http://10.0.0.1/", "http://127.0.0.1:22/", "http://localhost/", "http://0x7f.1/"):
        with pytest.raises(StoreFault, match="is not public: name its network in `networks`"):
            add(folder, "new", url)
    assert add(folder, "new", "http://8.8.8.8/bot") == "new plays from its next game on"
    with pytest.raises(StoreFault, match="169.254.169.254, which is not public"):
        replace(folder, "new", "http://169.254.169.254/latest")


def test_local_ladders_and_named_networks_take_bots(tmp_path: Path) -> None:
    local = endless(tmp_path / "local", "http://127.0.0.1:8001/own")
    add(local, "new", "http://localhost:8002/new")
    with pytest.raises(StoreFault, match="is not public"):
        add(local, "other", "http://10.0.0.1/")
    named = endless(tmp_path / "named", "http://127.0.0.1:8001/own", networks=["10.0.0.0/8"])
    add(named, "new", "http://10.0.0.1/")
    with pytest.raises(StoreFault, match="is not public"):
        add(named, "other", "http://127.0.0.1/")
    for wrong in ("10.0.0.1/8", "x", ""):
        with pytest.raises(ConfigFault, match="is no network|a list of texts"):
            endless(tmp_path / "wrong", "http://127.0.0.1:1", networks=[wrong])


def test_name_that_leads_to_a_private_address_later_is_not_called() -> None:
    async def work() -> None:
        async with BotClient(2.0) as client:
            client.connections.permits = lambda bot, at: Networks(None, False).permits(at)
            (answer,) = await client.moves([("http://localhost:1/bot", b"")])
            assert answer.cause == "refused"
            exchange = client._exchange("GET", "http://localhost:1/", b"", 2.0)
            await client.connections.ask([exchange])
            assert exchange.why == "localhost is in no network that is allowed"

    asyncio.run(work())


def test_address_of_a_bot_has_at_most_2048_bytes(tmp_path: Path) -> None:
    folder = endless(tmp_path / "x", "http://127.0.0.1:8001/own")
    longest = "http://127.0.0.1:8001/".ljust(2048, "x")
    with pytest.raises(ConfigFault, match="an address has at most 2,048 bytes"):
        add(folder, "new", longest + "x")
    add(folder, "new", longest)


def test_hook_gets_each_result_once_it_is_stored(
    program: Path, small_bots: Served, tmp_path: Path
) -> None:
    """Also the results that were stored after the last one for which it ran."""
    folder, seen = tmp_path / "x", tmp_path / "seen"
    hook = tmp_path / "hook"
    hook.write_text(
        "#!/bin/sh\n"
        f'cat >> "{seen}"\n'
        f'[ "$(wc -l < "{seen}")" != 2 ]\n'  # fails for the second game
    )
    hook.chmod(0o755)
    bots = [(name, small_bots.url(name)) for name in ("fleer", "seeker")]
    members = {"folder": str(folder), "seed": 1, "turns": 20, "hook": [str(hook)]}
    config = write_config(tmp_path / "x.toml", bots, rounds=3, **members)
    ran = run_ladder("play", config, "--program", program)
    assert ran.returncode == 0
    assert complaints(ran.stderr) == (
        f"ladder: the hook {hook}: ended with status 1; the games go on\n"
    )
    with closing(Store(folder)) as store:
        assert store.setting("hook: last game") == 3
        store.keep_setting("hook: last game", 2)  # as if it was killed within the third
    ran = run_ladder("play", config, "--rounds", "4", "--program", program)
    assert (ran.returncode, complaints(ran.stderr)) == (0, "")
    results = [json.loads(line) for line in seen.read_text().splitlines()]
    assert [it["number"] for it in results] == [1, 2, 3, 3, 4]
    assert [it["game"] for it in results] == [f"r000{at}-t001" for at in (1, 2, 3, 3, 4)]
    assert {seat["bot"] for seat in results[0]["seats"]} == {"fleer", "seeker"}


def test_hook_that_reads_nothing_or_is_not_there_stops_no_game(
    program: Path, small_bots: Served, tmp_path: Path
) -> None:
    bots = [(name, small_bots.url(name)) for name in ("fleer", "seeker")]
    for hook, said in (("/bin/true", ""), ("/nonexistent", "No such file or directory")):
        folder = tmp_path / hook.strip("/")
        members = {"folder": str(folder), "seed": 1, "turns": 5, "hook": [hook]}
        config = write_config(tmp_path / "x.toml", bots, rounds=3, **members)
        ran = run_ladder("play", config, "--program", program)
        lines = complaints(ran.stderr).splitlines()
        assert ran.returncode == 0 and len(lines) == (said != "")
        assert said in "".join(lines)
