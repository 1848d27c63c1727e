"""The roster of an endless ladder: bots that come, go, rest, and are replaced by new versions."""

from __future__ import annotations

import re
from collections.abc import Callable
from contextlib import closing
from pathlib import Path

from arena_ladder.game.config import BOT_NAME, MOST_BOTS, Config, Members, checked_url
from arena_ladder.game.rated import Change, Rated
from arena_ladder.net.addresses import addresses_of
from arena_ladder.net.bots import Bot
from arena_ladder.net.networks import Networks, is_loopback
from arena_ladder.net.urls import shown, target_of
from arena_ladder.results.store import Store, StoreFault, open_store

NETWORKS = "networks"  # the name of the setting


def add_config_bots(store: Store, bots: tuple[Bot, ...]) -> None:
    """Adds the bots of a configuration that are new, and addresses that have changed."""
    for bot in bots:
        urls = [it.url for it in store.changes(0) if it.bot == bot.name and it.url]
        if urls[-1:] != [shown(bot.url)]:
            store.add_change("url" if urls else "add", bot.name, shown(bot.url))


def urls_of(changes: list[Change], bots: tuple[Bot, ...]) -> dict[str, str]:
    """The newest address of each bot; those of a configuration may have passwords."""
    urls = {it.bot: it.url for it in changes if it.url}
    given = {bot.name: bot.url for bot in bots}
    return {
        name: given[name] if name in given and shown(given[name]) == url else url
        for name, url in urls.items()
    }


def state_of(store: Store) -> Rated:
    """The bots as the changes so far have left them."""
    rated = Rated(0, 1)
    rated.advance((), store.changes(0))
    return rated


def change_roster(folder: Path, work: Callable[[Store, Rated], str]) -> str:
    """Makes a change of a folder's roster; a `play` that runs there takes it in a second."""
    with closing(open_store(folder)) as store:
        identity = store.identity()
        if identity is None or identity["pairing"] != "rating":
            raise StoreFault(
                f'{folder} is not a ladder with pairing = "rating": its bots are fixed'
            )
        if store.is_closed():
            raise StoreFault(f"{folder} is closed")
        return work(store, state_of(store))


def fit_url(store: Store, url: str) -> str:
    """Checks an address of a bot; the folder keeps it, so it may have no password.

    A name that has no address now is checked when it is called.
    """
    if shown(url) != url:
        raise StoreFault("only the configuration may have an address with a password")
    url = checked_url(url, Members({}, "the roster"))
    host = target_of(url).place.host
    try:
        found = addresses_of(host)
    except (OSError, UnicodeError):
        found = []
    networks = networks_of(store)
    if found and not any(map(networks.permits, found)):
        raise StoreFault(
            f"{host} is at {found[0]}, which is not public: name its network in `networks`, "
            "and play"
        )
    return url


def networks_of(store: Store) -> Networks:
    """The networks of the last configuration that was played.

    If it names none, the loopback is allowed where a bot of that configuration is on it.
    """
    kept = store.setting(NETWORKS) or {"names": None, "loopback": True}
    return Networks(kept["names"], kept["loopback"])


def keep_networks(store: Store, config: Config) -> None:
    """Keeps the networks of a configuration, for the commands that add bots."""
    has_loopback = any(is_loopback(target_of(bot.url).place.host) for bot in config.bots)
    store.keep_setting(NETWORKS, {"names": config.networks, "loopback": has_loopback})


def present(rated: Rated, name: str) -> None:
    if name not in rated.players or not rated.players[name].is_in:
        raise StoreFault(f"the roster has no bot {name!r}")


def add(folder: Path, name: str, url: str) -> str:
    """Adds a bot, or one that was removed again, with its old results."""

    def work(store: Store, rated: Rated) -> str:
        if not BOT_NAME.fullmatch(name) and name not in rated.players:
            raise StoreFault(f"the name {name!r} is not 1 to 32 letters, digits, _, . and -")
        if name in rated.players and rated.players[name].is_in:
            raise StoreFault(
                f"the roster has a bot {name!r} already: `replace` takes a new version"
            )
        if sum(it.is_in for it in rated.players.values()) >= MOST_BOTS:
            raise StoreFault(f"the roster is full: it has {MOST_BOTS} bots")
        store.add_change("add", name, fit_url(store, url))
        return f"{name} plays from its next game on"

    return change_roster(folder, work)


def replace(folder: Path, name: str, url: str) -> str:
    """Replaces a bot by its next version, `NAME@2` and so on, which begins at its points."""

    def work(store: Store, rated: Rated) -> str:
        present(rated, name)
        stem = re.sub("@[0-9]+$", "", name)
        version = 2 + sum(it.startswith(f"{stem}@") for it in rated.players)
        store.add_change("replace", f"{stem}@{version}", fit_url(store, url), name)
        return f"{stem}@{version} plays in place of {name}"

    return change_roster(folder, work)


def mark(folder: Path, what: str, name: str) -> str:
    """Removes, pauses or resumes a bot. Its running games go on to their end."""

    def work(store: Store, rated: Rated) -> str:
        present(rated, name)
        store.add_change(what, name)
        return {"remove": f"{name} is removed", "pause": f"{name} rests"}.get(
            what, f"{name} plays again"
        )

    return change_roster(folder, work)
