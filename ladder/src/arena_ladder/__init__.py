"""A ladder of Battlesnake servers, played on `arena live`; docs/LADDER.md is its manual.

The packages; each imports only itself and those before it:

    net/       calls of bots: bots (the client), connections (HTTP, kept open) with owners, racing,
               response and tls; addresses and networks (names, and where calls may go), urls;
               misses (why a move is missed), pulse (whether the ladder itself is late)
    game/      what is played: config; starts, maps, map_moves and official/ (boards), draws (from
               the seed); which games: pairing, rated (endless), and tournament with matches,
               brackets and groups; game (plays one) with payloads (what bots are sent), outcome,
               game_files and watch (who observes)
    results/   what is kept: store (SQLite) with sums, packs (command files), lock, seeds, roster
               and marks; standings with rating and quantiles, sprt, seasons, history, about;
               transcripts, kept_answers, bot_log; backup, export, merge
    run/       play (a run) with schedule, keeper (of the host) and hook; endless and
               tournament_play (its next games); progress and times; check (replays a folder)
    page/      page (its process) with page_calls (requests), feed (events) and static/; page_link
               and news (the run's end); colours, days; viewer_page
    commands/  main (the parser), contests, results_page, .._commands; match; program, view

All use texts, which cleans the texts of strangers (a bot's shout is cleaned by net/bots.py), and
heap, the process's memory.

A run is `play`: it takes games from a source (`endless`, `tournament_play` or the pairings), plays
each by `game` on a host that `keeper` keeps alive, and stores its result. Bots are asked through
`bots` alone. The page is another process, which reads the store and what `page_link` sends it.

Why it is so, beside what the heads of the modules say:

- The ladder is outside the host. Calling bots, waiting and keeping time is tested Python; the
  host behind the pipe is a function of its input, so `arena serve` of a game's file checks it.
- An admission is followed by a line that belongs to no game, whose L2 says that the admission
  was judged: an accepted one has no answer.
- The ladder has an HTTP client of its own. aiohttp parses cookies in quadratic time and bounds
  the body alone; h11 takes longer for a request than a turn takes; asyncio's TLS has no limit on
  records without text.
- A request's clock starts at its write to a connected socket, and an answer that arrived in
  time counts, however busy the ladder is. Connecting takes no time: the bot knows nothing yet.
- Only a reused connection is tried once more, and its clock goes on: servers close idle ones,
  and a bot that closes late would otherwise have twice the time.
- Connections belong to a bot, by its address, so that a late or second answer changes moves of
  its own bot alone. They are closed after an idle minute.
- Draws are SHA-256 of texts, and not Python's `random`, so that other languages can draw them.
- The page is a process of its own, since a reader that hangs with a lock would stop the
  ladder's writes.
- An endless ladder is drawn from integer points, and not from its ratings, whose floating
  numbers may differ between machines. A game is stored with what it was drawn from before it
  begins.
- A test of two bots counts its pairs in their order, so that short games do not count first,
  and has no estimated variance: with few pairs one near zero would decide at once.
"""
