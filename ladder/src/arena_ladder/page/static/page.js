// The page of a running ladder: shows the standings, the running games and the finished ones.
// Names and other texts of bots are inserted as text, never as markup.
'use strict';

const REFRESH_MS = 2000;
const FEW_BOTS = 20; // in the standings, until all are asked for

/** The rating with its error, which a phone has no room for. */
function ratingCell(row) {
  const error = made('span', { className: 'large faint' }, ` ± ${row.error}`);
  return made('td', { className: 'number' }, String(row.elo), error);
}

/** The change of a rating since a day ago; nothing if it is not known. */
function dayCell({ day }) {
  const known = day ?? null;
  const words = known === null ? '' : `${known > 0 ? '+' : ''}${known}`;
  const kind = known > 0 ? 'up' : known < 0 ? 'down' : '';
  return made('td', { className: `number day ${kind}` }, words);
}

/** The cells of a row of the standings, after the bot's name. */
function cellsOf(row) {
  const number = (value, more = '') => made('td', { className: `number ${more}` }, String(value));
  const missed = number(row.missed);
  missed.title = wordsOfCauses(row);
  return [
    ratingCell(row), dayCell(row), number(row.games), number(row.wins, 'large'),
    number(row.draws, 'large'), number(row.losses, 'large'), number(inMs(row.median_ms)),
    number(inMs(row.p99_ms), 'large'), missed,
  ];
}

/** What a reader has to know of a bot: that it is new, rests, or was removed. */
function markOf({ mark }) {
  return mark ? [made('span', { className: `mark-word ${mark}` }, mark)] : [];
}

/** A row of the standings. Bots that were removed have no place. */
function standingsRow(row, index) {
  const place = row.mark === 'removed' ? '' : String(index + 1);
  const line = made('tr', { className: row.mark === 'removed' ? 'gone' : '' },
    made('td', { className: 'number place' }, place),
    made('th', { scope: 'row' }, botLabel(row.bot), ...markOf(row)), ...cellsOf(row));
  line.dataset.bot = row.bot;
  return line;
}

class LadderPage {
  constructor() {
    const element = (id) => document.getElementById(id);
    this.progress = element('progress');
    this.summary = element('summary');
    this.seed = element('seed');
    this.filter = element('filter');
    this.standings = document.querySelector('#standings tbody');
    const places = ['games', 'ended', 'ended_part', 'shown'].map((id) => [id, element(id)]);
    this.boards = new Boards(Object.fromEntries(places));
    this.rows = [];
    this.isWhole = false;
    this.allBots = element('all_bots');
    this.allBots.addEventListener('click', () => {
      this.isWhole = true;
      this.showStandings();
    });
    this.finished = new FinishedGames(element('finished'), element('more'));
    this.games = '';
    this.gamesShown = '';
    this.filter.addEventListener('change', () => this.choose(this.filter.value));
    setInterval(() => this.refresh(), REFRESH_MS);
  }

  setState(state) {
    document.body.dataset.state = state;
  }

  /** Shows the games of a bot alone, or all if it is empty. */
  choose(bot) {
    this.boards.choose(bot);
    this.finished.show(bot);
  }

  /** Reads the finished games again if there are more. */
  refresh() {
    if (this.games !== this.gamesShown && document.body.dataset.state === 'running') {
      this.gamesShown = this.games;
      this.finished.refresh(this.games);
    }
  }

  /** Shows the state in an event, which has the standings only where they change. */
  show(state) {
    const words = (...all) => all.filter((word) => word !== '').join(', ');
    this.games = state.games;
    this.progress.textContent = words(state.games, state.left, state.waits);
    this.summary.textContent = state.summary;
    if (state.looks) {
      setLooks(state.looks);
    }
    if (state.standings) {
      this.seed.textContent = state.seed;
      this.rows = state.standings;
      this.showStandings();
      this.showChoices(state.bots);
      showAbout(state.about);
      this.boards.drawAll();
    }
    this.boards.take(state);
  }

  /** Shows the best bots, or all if that was asked for. */
  showStandings() {
    const shown = this.isWhole ? this.rows : this.rows.slice(0, FEW_BOTS);
    this.standings.replaceChildren(...shown.map(standingsRow));
    this.allBots.hidden = shown.length === this.rows.length;
    this.allBots.textContent = `All ${this.rows.length} bots`;
  }

  /** Offers the bots in the filter. */
  showChoices(bots) {
    const shown = [...this.filter.options].map((option) => option.value);
    const wanted = ['', ...[...bots].sort()];
    if (shown.join(' ') !== wanted.join(' ')) {
      const chosen = this.filter.value;
      const option = (bot) => made('option', { value: bot, selected: bot === chosen },
        bot === '' ? 'all bots' : bot);
      this.filter.replaceChildren(...wanted.map(option));
    }
  }
}

/** Says what is played, and how a bot enters. */
function showAbout(about) {
  if (about) {
    showTitle(about, about.name);
    document.getElementById('facts').textContent = about.facts.join(', ');
    document.getElementById('enter').textContent = about.enter;
    document.getElementById('enter_part').hidden = !about.enter;
    document.getElementById('bracket_link').hidden = !about.is_tournament;
    document.getElementById('seasons_link').hidden = about.is_tournament;
  }
}

function beginPage() {
  const page = new LadderPage();
  const events = new EventSource('events');
  events.addEventListener('all', (event) => {
    page.setState('running');
    page.boards.clear();
    page.show(JSON.parse(event.data));
    page.refresh();
  });
  events.addEventListener('changes', (event) => page.show(JSON.parse(event.data)));
  events.addEventListener('end', (event) => {
    events.close();
    page.setState('ended');
    page.show(JSON.parse(event.data));
  });
  events.addEventListener('error', () => page.setState('waiting'));
}

beginPage();
