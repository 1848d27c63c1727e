// The list of finished games, the newest first, with a link into the viewer for each.
'use strict';

const GAMES_A_PAGE = 20;

function wordsOfMissed({ missed }) {
  return missed > 0 ? `missed ${counted(missed, 'move')}` : '';
}

function finishedItem({ game, turns, seats }) {
  const bots = seats.map((seat) => made('span', { className: seat.result === 'win' ? 'won' : '' },
    botLabel(seat.bot), [wordsOfEnd(seat), wordsOfMissed(seat)].filter((it) => it).join('; ')));
  const length = turns === 1 ? '1 turn' : `${turns.toLocaleString('en')} turns`;
  const item = made('li', {}, gameLink(game), made('span', { className: 'turn' }, ` ${length}`),
    made('div', { className: 'bots' }, ...bots));
  item.dataset.game = game;
  return item;
}

class FinishedGames {
  /** `list` has the games, `more` is the button for older ones. */
  constructor(list, more) {
    this.list = list;
    this.more = more;
    this.bot = '';
    this.at = ''; // how far the games were; an answer that was kept before it is not taken
    this.asked = 0;
    this.next = null;
    this.isOlder = false;
    more.addEventListener('click', () => this.showOlder());
  }

  /** Shows the newest games of a bot, or of all if it is empty. */
  async show(bot) {
    this.bot = bot;
    this.isOlder = false;
    await this.read({}, (items) => this.list.replaceChildren(...items));
  }

  /** Shows the newest games again, which are this far, unless older ones were asked for. */
  async refresh(at) {
    this.at = at;
    if (!this.isOlder) {
      await this.show(this.bot);
    }
  }

  async showOlder() {
    this.isOlder = true;
    await this.read({ before: this.next }, (items) => this.list.append(...items));
  }

  /** Reads games, and puts them into the list unless others are asked for meanwhile. */
  async read(words, put) {
    this.asked += 1;
    const { asked } = this;
    const bot = this.bot === '' ? {} : { bot: this.bot };
    const query = new URLSearchParams({ ...words, ...bot, count: GAMES_A_PAGE, at: this.at });
    const found = await fetchJson(`games.json?${query}`);
    if (found !== null && asked === this.asked) {
      put(found.games.map(finishedItem));
      this.next = found.next;
      this.more.hidden = found.next === null;
    }
  }
}
