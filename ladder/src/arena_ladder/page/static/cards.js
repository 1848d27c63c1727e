// The boards of running games, at most twelve, and of those that ended some seconds ago.
'use strict';

const MOST_CARDS = 12;
const MOST_ENDED_CARDS = 4;

/** A list item of a snake: its bot, its health as a bar, and its length; or that it is out. */
function snakeItem(snake, seat) {
  const lives = isLiving(snake);
  const item = made('li', { className: lives ? '' : 'out' }, botLabel(snake.id, lives));
  item.dataset.seat = seat;
  if (lives) {
    const range = { min: 0, max: 100, low: 25, high: 50, optimum: 100 };
    const words = `health ${snake.health}`;
    const health = made('meter', { ...range, value: snake.health, title: words, ariaLabel: words });
    item.append(health, made('span', {}, `length ${snake.body.length}`));
  } else {
    item.append(made('span', {}, `out in turn ${snake.out}`));
  }
  return item;
}

/** Who has won a game, in words. */
function wordsOfWinners(winners, board) {
  if (winners.length > 0) {
    return `${winners.join(' and ')} won`;
  }
  return board.snakes.length > 1 ? 'drawn' : 'over';
}

/** The card of a game: its bots, its board, and its snakes in the order of their seats. */
class GameCard {
  constructor(name) {
    this.name = name;
    this.bots = made('h3');
    this.turn = made('span', { className: 'turn' });
    this.end = made('p', { className: 'winner', hidden: true });
    this.board = drawn('svg', { role: 'img' });
    this.hazards = made('p', { className: 'hazard-legend', hidden: true });
    this.snakes = made('ul');
    const place = made('p', { className: 'place' }, `${name}, `, this.turn);
    this.item = made('article', {}, this.bots, place, this.board, this.end, this.hazards,
      this.snakes);
    this.item.dataset.game = name;
  }

  /** Shows a board; `winners` has the winners of a game that ended, and is null before. */
  show(board, winners) {
    if (faultOfBoard(board) !== null) {
      return;
    }
    this.bots.textContent = board.snakes.map((snake) => snake.id).join(' – ');
    this.turn.textContent = `turn ${board.turn}`;
    drawBoard(this.board, board, false);
    showHazardLegend(this.hazards, board);
    this.snakes.replaceChildren(...board.snakes.map(snakeItem));
    this.end.hidden = winners === null;
    if (winners !== null) {
      const link = gameLink(this.name, 'watch it');
      this.end.replaceChildren(`${wordsOfWinners(winners, board)} `, link);
    }
  }
}

/** All boards that the server has sent, and the cards of some of them. */
class Boards {
  /** `page` has the places of running games and of ended ones, and of a line about them. */
  constructor(page) {
    this.page = page;
    this.boards = new Map();
    this.ended = new Map();
    this.cards = new Map();
    this.bot = '';
  }

  /** Forgets all games. */
  clear() {
    this.boards.clear();
    this.ended.clear();
  }

  /** Takes what a state has of games, and shows it. */
  take({ boards, ended, gone }) {
    Object.entries(boards).forEach(([name, board]) => this.boards.set(name, board));
    Object.entries(ended).forEach(([name, winners]) => this.ended.set(name, winners));
    gone.forEach((name) => [this.boards, this.ended].forEach((all) => all.delete(name)));
    this.arrange();
    [...Object.keys(boards), ...Object.keys(ended)].forEach((name) => this.draw(name));
  }

  /** Shows the games of a bot, or all if it is empty. */
  choose(bot) {
    this.bot = bot;
    this.arrange();
  }

  /** Draws all cards again. */
  drawAll() {
    [...this.cards.keys()].forEach((name) => this.draw(name));
  }

  draw(name) {
    this.cards.get(name)?.show(this.boards.get(name), this.ended.get(name) ?? null);
  }

  /** The games that can be shown, by whether they have ended; those that ended last come first. */
  candidates() {
    const isWanted = ([, board]) => this.bot === ''
      || board.snakes.some((snake) => snake.id === this.bot);
    const names = [...this.boards].filter(isWanted).map(([name]) => name);
    const ended = [...this.ended.keys()].reverse().filter((name) => names.includes(name));
    return { running: names.filter((name) => !this.ended.has(name)), ended };
  }

  /** Gives the places to games. A running game keeps its place until it ends. */
  arrange() {
    const { running, ended } = this.candidates();
    const last = ended.slice(0, MOST_ENDED_CARDS);
    const waiting = running.filter((name) => !this.cards.has(name));
    for (const [name, card] of [...this.cards]) {
      if (card.item.parentNode === this.page.games && !running.includes(name)) {
        this.replace(card, waiting.shift());
      }
      if (!running.includes(name) && !last.includes(name)) {
        card.item.remove();
        this.cards.delete(name);
      }
    }
    while (this.page.games.childElementCount < MOST_CARDS && waiting.length > 0) {
      this.page.games.append(this.made(waiting.shift()).item);
    }
    this.page.ended.replaceChildren(
      ...last.map((name) => (this.cards.get(name) ?? this.made(name)).item));
    this.page.ended_part.hidden = last.length === 0;
    const shown = this.page.games.childElementCount;
    this.page.shown.textContent = shown < running.length
      ? `${shown} of ${running.length} are shown: choose a bot to see its games.` : '';
  }

  /** Puts another game in the place of a card, or removes it if there is none. */
  replace(card, other) {
    if (other === undefined) {
      card.item.remove();
    } else {
      card.item.replaceWith(this.made(other).item);
    }
  }

  made(name) {
    const card = new GameCard(name);
    this.cards.set(name, card);
    this.draw(name);
    return card;
  }
}
