// The list of a game's snakes: each with its colour and mark, its fate, its health and length, and
// the plot of both.
'use strict';

/** The list item of one snake. `show` updates it for a turn. */
class SnakeCard {
  constructor(snake, seat, onTurn) {
    this.seat = seat;
    this.fate = made('span', { className: 'fate' });
    this.numbers = made('span', { className: 'numbers' });
    this.answer = made('p', { className: 'answer', hidden: true });
    const range = { min: 0, max: 100, low: 25, high: 50, optimum: 100 };
    this.meter = made('meter', { ...range, ariaLabel: `Health of ${snake.id}` });
    this.plot = drawn('svg', { class: 'plot', role: 'img', preserveAspectRatio: 'none' });
    this.plot.addEventListener('click', (event) => onTurn(turnAtPlot(this.plot, event, this.last)));
    this.look = made('span', {}, swatchPicture(snake.id, seat));
    this.item = made('li', {},
      made('div', { className: 'who' }, this.look, made('strong', {}, snake.id), this.fate),
      made('div', { className: 'how' }, this.numbers, this.meter), this.answer, this.plot);
    this.item.dataset.seat = seat;
  }

  show(snake, turn, last) {
    this.last = last;
    this.item.classList.toggle('out', !isLiving(snake));
    this.look.replaceChildren(swatchPicture(snake.id, this.seat, isLiving(snake)));
    this.fate.textContent = fateOf(snake);
    this.numbers.textContent = `health ${snake.health}, length ${snake.body.length}`;
    this.meter.value = snake.health;
    const isAsked = isLiving(snake) || snake.out === turn;
    this.answer.textContent = isAsked ? wordsOfAnswer(snake.id, turn) : '';
    this.answer.hidden = ANSWERS.length === 0;
    this.answer.classList.toggle('missed', isAsked && hasMissed(snake.id, turn));
    const label = `Health and length of ${snake.id} from turn 0 to turn ${last}`;
    this.plot.setAttribute('aria-label', label);
    movePlotLine(this.plot, turn, last);
  }
}

class SnakeCards {
  constructor(list, onTurn) {
    this.list = list;
    this.onTurn = onTurn;
    this.cards = [];
  }

  /** Makes a card for each snake of a board, with an empty plot. */
  begin(board) {
    this.cards = board.snakes.map((snake, seat) => new SnakeCard(snake, seat, this.onTurn));
    this.list.replaceChildren(...this.cards.map((card) => card.item));
  }

  show(board, last) {
    this.cards.forEach((card, seat) => card.show(board.snakes[seat], board.turn, last));
  }

  drawPlots(curves, turn, last) {
    for (const card of this.cards) {
      drawPlot(card.plot, curves, card.seat, last);
      movePlotLine(card.plot, turn, last);
    }
  }

  clear() {
    this.cards = [];
    this.list.replaceChildren();
  }
}
