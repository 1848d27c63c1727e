// The chosen game: its round and turn, the board, the snakes, the slider and the address
// of the turn.
'use strict';

// Milliseconds without a new turn before the address is written: browsers limit how often.
const ADDRESS_DELAY = 300;
const NOTHING = { game: null, round: null, turn: 0 };

class GamePanel {
  /** Calls `onGame` with the game that is shown, and `onFault` with an error in reading. */
  constructor(page, onGame, onFault) {
    this.page = page;
    this.onGame = onGame;
    this.onFault = onFault;
    this.cards = new SnakeCards(page.snakes, (turn) => this.goToTurn(turn));
    this.refusals = new LongList(
      page.refusals, (refusal) => refusalItem(refusal, () => this.goToRefusal(refusal)));
    this.player = new Player(page.play, page.speed, () => this.step(1), () => this.isAtEnd);
    this.close();
    this.listen();
  }

  listen() {
    const { page } = this;
    page.play.addEventListener('click', () => this.togglePlaying());
    page.first.addEventListener('click', () => this.goToTurn(0));
    page.back.addEventListener('click', () => this.step(-1));
    page.forward.addEventListener('click', () => this.step(1));
    page.last.addEventListener('click', () => this.goToTurn(this.lastTurn));
    page.slider.addEventListener('input', () => this.goToTurn(Number(page.slider.value)));
    page.round.addEventListener(
      'change', () => this.goTo(this.game, this.game.rounds[page.round.value - 1], 0));
    page.earlier.addEventListener(
      'change', () => drawBoard(page.board, this.board, page.earlier.checked));
  }

  /** Shows no game. A board that is still being read will not be shown. */
  close() {
    this.player.pause();
    clearTimeout(this.addressTimer);
    this.asked = NOTHING;
    this.transcript = this.game = this.round = this.board = this.curves = null;
    this.page.panel.hidden = true;
    this.cards.clear();
  }

  open(transcript) {
    this.close();
    this.transcript = transcript;
  }

  /** The last turn of the requested round. */
  get lastTurn() {
    return this.asked.round ? this.asked.round.boards.length - 1 : 0;
  }

  get isAtEnd() {
    return this.asked.turn === this.lastTurn;
  }

  /** Shows the board after a turn of a round, unless another is requested meanwhile. */
  async goTo(game, round, turn) {
    const asked = { game, round, turn };
    this.asked = asked;
    try {
      const board = await this.transcript.board(round.boards[turn]);
      if (asked === this.asked) {
        this.enter(game, round, board);
        this.show(board);
      }
    } catch (fault) {
      if (asked === this.asked) {
        this.stay();
        this.onFault(fault);
      }
    }
  }

  /** Keeps the board that is shown, since the requested one can't be shown. */
  stay() {
    this.player.pause();
    this.asked = { game: this.game, round: this.round, turn: this.board?.turn ?? 0 };
    this.page.slider.value = this.asked.turn;
  }

  async goToTurn(turn) {
    const { game, round } = this.asked;
    if (round) {
      await this.goTo(game, round, turn);
    }
  }

  async goToRefusal(refusal) {
    await this.goTo(this.game, this.game.rounds[refusal.round - 1], refusal.turn);
  }

  /** Goes a number of turns on, or back if it is negative, at most to an end of the round. */
  async step(turns) {
    const turn = Math.min(this.lastTurn, Math.max(0, this.asked.turn + turns));
    if (turn !== this.asked.turn) {
      await this.goToTurn(turn);
    }
  }

  /** Plays or pauses. From the last turn the round is played again from turn 0. */
  async togglePlaying() {
    if (!this.player.isPlaying && this.isAtEnd) {
      await this.goToTurn(0);
    }
    this.player.toggle();
  }

  /** Shows a game that has no round, and so no board. */
  showWithoutBoard(game) {
    this.player.pause();
    clearTimeout(this.addressTimer);
    this.asked = { ...NOTHING, game };
    this.enterGame(game);
    this.round = this.board = this.curves = null;
    this.cards.clear();
    this.page.board.replaceChildren();
    this.page.board.setAttribute('aria-label', 'No board');
    this.page.hazards.hidden = true;
    this.page.controls.hidden = true;
    this.page.watch.hidden = true;
    this.page.facts.textContent =
      'No new of this game was accepted, so the transcript holds no board of it.';
  }

  enter(game, round, board) {
    if (this.game !== game) {
      this.enterGame(game);
    }
    if (this.round !== round) {
      this.round = round;
      this.page.round.selectedIndex = game.rounds.indexOf(round);
      this.page.slider.max = this.lastTurn;
      this.cards.begin(board);
      this.readCurves();
    }
  }

  enterGame(game) {
    const { page } = this;
    this.game = game;
    page.name.textContent = game.name;
    page.stay.textContent = this.transcript.stayText(game);
    const count = game.rounds.length;
    const option = (number) => made('option', { value: number }, `${number} of ${count}`);
    page.round.replaceChildren(...game.rounds.map((round, index) => option(index + 1)));
    page.rounds.hidden = game.rounds.length < 2;
    page.controls.hidden = false;
    page.watch.hidden = false;
    page.panel.hidden = false;
    this.refusals.show(game.refusals);
    this.onGame(game);
  }

  show(board) {
    const { page } = this;
    this.board = board;
    drawBoard(page.board, board, page.earlier.checked);
    showHazardLegend(page.hazards, board);
    this.cards.show(board, this.lastTurn);
    page.slider.value = board.turn;
    page.turn.textContent = `Turn ${board.turn} of ${this.lastTurn}`;
    page.slider.setAttribute('aria-valuetext', page.turn.textContent);
    const food = `food at least ${board.min_food}, chance ${board.food_chance}`;
    const hazards = board.hazards ? `, hazard damage ${board.hazard_damage}` : '';
    page.facts.textContent = `${board.mode}, ${board.width} by ${board.height}, ${food}${hazards}`
      + `${board.over ? ', over' : ''}`;
    this.writeAddress();
  }

  /** Writes the turn into the link at once, and into the address of the page after a delay. */
  writeAddress() {
    const round = this.game.rounds.indexOf(this.round) + 1;
    const address = addressOf(this.game.name, this.game.stay, round, this.board.turn);
    this.page.link.setAttribute('href', address);
    clearTimeout(this.addressTimer);
    this.addressTimer = setTimeout(() => history.replaceState(null, '', address), ADDRESS_DELAY);
  }

  /** Reads all boards of the round and extends the plots; stops when another round is shown. */
  async readCurves() {
    const curves = new Curves();
    this.curves = curves;
    this.page.snakes.setAttribute('aria-busy', 'true');
    try {
      for await (const boards of this.transcript.boardSlices(this.round)) {
        if (this.curves !== curves) {
          return;
        }
        boards.forEach((board) => curves.add(board));
        this.cards.drawPlots(curves, this.board.turn, this.lastTurn);
        this.page.greatest.textContent = curves.longest;
      }
      this.page.snakes.setAttribute('aria-busy', 'false');
    } catch (fault) {
      this.onFault(fault);
    }
  }
}
