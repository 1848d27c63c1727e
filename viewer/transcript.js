// A transcript: its games with their rounds and refused commands, and its stray lines. It is read
// from the two ends of each line.
'use strict';

// The largest board, eight snakes of 10,003 parts, is written in 1.3 MB.
const MOST_LINE_BYTES = 2 * 1024 * 1024;

/** Whether the `turn` of a line is right, by its command, after `boards` boards of the round. */
const FITTING_TURN = {
  new: (turn) => turn === 0,
  move: (turn, boards) => turn === boards,
  show: (turn, boards) => turn === boards - 1,
  turn: (turn, boards) => turn < boards,
};

/** The board in the text of a line. Throws a fault if the line holds no board to draw. */
function boardInLine(text, number) {
  let board;
  try {
    ({ board } = JSON.parse(text));
  } catch {
    throw new TranscriptFault(`Line ${number.toLocaleString('en')} is no JSON.`);
  }
  const fault = faultOfBoard(board);
  if (fault) {
    const line = number.toLocaleString('en');
    throw new TranscriptFault(`Line ${line} holds no board that can be drawn: ${fault}.`);
  }
  return board;
}

/**
 * One stay of a game. Stays are counted from 1; a game has one for each time it was admitted. A
 * round goes from a `new` to its `end`: its boards are the numbers of the lines that show turn 0,
 * turn 1 and so on. A refusal has the round and the turn after which it came, both null before the
 * first `new`.
 */
class Game {
  constructor(name, stay) {
    this.name = name;
    this.stay = stay;
    this.rounds = [];
    this.running = null;
    this.replies = 0;
    this.refusals = [];
    this.finalLine = null;
    this.charge = null;
  }

  /** The number of the line with the game's last board, or null. */
  lastBoardLine() {
    return this.running ? this.finalLine : this.rounds.at(-1)?.boards.at(-1) ?? null;
  }
}

/** A file with the place of each line. Lines are numbered from 1, and read when needed. */
class Transcript {
  constructor(file) {
    this.file = file;
    this.starts = [];
    this.games = [];
    this.strays = [];
    this.staysByName = new Map();
  }

  startOf(number) {
    return this.starts[number - 1] ?? this.file.size;
  }

  /** The stays of the game of that name, in their order; empty if there is no such game. */
  staysOf(name) {
    return this.staysByName.get(name) ?? [];
  }

  /** Adds the next stay of that name. */
  addGame(name) {
    const stays = this.staysOf(name);
    const game = new Game(name, stays.length + 1);
    stays.push(game);
    this.staysByName.set(name, stays);
    this.games.push(game);
    return game;
  }

  /** The number of a game's stay, in words; empty if the game has only one stay. */
  stayText(game) {
    return this.staysOf(game.name).length > 1 ? `stay ${game.stay.toLocaleString('en')}` : '';
  }

  async board(number) {
    const text = await this.file.slice(this.startOf(number), this.startOf(number + 1)).text();
    return boardInLine(text, number);
  }

  /** The boards of a round, in slices: lists of boards in the order of their turns. */
  async* boardSlices(round) {
    const first = round.boards[0];
    const last = round.boards.at(-1);
    let number = first;
    let turn = 0;
    const [from, to] = [this.startOf(first), this.startOf(last + 1)];
    for await (const { lines } of lineSlices(this.file, from, to)) {
      const boards = [];
      for (const line of lines) {
        if (number === round.boards[turn]) {
          boards.push(boardInLine(lineDecoder.decode(line.bytes), number));
          turn += 1;
        }
        number += 1;
      }
      yield boards;
    }
  }
}

/**
 * Builds a transcript from the lines of a file, added one by one. Throws a fault at the first line
 * that can't occur in a transcript at its place.
 */
class TranscriptBuilder {
  constructor(file) {
    this.transcript = new Transcript(file);
    this.game = null;
    this.openName = null;
  }

  fault(why) {
    const number = this.transcript.starts.length.toLocaleString('en');
    return new TranscriptFault(`Line ${number} ${why}.`);
  }

  add(line) {
    this.transcript.starts.push(line.start);
    const parsed = parseLine(line.bytes);
    if (!parsed) {
      throw this.fault(strangeness(line.bytes));
    }
    if (parsed.form === 'stray') {
      this.addStray(parsed);
      return;
    }
    this.enterSection(parsed);
    if (parsed.form === 'final' || parsed.form === 'finalWithout') {
      this.addFinal(parsed);
    } else {
      this.addReply(parsed);
    }
  }

  addStray(parsed) {
    if (this.game) {
      throw this.fault('comes before the final line of a game');
    }
    this.transcript.strays.push(parsed);
  }

  /** Opens the section of the line's game, unless it is open already. */
  enterSection(parsed) {
    if (this.game) {
      if (parsed.game !== this.openName) {
        throw this.fault('is of another game, and the one before has no final line');
      }
      return;
    }
    const name = this.nameIn(parsed.game);
    if (this.transcript.strays.length > 0) {
      throw this.fault('is of a game, and comes after a stray line');
    }
    this.game = this.transcript.addGame(name);
    this.openName = parsed.game;
  }

  nameIn(text) {
    try {
      return JSON.parse(text);
    } catch {
      throw this.fault('is no JSON');
    }
  }

  addReply(parsed) {
    const { game } = this;
    game.replies += 1;
    if (parsed.seq !== game.replies) {
      throw this.fault(`has the number ${parsed.seq}, not ${game.replies}`);
    }
    if (parsed.form === 'refused') {
      game.refusals.push({ ...parsed, ...this.lastTurn() });
    } else if (parsed.form === 'shown') {
      this.addShown(parsed);
    } else {
      this.addUnshown(parsed);
    }
  }

  /** The number of the game's last round, and the turn of its last board. */
  lastTurn() {
    const { rounds } = this.game;
    if (rounds.length === 0) {
      return { round: null, turn: null };
    }
    return { round: rounds.length, turn: rounds.at(-1).boards.length - 1 };
  }

  addShown(parsed) {
    const { game } = this;
    if ((parsed.word === 'new') === (game.running !== null)) {
      const when = game.running ? 'while a game runs' : 'while no game runs';
      throw this.fault(`shows a board after ${parsed.word} ${when}`);
    }
    if (!FITTING_TURN[parsed.word](parsed.turn, game.running?.boards.length ?? 0)) {
      throw this.fault(`shows turn ${parsed.turn}, which can't follow the turns before it`);
    }
    if (parsed.word === 'new') {
      game.running = { boards: [] };
      game.rounds.push(game.running);
    }
    if (parsed.word === 'new' || parsed.word === 'move') {
      game.running.boards.push(this.transcript.starts.length);
    }
  }

  addUnshown(parsed) {
    if (!this.game.running) {
      throw this.fault(`answers ${parsed.word} while no game runs`);
    }
    if (parsed.word === 'end') {
      this.game.running = null;
    }
  }

  addFinal(parsed) {
    const { game } = this;
    if ((parsed.form === 'final') !== (game.running !== null)) {
      const what = `${game.running ? 'without' : 'with'} a board`;
      throw this.fault(`is a final line ${what}, which can't follow the lines before it`);
    }
    if (game.running && !FITTING_TURN.show(parsed.turn, game.running.boards.length)) {
      throw this.fault(`shows turn ${parsed.turn} at last, which is not the turn before it`);
    }
    game.finalLine = this.transcript.starts.length;
    game.charge = parsed.charge;
    this.game = null;
  }

  /**
   * Returns the transcript after the last line. `unfinished` is the number of bytes after the last
   * line feed.
   */
  finish(unfinished) {
    if (unfinished > 0) {
      this.transcript.starts.push(null);
      throw this.fault('is cut off: no line feed ends it');
    }
    if (this.transcript.starts.length === 0) {
      throw new TranscriptFault('The file is empty.');
    }
    if (this.game) {
      throw this.fault('is the last, and its game has no final line');
    }
    return this.transcript;
  }
}

/**
 * Reads the transcript in a file. Calls `onProgress` with the number of bytes read so far. Returns
 * null as soon as `isWanted` returns false.
 */
async function findTranscript(file, onProgress, isWanted) {
  const builder = new TranscriptBuilder(file);
  let unfinished = 0;
  for await (const slice of lineSlices(file, 0, file.size)) {
    if (!isWanted()) {
      return null;
    }
    slice.lines.forEach((line) => builder.add(line));
    if (slice.unfinished > MOST_LINE_BYTES) {
      throw new TranscriptFault(
        'The file holds a line that is longer than any line of a transcript.');
    }
    unfinished = slice.unfinished;
    onProgress(slice.reached);
  }
  return builder.finish(unfinished);
}
