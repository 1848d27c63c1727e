// The final state of each game of a transcript: its row in the table of games.
'use strict';

/** The row of a game, from its lines alone. `board` is its last board, null if it has none. */
function endingOf(game, stayText, board) {
  const snakes = board?.snakes ?? [];
  return {
    game,
    name: game.name,
    stayText,
    state: stateOf(game, board),
    living: snakes.map((snake, seat) => ({ snake, seat })).filter(({ snake }) => isLiving(snake)),
    turns: board?.turn ?? null,
    rounds: game.rounds.length,
    refused: game.refusals.length,
    charge: game.charge,
  };
}

function stateOf(game, board) {
  if (!board) {
    return 'not begun';
  }
  if (board.over) {
    return 'over';
  }
  return game.running ? 'running' : 'ended';
}

/**
 * The rows of all games, in the order of the transcript. Each board is awaited separately, so that
 * the page stays responsive.
 */
async function endingsOf(transcript) {
  const endings = [];
  for (const game of transcript.games) {
    const line = game.lastBoardLine();
    const board = line === null ? null : await transcript.board(line);
    endings.push(endingOf(game, transcript.stayText(game), board));
  }
  return endings;
}
