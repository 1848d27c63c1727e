// Boards as the host writes them: checks to be made before a board is drawn, and texts about its
// snakes.
'use strict';

/** By cause of death: its text, and which ids the killer can have. */
const CAUSES = {
  'out-of-health': { describe: () => 'out of health', isKiller: (by) => by === null },
  'wall-collision': { describe: () => 'ran into the wall', isKiller: (by) => by === null },
  'snake-self-collision': { describe: () => 'ran into itself', isKiller: (by, own) => by === own },
  'snake-collision': {
    describe: (by) => `ran into the body of ${by}`,
    isKiller: (by, own, ids) => by !== own && ids.includes(by),
  },
  'head-collision': {
    describe: (by) => `met the head of ${by}`,
    isKiller: (by, own, ids) => by !== own && ids.includes(by),
  },
  hazard: { describe: () => 'hurt by a hazard', isKiller: (by) => by === null },
};
const MOST_HAZARDS = 2500;

function isWhole(value, least, most) {
  return Number.isInteger(value) && value >= least && value <= most;
}

/** Whether a value is a cell of the board, or one at most `beyond` cells outside its edges. */
function isCell(value, board, beyond) {
  return isWhole(value?.x, -beyond, board.width - 1 + beyond)
    && isWhole(value?.y, -beyond, board.height - 1 + beyond);
}

function isCause(snake, ids) {
  if (snake.cause === null) {
    return snake.by === null && snake.out === null;
  }
  return Object.hasOwn(CAUSES, snake.cause)
    && CAUSES[snake.cause].isKiller(snake.by, snake.id, ids)
    && isWhole(snake.out, 1, 10000);
}

/** What is wrong with a snake of a board, in words, or null. */
function faultOfSnake(snake, board, ids) {
  if (typeof snake?.id !== 'string' || ids.indexOf(snake.id) !== ids.lastIndexOf(snake.id)) {
    return 'a snake has no unique id';
  }
  if (!isWhole(snake.health, 0, 100)) {
    return `the health of ${snake.id} is no number from 0 to 100`;
  }
  const isPart = (cell, part) => isCell(cell, board, part === 0 ? 1 : 0);
  if (!Array.isArray(snake.body) || snake.body.length < 3 || !snake.body.every(isPart)) {
    return `the body of ${snake.id} is no list of cells`;
  }
  return isCause(snake, ids) ? null : `why ${snake.id} is out can't be read`;
}

/** Whether a board has hazards with their damage, or neither of the two. */
function isHazards(board) {
  const { hazards, hazard_damage: damage } = board;
  if (hazards === undefined) {
    return damage === undefined;
  }
  return isWhole(damage, 0, 100) && Array.isArray(hazards) && hazards.length <= MOST_HAZARDS
    && hazards.every((cell) => isCell(cell, board, 0));
}

/** What is wrong with a board, in words, or null. */
function faultOfBoard(board) {
  if (!isWhole(board?.width, 3, 25) || !isWhole(board.height, 3, 25)) {
    return 'its sides are no numbers from 3 to 25';
  }
  const isFoodRule = isWhole(board.min_food, 0, 255) && isWhole(board.food_chance, 0, 100);
  if (!isWhole(board.turn, 0, 10000) || !isFoodRule) {
    return 'its turn or the numbers for its food are out of their range';
  }
  const modes = ['standard', 'solo', 'constrictor', 'wrapped'];
  if (!modes.includes(board.mode) || typeof board.over !== 'boolean') {
    return 'its mode or its member over is missing or wrong';
  }
  if (!Array.isArray(board.food) || !board.food.every((cell) => isCell(cell, board, 0))) {
    return 'its food is no list of cells';
  }
  if (!isHazards(board)) {
    return 'its hazards are no list of cells with a damage from 0 to 100';
  }
  if (!Array.isArray(board.snakes) || !isWhole(board.snakes.length, 1, 8)) {
    return 'it has no list of 1 to 8 snakes';
  }
  const ids = board.snakes.map((snake) => snake?.id);
  const faults = board.snakes.map((snake) => faultOfSnake(snake, board, ids));
  return faults.find((fault) => fault !== null) ?? null;
}

function isLiving(snake) {
  return snake.cause === null;
}

/** A text of when and why a snake went out and by whom, or that it lives. */
function fateOf(snake) {
  if (isLiving(snake)) {
    return 'lives';
  }
  return `out in turn ${snake.out}: ${CAUSES[snake.cause].describe(snake.by)}`;
}

/**
 * The step for a difference of two columns or rows. On a wrapped board the difference from one edge
 * to the opposite one is a step of one cell across the edge.
 */
function acrossEdge(difference, side, board) {
  const isAcross = board.mode === 'wrapped' && Math.abs(difference) === side - 1;
  return isAcross ? -Math.sign(difference) : difference;
}

/** The step from a cell to a neighbour or to itself; null between other cells. */
function stepBetween(from, to, board) {
  const x = acrossEdge(to.x - from.x, board.width, board);
  const y = acrossEdge(to.y - from.y, board.height, board);
  return Math.abs(x) + Math.abs(y) <= 1 ? { x, y } : null;
}

/**
 * The direction from a snake's second part to its head; null if both are in one cell or in cells
 * that are not neighbours.
 */
function directionOf(body, board) {
  const step = stepBetween(body[1], body[0], board);
  return step && step.x === 0 && step.y === 0 ? null : step;
}
