// The picture of a board: cells, hazards, food and snakes, and the legend of the hazards. A margin
// of one cell is for heads outside the board.
'use strict';

// Cells that are in the list of hazards this often or more have one shade.
const MOST_SHADES = 4;

/** All cells, as one path of squares with small gaps between them. */
function cellsPicture({ width, height }) {
  let path = '';
  for (let x = 0; x < width; x += 1) {
    for (let y = 0; y < height; y += 1) {
      path += `M${x + 0.03} ${y + 0.03}h.94v.94h-.94z`;
    }
  }
  return drawn('path', { class: 'cells', d: path });
}

/** The cells of a board's hazards by their shade: how often each is in the list, at most 4. */
function hazardsByShade({ hazards = [], width }) {
  const times = new Map();
  for (const { x, y } of hazards) {
    const place = y * width + x;
    times.set(place, (times.get(place) ?? 0) + 1);
  }
  const cellAt = (place) => ({ x: place % width, y: Math.floor(place / width) });
  return [1, 2, 3, MOST_SHADES].map((shade) => {
    const places = [...times.keys()].filter((at) => Math.min(times.get(at), MOST_SHADES) === shade);
    return { shade, cells: places.map(cellAt) };
  }).filter(({ cells }) => cells.length > 0);
}

/** The hazards of one shade: their cells are darkened and hatched. */
function hazardsPicture({ shade, cells }, height) {
  let squares = '';
  let lines = '';
  for (const cell of cells) {
    const [x, y] = [cell.x, height - cell.y - 1];
    squares += `M${x} ${y}h1v1h-1z`;
    lines += `M${x} ${y + 0.5}l.5-.5M${x} ${y + 1}l1-1M${x + 0.5} ${y + 1}l.5-.5`;
  }
  return drawn('g', { class: `hazards shade-${shade}`, 'data-shade': shade },
    drawn('path', { class: 'squares', d: squares }), drawn('path', { class: 'hatch', d: lines }));
}

/** A cell as hazards of one shade look, with the health that they take. */
function hazardSample({ shade }, damage) {
  const picture = hazardsPicture({ shade, cells: [{ x: 0, y: 0 }] }, 1);
  const words = `${shade * damage} health${shade === MOST_SHADES ? ' or more' : ''}`;
  const sample = drawn('svg', { class: 'sample', viewBox: '0 0 1 1', 'aria-hidden': 'true' });
  sample.append(cellsPicture({ width: 1, height: 1 }), picture);
  return made('span', {}, sample, words);
}

/** Says in an element what the hazards of a board take; hides it if the game has no hazards. */
function showHazardLegend(element, board) {
  element.hidden = !board.hazards;
  const shades = hazardsByShade(board);
  const words = shades.length > 0 ? 'A hazard takes in each turn'
    : `No hazards now; one would take ${board.hazard_damage} health in each turn`;
  const samples = shades.flatMap((it) => [' ', hazardSample(it, board.hazard_damage)]);
  element.replaceChildren(words, ...samples);
}

function foodPicture(cell, height) {
  const { x, y } = middleOf(cell, height);
  const place = { cx: x, cy: y, r: 0.26, 'data-x': cell.x, 'data-y': cell.y };
  return drawn('circle', { class: 'food', ...place });
}

/**
 * The seats of the snakes to draw, in drawing order: first those that are out, then the living.
 * Snakes that went out in an earlier turn are included only if `withEarlier` is true.
 */
function seatsToDraw(board, withEarlier) {
  const seats = [...board.snakes.keys()];
  const isOut = (seat) => !isLiving(board.snakes[seat]);
  const isShown = (seat) => withEarlier || board.snakes[seat].out === board.turn;
  const out = seats.filter((seat) => isOut(seat) && isShown(seat));
  return [...out, ...seats.filter((seat) => !isOut(seat))];
}

function wordsOfSnake(snake) {
  const [head] = snake.body;
  const place = `at ${head.x}, ${head.y}`;
  const state = `${place}, health ${snake.health}, length ${snake.body.length}`;
  return isLiving(snake) ? state : fateOf(snake);
}

/** A text of a board's snakes, its number of food and its hazards, for screen readers. */
function wordsOfBoard(board) {
  const snakes = board.snakes.map((snake) => `${snake.id} ${wordsOfSnake(snake)}`);
  const words = `Board of turn ${board.turn}. ${snakes.join('; ')}. Food: ${board.food.length}.`;
  if (!board.hazards) {
    return words;
  }
  return `${words} Hazards: ${board.hazards.length}, damage ${board.hazard_damage}.`;
}

/** Draws a board into an SVG element, in place of its old content. */
function drawBoard(svg, board, withEarlier) {
  const { width, height } = board;
  const seats = seatsToDraw(board, withEarlier);
  svg.setAttribute('viewBox', `-1 -1 ${width + 2} ${height + 2}`);
  svg.setAttribute('aria-label', wordsOfBoard(board));
  svg.replaceChildren(
    cellsPicture(board),
    ...hazardsByShade(board).map((hazards) => hazardsPicture(hazards, height)),
    drawn('rect', { class: 'wall', x: 0, y: 0, width, height }),
    ...board.food.map((cell) => foodPicture(cell, height)),
    ...seats.map((seat) => snakePicture(board.snakes[seat], seat, board)));
}
