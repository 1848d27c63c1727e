// The small plot of a snake: its health and its length over the turns of a round.
'use strict';

const PLOT_WIDTH = 240;
const PLOT_HEIGHT = 48;

/** The health and the length of each snake by turn, until the turn in which it goes out. */
class Curves {
  constructor() {
    this.seats = [];
    this.longest = 1;
  }

  add(board) {
    board.snakes.forEach((snake, seat) => {
      this.seats[seat] ??= { health: [], length: [] };
      if (isLiving(snake) || snake.out === board.turn) {
        this.seats[seat].health.push(snake.health);
        this.seats[seat].length.push(snake.body.length);
        this.longest = Math.max(this.longest, snake.body.length);
      }
    });
  }
}

/** The x coordinate of a turn in a plot that ends with turn `last`. */
function plotX(turn, last) {
  return last === 0 ? 0 : turn / last * PLOT_WIDTH;
}

/**
 * The path through values by turn. If several turns fall on one column of the plot, it goes through
 * the least and the greatest value of the column, so that every peak is visible.
 */
function plotPath(values, greatest, last) {
  const perColumn = Math.max(1, Math.ceil(last / PLOT_WIDTH));
  const points = [];
  for (let turn = 0; turn < values.length; turn += perColumn) {
    const column = values.slice(turn, turn + perColumn);
    const bounds = [...new Set([Math.max(...column), Math.min(...column)])];
    const x = plotX(turn, last).toFixed(1);
    const y = (value) => (PLOT_HEIGHT * (1 - value / greatest)).toFixed(1);
    points.push(...bounds.map((value) => `${x} ${y(value)}`));
  }
  return points.length === 0 ? '' : `M${points.join('L')}h.1`;
}

/** Draws the plot of a seat into its SVG element, with a line that `movePlotLine` places. */
function drawPlot(svg, curves, seat, last) {
  const curve = curves.seats[seat] ?? { health: [], length: [] };
  svg.setAttribute('viewBox', `-2 -3 ${PLOT_WIDTH + 4} ${PLOT_HEIGHT + 6}`);
  svg.replaceChildren(
    drawn('rect', { class: 'ground', width: PLOT_WIDTH, height: PLOT_HEIGHT }),
    drawn('line', { class: 'now', y1: 0, y2: PLOT_HEIGHT }),
    drawn('path', { class: 'health', d: plotPath(curve.health, 100, last) }),
    drawn('path', { class: 'length', d: plotPath(curve.length, curves.longest, last) }));
}

function movePlotLine(svg, turn, last) {
  const line = svg.querySelector('.now');
  line?.setAttribute('x1', plotX(turn, last));
  line?.setAttribute('x2', plotX(turn, last));
}

/** The turn at the place of a click on a plot. */
function turnAtPlot(svg, event, last) {
  const { left, width } = svg.getBoundingClientRect();
  const across = ((event.clientX - left) / width * (PLOT_WIDTH + 4) - 2) / PLOT_WIDTH;
  return Math.round(Math.min(1, Math.max(0, across)) * last);
}
