// The picture of one snake: a connected body in the colour and with the mark of its seat, and a
// head that faces its direction.
'use strict';

/** The centre of a cell in the picture, where y grows downwards; on the board it grows upwards. */
function middleOf(cell, height) {
  return { x: cell.x + 0.5, y: height - cell.y - 0.5 };
}

/**
 * The path from a part to the next. Across an edge of a wrapped board it goes to that edge, and on
 * from the opposite one.
 */
function lineBetween(from, to, step, height) {
  const { x, y } = middleOf(to, height);
  if (to.x - from.x === step.x && to.y - from.y === step.y) {
    return `L${x} ${y}`;
  }
  const before = middleOf(from, height);
  const toEdge = `L${before.x + step.x / 2} ${before.y - step.y / 2}`;
  return `${toEdge}M${x - step.x / 2} ${y + step.y / 2}L${x} ${y}`;
}

/**
 * The path along a body. It is broken at an edge that the body crosses, and between successive
 * parts that are not neighbours.
 */
function pathAlong(body, board) {
  let path = '';
  let before = null;
  for (const cell of body) {
    const step = before ? stepBetween(before, cell, board) : null;
    if (!step) {
      const { x, y } = middleOf(cell, board.height);
      path += `M${x} ${y}h0`;
    } else if (step.x !== 0 || step.y !== 0) {
      path += lineBetween(before, cell, step, board.height);
    }
    before = cell;
  }
  return path;
}

/**
 * A head with two eyes, drawn facing right and then rotated to its direction. A head without a
 * direction faces the viewer.
 */
function headPicture(body, board, colour) {
  const { x, y } = middleOf(body[0], board.height);
  const direction = directionOf(body, board);
  const turn = direction ? Math.atan2(-direction.y, direction.x) * 180 / Math.PI : 0;
  const shape = direction
    ? drawn('path', { d: 'M-.2-.4H.1Q.46-.36.46 0Q.46.36.1.4H-.2Q-.4.4-.4 0Q-.4-.4-.2-.4Z' })
    : drawn('circle', { r: 0.43 });
  shape.setAttribute('fill', colour);
  shape.setAttribute('class', 'edge');
  const eyes = [-0.19, 0.19].flatMap((side) => {
    const at = direction ? { cx: 0.1, cy: side } : { cx: side, cy: 0 };
    return [
      drawn('circle', { ...at, r: 0.13, class: 'eye' }),
      drawn('circle', { ...at, cx: at.cx + (direction ? 0.05 : 0), r: 0.07, class: 'pupil' }),
    ];
  });
  const transform = `translate(${x} ${y}) rotate(${turn})`;
  return drawn('g', { class: 'head', transform }, shape, ...eyes);
}

/**
 * The cross over a snake that is out. It is on the part behind the head, since the head may lie
 * under the snake that it ran into.
 */
function crossPicture(body, height) {
  const { x, y } = middleOf(body[1], height);
  return drawn('path', { class: 'cross', d: `M${x - 0.3} ${y - 0.3}l.6 .6m0-.6l-.6 .6` });
}

/** The picture of the snake of a seat on a board. */
function snakePicture(snake, seat, board) {
  const { colour, mark } = lookOf(snake.id, seat);
  const path = pathAlong(snake.body, board);
  const picture = drawn('g', { class: isLiving(snake) ? 'snake' : 'snake out', 'data-seat': seat },
    drawn('title'),
    drawn('g', { class: 'figure' },
      drawn('path', { class: 'casing', d: path }),
      drawn('path', { class: 'body', d: path, stroke: colour }),
      drawn('path', { class: `mark ${mark}`, d: path }),
      headPicture(snake.body, board, colour)));
  picture.firstChild.textContent = `${snake.id}: ${fateOf(snake)}`;
  if (!isLiving(snake)) {
    picture.append(crossPicture(snake.body, board.height));
  }
  return picture;
}

/** A small snake that shows how the snake of a seat looks. */
function swatchPicture(id, seat, lives = true) {
  const body = [{ x: 2, y: 0 }, { x: 1, y: 0 }, { x: 0, y: 0 }];
  const fate = lives ? { cause: null } : { cause: 'wall-collision', by: null, out: 1 };
  const snake = { body, id, ...fate };
  const picture = snakePicture(snake, seat, { mode: 'solo', width: 3, height: 1 });
  picture.firstChild.remove();
  return drawn('svg', { class: 'swatch', viewBox: '0 0 3 1', 'aria-hidden': 'true' }, picture);
}
