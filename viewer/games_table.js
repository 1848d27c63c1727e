// The table of games and their final states. A click on a heading sorts it, one on a name chooses
// the game.
'use strict';

/** The value by which each column sorts. Unknown numbers come first. */
const SORTED_BY = {
  name: (row) => row.name,
  state: (row) => row.state,
  living: (row) => row.living.length,
  turns: (row) => row.turns ?? -1,
  rounds: (row) => row.rounds,
  refused: (row) => row.refused,
  charge: (row) => row.charge,
};

function compareValues(first, second) {
  const isText = typeof first === 'string';
  return isText ? first.localeCompare(second, 'en', { numeric: true }) : first - second;
}

/** The rows sorted by a column; rows with equal values keep their order. */
function sortedRows(rows, column, isDescending) {
  const valueOf = SORTED_BY[column];
  const sign = isDescending ? -1 : 1;
  return [...rows].sort((first, second) => sign * compareValues(valueOf(first), valueOf(second)));
}

function livingCell(row) {
  const cell = made('td', { className: 'living' });
  if (row.living.length === 0) {
    cell.append(row.state === 'not begun' ? '–' : 'nobody');
  }
  for (const { snake, seat } of row.living) {
    cell.append(made('span', { className: 'chip' }, swatchPicture(snake.id, seat), snake.id));
  }
  return cell;
}

function numberCell(value) {
  return made('td', { className: 'number' }, value === null ? '–' : value.toLocaleString('en'));
}

/** Scrolls the list of games, and nothing around it, as far as its row needs to be seen. */
function scrollToRow(line) {
  const list = line.closest('.games');
  const seen = list.getBoundingClientRect();
  const top = seen.top + line.closest('table').tHead.offsetHeight;
  const { top: rowTop, bottom } = line.getBoundingClientRect();
  list.scrollTop += rowTop < top ? rowTop - top : Math.max(0, bottom - seen.bottom);
}

class GamesTable {
  constructor(table, onChoose) {
    this.table = table;
    this.onChoose = onChoose;
    this.rows = [];
    this.chosen = null;
    this.column = null;
    this.isDescending = false;
    for (const head of table.querySelectorAll('th[data-column]')) {
      const button = head.querySelector('button');
      button.addEventListener('click', () => this.sortBy(head.dataset.column));
    }
  }

  /** Shows rows in the order of the transcript. */
  show(rows) {
    this.rows = rows;
    this.column = null;
    this.draw();
  }

  sortBy(column) {
    this.isDescending = this.column === column && !this.isDescending;
    this.column = column;
    this.draw();
  }

  inOrder() {
    return this.column ? sortedRows(this.rows, this.column, this.isDescending) : this.rows;
  }

  draw() {
    for (const head of this.table.querySelectorAll('th[data-column]')) {
      const isSorted = head.dataset.column === this.column;
      const direction = this.isDescending ? 'descending' : 'ascending';
      head.setAttribute('aria-sort', isSorted ? direction : 'none');
    }
    this.table.tBodies[0].replaceChildren(...this.inOrder().map((row) => this.rowFor(row)));
    this.markChosen(this.chosen);
  }

  rowFor(row) {
    const button = made('button', { type: 'button' }, row.name);
    button.addEventListener('click', () => this.onChoose(row.game));
    const stay = made('span', { className: 'stay' }, row.stayText);
    const name = made('th', { scope: 'row' }, button, stay);
    const numbers = [row.turns, row.rounds, row.refused, row.charge].map(numberCell);
    const line = made('tr', {}, name, made('td', {}, row.state), livingCell(row), ...numbers);
    line.dataset.game = row.name;
    line.dataset.stay = row.game.stay;
    return line;
  }

  markChosen(game) {
    this.chosen = game;
    for (const line of this.table.tBodies[0].rows) {
      if (line.dataset.game === game?.name && Number(line.dataset.stay) === game.stay) {
        line.setAttribute('aria-current', 'true');
        scrollToRow(line);
      } else {
        line.removeAttribute('aria-current');
      }
    }
  }

  /** The game `step` rows below the chosen one, at most the one in the first or the last row. */
  gameBeside(step) {
    const rows = this.inOrder();
    const at = rows.findIndex((row) => row.game === this.chosen);
    return rows[Math.min(rows.length - 1, Math.max(0, at + step))]?.game ?? null;
  }
}
