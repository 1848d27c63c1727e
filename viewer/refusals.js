// The lists of refused commands and of stray lines, with the meaning of each reason.
'use strict';

const REASONS = {
  G1: 'the command is unknown, or a member is missing, of a wrong type or out of range',
  G2: 'no game runs',
  G3: 'a game runs already',
  G4: 'the game is over',
  G5: 'turn 10,000 is the last',
  G6: 'no record of that turn is kept',
  G7: 'the new record would exceed the quota',
  L1: 'no JSON text, or no object',
  L2: 'it names no open game',
  L3: 'it has more than 65,536 bytes',
  A1: 'the name or the quota of the game to be admitted is missing, of a wrong type or out of '
    + 'range',
  A2: 'a game of that name is open',
  A3: '64 games are open',
  A4: 'the game to be admitted needs more blocks than are left',
  A5: 'the game that is to leave is not named, or not open',
};

const ENTRIES_AT_ONCE = 200;

function placeOf(refusal) {
  if (refusal.turn === null) {
    return 'before the first new';
  }
  const [turn, round] = [refusal.turn, refusal.round].map((it) => it.toLocaleString('en'));
  return `after turn ${turn} of round ${round}`;
}

/**
 * A list that shows 200 entries, and 200 more each time the button below it is pressed. Its section
 * is hidden while it has none.
 */
class LongList {
  constructor(section, itemFor) {
    this.section = section;
    this.list = section.querySelector('ol');
    this.count = section.querySelector('.count');
    this.more = section.querySelector('button.more');
    this.itemFor = itemFor;
    this.more.addEventListener('click', () => this.showMore());
  }

  show(entries) {
    this.entries = entries;
    this.section.hidden = entries.length === 0;
    this.count.textContent = entries.length.toLocaleString('en');
    this.list.replaceChildren();
    this.showMore();
  }

  showMore() {
    const from = this.list.children.length;
    this.list.append(...this.entries.slice(from, from + ENTRIES_AT_ONCE).map(this.itemFor));
    const left = this.entries.length - this.list.children.length;
    this.more.hidden = left === 0;
    this.more.textContent = `Show more (${left.toLocaleString('en')} left)`;
  }
}

/**
 * The list item of a refused command. Its place is a button that calls `onPlace`, unless no turn
 * came before it.
 */
function refusalItem(refusal, onPlace) {
  const why = `${refusal.reason} ${refusal.why}, ${REASONS[refusal.reason]}`;
  const words = `number ${refusal.seq.toLocaleString('en')}: ${why}; `;
  if (refusal.turn === null) {
    return made('li', {}, words + placeOf(refusal));
  }
  const button = made('button', { type: 'button', className: 'place' }, placeOf(refusal));
  button.addEventListener('click', onPlace);
  return made('li', {}, words, button);
}

function strayItem(stray) {
  const why = `${stray.reason} ${stray.why}, ${REASONS[stray.reason]}`;
  return made('li', {}, `line ${stray.line.toLocaleString('en')} of the command file: ${why}`);
}
