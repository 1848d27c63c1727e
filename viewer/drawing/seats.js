// The looks of the snakes: each of the eight seats has a colour and a mark along the body, so that
// no two seats differ by hue alone. A ladder has a look for each bot, whatever its seat.
'use strict';

/**
 * The colours differ in lightness as well as in hue; a test measures their distances for
 * colour-blind eyes.
 */
const SEATS = [
  { colour: '#d17700', mark: 'plain' },
  { colour: '#07059c', mark: 'line' },
  { colour: '#4b998b', mark: 'dots' },
  { colour: '#d4a2ff', mark: 'dashes' },
  { colour: '#ad0000', mark: 'dots' },
  { colour: '#03ff99', mark: 'plain' },
  { colour: '#8456de', mark: 'dashes' },
  { colour: '#673847', mark: 'line' },
];

// By a snake's id, the look that it has in place of that of its seat.
const LOOKS = new Map();

/** The look of a snake. */
function lookOf(id, seat) {
  return LOOKS.get(id) ?? SEATS[seat];
}

/** Gives looks to snakes, by their ids. What is no look is left out. */
function setLooks(looks) {
  for (const [id, { colour, mark }] of Object.entries(looks)) {
    if (/^#[0-9a-f]{6}$/i.test(colour) && SEATS.some((it) => it.mark === mark)) {
      LOOKS.set(id, { colour, mark });
    }
  }
}

const SVG = 'http://www.w3.org/2000/svg';

/** An SVG element with its attributes and children. */
function drawn(name, attributes = {}, ...children) {
  const element = document.createElementNS(SVG, name);
  for (const [key, value] of Object.entries(attributes)) {
    element.setAttribute(key, value);
  }
  element.append(...children);
  return element;
}

/** An HTML element with its properties and children. A string becomes text, never markup. */
function made(name, properties = {}, ...children) {
  const element = Object.assign(document.createElement(name), properties);
  element.append(...children);
  return element;
}
