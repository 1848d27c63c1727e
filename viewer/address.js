// The address of the page: the part after the `#` names one turn of one game, the part after the
// `?` a file.
'use strict';

/**
 * The place that an address names, its members as text. By default the stay is 1, the round 1 and
 * the turn 0. Null if it names no game.
 */
function placeInAddress(hash) {
  const words = new URLSearchParams(hash.replace(/^#/, ''));
  if (!words.has('game')) {
    return null;
  }
  const word = (name, usual) => words.get(name) ?? usual;
  const [stay, round, turn] = [word('stay', '1'), word('round', '1'), word('turn', '0')];
  return { game: words.get('game'), stay, round, turn };
}

/** The number that a text of digits denotes; null for other text. */
function numberInAddress(word) {
  return /^\d+$/.test(word) ? Number(word) : null;
}

/** The address of a turn. Stay 1 is left out. */
function addressOf(game, stay, round, turn) {
  const place = stay === 1 ? { game, round, turn } : { game, stay, round, turn };
  return `#${new URLSearchParams(place)}`;
}

/** The file that the address of the page names, or null. */
function fileInAddress(search) {
  return new URLSearchParams(search).get('file');
}

/** The file with the looks of the snakes that the address names, or null. */
function looksInAddress(search) {
  return new URLSearchParams(search).get('looks');
}

/** The file with the answers of the bots that the address names, or null. */
function answersInAddress(search) {
  return new URLSearchParams(search).get('answers');
}

/** Removes the file from the address of the page, and the turn as well if `withTurn` is true. */
function forgetAddress(withTurn) {
  const address = new URL(location);
  address.search = '';
  if (withTurn) {
    address.hash = '';
  }
  history.replaceState(null, '', address);
}

/** Fetches a file, named relative to the page, from the server that the page came from. */
async function fetchFile(name) {
  const address = new URL(name, document.baseURI);
  if (address.origin !== location.origin || !address.protocol.startsWith('http')) {
    throw new TranscriptFault(
      'An address can name a file only of the server that the page comes from.');
  }
  const answer = await fetch(address).catch(() => null);
  if (!answer?.ok) {
    throw new TranscriptFault(
      answer ? `The server answered ${answer.status}.` : 'The server did not answer.');
  }
  return answer.blob();
}
