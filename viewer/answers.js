// What the bots of a ladder answered in a game: latencies, shouts and missed moves. The address
// names a file of them beside the transcript, and the page to go back to.
'use strict';

// By turn, the answers of the bots to the requests of that turn, by their ids: the direction or
// null, the cause of a missed move or null, the milliseconds, and the shout.
let ANSWERS = [];

function isAnswer(value) {
  return Array.isArray(value) && value.length === 4 && Number.isFinite(value[2])
    && typeof value[3] === 'string';
}

/** Takes answers. What is none is left out. */
function setAnswers(answers) {
  const isTurn = (turn) => typeof turn === 'object' && turn !== null;
  ANSWERS = Array.isArray(answers) ? answers.map((turn) => (isTurn(turn) ? turn : {})) : [];
}

/** What a snake's bot answered before the board of a turn, in words; empty if it is not known. */
function wordsOfAnswer(id, turn) {
  const answers = ANSWERS[turn - 1];
  const answer = answers && Object.hasOwn(answers, id) ? answers[id] : null;
  if (!isAnswer(answer)) {
    return '';
  }
  const [move, cause, ms, shout] = answer;
  const words = cause === null ? `answered ${move} in ${ms} ms` : `missed its move: ${cause}`;
  return shout === '' ? words : `${words}, shouted “${shout}”`;
}

/** Whether a snake's bot missed the move before the board of a turn. */
function hasMissed(id, turn) {
  return wordsOfAnswer(id, turn).startsWith('missed');
}

/** Fetches JSON that the address names, from the page's own server; null if there is none. */
async function fetchNamed(name) {
  try {
    return JSON.parse(await (await fetchFile(name)).text());
  } catch {
    return null;
  }
}

/** Shows the way back to the page of the same server that the address names. */
function showWayBack(link, search) {
  const words = new URLSearchParams(search);
  const back = new URL(words.get('back') ?? '', document.baseURI);
  const isOwn = back.origin === location.origin && back.protocol.startsWith('http');
  link.hidden = !words.has('back') || !isOwn;
  if (!link.hidden) {
    link.href = back.href;
    document.body.dataset.from = 'ladder';
  }
}
