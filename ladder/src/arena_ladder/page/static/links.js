// What both pages of a ladder share: the links to bots and games, and texts about results.
'use strict';

/** The address of a finished game in the viewer. */
function addressOfGame(game) {
  const file = `../games/${game}.transcript`;
  const answers = `../games/${game}.answers`;
  const back = `../${location.pathname.split('/').at(-1)}${location.search}`;
  const words = { file, looks: '../looks.json', answers, back };
  return `viewer/index.html?${new URLSearchParams(words)}`;
}

function gameLink(game, text = game) {
  return made('a', { href: addressOfGame(game) }, text);
}

/** A bot's swatch, and its name as a link to its page. */
function botLabel(bot, lives = true) {
  const href = `bot.html?${new URLSearchParams({ bot })}`;
  return made('span', { className: 'bot' }, swatchPicture(bot, 0, lives),
    made('a', { href }, bot));
}

/** How a bot of a finished game ended, in words. */
function wordsOfEnd({ result, out, cause, killer }) {
  const words = { win: 'won', draw: 'drew', loss: '', '': '' }[result] ?? '';
  const fate = cause === null || result === 'win' ? '' : fateOf({ out, cause, by: killer });
  return [words, fate].filter((it) => it !== '').join(', ');
}

/** A number of things in words. */
function counted(count, thing) {
  return `${count} ${thing}${count === 1 ? '' : 's'}`;
}

/** Names the page after its ladder. */
function showTitle(about, title) {
  document.title = title === about.name ? title : `${title} – ${about.name}`;
  const heading = document.getElementById('title');
  if (heading) {
    heading.textContent = title;
  }
}

function inMs(value) {
  return value === null ? '-' : `${value} ms`;
}

/** Missed moves by cause, in words. */
function wordsOfCauses(row) {
  const causes = ['late', 'refused', 'cut', 'status', 'long', 'json', 'direction'];
  return causes.filter((it) => row[it] > 0).map((it) => `${it} ${row[it]}`).join(', ');
}

/** Fetches JSON from the page's server; null if there is none. */
async function fetchJson(address) {
  try {
    const answer = await fetch(address);
    return answer.ok ? await answer.json() : null;
  } catch {
    return null;
  }
}
