// The page of a tournament: its tables, and its matches stage by stage. It is read again while it
// is played.
'use strict';

const AGAIN_MS = 3000;

/** A line of a match: the seed, the bot or where it comes from, and its points. */
function sideOf({ bots, points, winner }, at) {
  const { bot, seed, from } = bots[at];
  const name = bot ? botLabel(bot)
    : made('span', { className: 'open' }, bot === '' ? 'bye' : from);
  const score = bots[0].bot && bots[1].bot ? String(points[at]) : '';
  return made('div', { className: bot && bot === winner ? 'won' : '' },
    made('span', { className: 'seed' }, seed ? String(seed) : ''), name, made('span', {}, score));
}

/** A match with links to its games. */
function matchBox(match) {
  const isEmpty = match.bots.every(({ bot }) => bot === '');
  const kind = isEmpty ? 'match empty' : 'match';
  const box = made('div', { className: kind }, sideOf(match, 0), sideOf(match, 1));
  const links = match.games.flatMap((game, at) => [gameLink(game, `game ${at + 1}`), ' ']);
  if (links.length > 0) {
    box.append(made('span', { className: 'games' }, ...links));
  }
  box.dataset.match = match.number;
  box.title = `Match ${match.number}`;
  return box;
}

/** The rounds of one bracket side by side. A stage of winners or losers names its bracket. */
function stagesBox(stages) {
  const columns = stages.map(({ title, matches }) => made('section', { className: 'stage' },
    made('h3', {}, title), made('div', { className: 'list' }, ...matches.map(matchBox))));
  return made('div', { className: 'stages' }, ...columns);
}

/** The stages by the bracket that they belong to, in their order. */
function byBracket(stages) {
  const kindOf = ({ title }) => /^(Winners|Losers|Group|Round [0-9])/.exec(title)?.[1] ?? 'Final';
  const found = new Map();
  stages.forEach((stage) => {
    const kind = kindOf(stage).replace(/^Round .*/, 'Rounds');
    found.set(kind, [...(found.get(kind) ?? []), stage]);
  });
  return [...found.values()];
}

function tableBox({ title, rows, go_on: goOn }) {
  const number = (value) => made('td', { className: 'number' }, String(value));
  const heads = ['#', 'Bot', 'Seed', 'Played', 'Points', 'Games'].map((words) => made('th',
    { scope: 'col', className: words === 'Bot' ? '' : 'number' }, words));
  const lines = rows.map((row, at) => made('tr', { className: at < goOn ? 'goes-on' : '' },
    number(at + 1), made('th', { scope: 'row' }, botLabel(row.bot)), number(row.seed),
    number(row.played), number(row.points), number(`${row.games} : ${row.against}`)));
  return made('section', {}, made('h2', {}, title), made('table', {},
    made('thead', {}, made('tr', {}, ...heads)), made('tbody', {}, ...lines)));
}

function showBracket({ stages, tables, champion }) {
  const element = (id) => document.getElementById(id);
  element('champion').replaceChildren(
    ...(champion ? [botLabel(champion), ' has won the tournament'] : []));
  element('tables').replaceChildren(...tables.map(tableBox));
  element('stages').replaceChildren(...byBracket(stages).map(stagesBox));
}

async function readBracket() {
  setLooks((await fetchJson('looks.json')) ?? {});
  const about = await fetchJson('about.json');
  if (about) {
    showTitle(about, about.name);
    document.getElementById('facts').textContent = about.facts.join(', ');
  }
  const bracket = await fetchJson('bracket.json');
  document.body.dataset.state = bracket === null ? 'fault' : 'open';
  document.getElementById('notice').textContent = bracket === null
    ? 'This page has no tournament, or it can not be read now.' : '';
  if (bracket !== null) {
    showBracket(bracket);
  }
  if (bracket === null || !bracket.champion) {
    setTimeout(readBracket, AGAIN_MS);
  }
}

readBracket();
