// The page of the seasons that have ended: the standings of each, the newest first.
'use strict';

const COLUMNS = [
  ['Games', 'games'], ['Won', 'wins'], ['Lost', 'losses'], ['Elo', 'elo'], ['Missed', 'missed'],
];

/** The class of a column; that of the missed moves is not on phones. */
function classOf(key) {
  return key === 'missed' ? 'number large' : 'number';
}

function seasonRow(row) {
  const elo = `${row.elo} ± ${row.error}`;
  const cells = COLUMNS.map(([, key]) => made('td', { className: classOf(key) },
    key === 'elo' ? elo : String(row[key])));
  return made('tr', {}, made('th', { scope: 'row' }, row.bot), ...cells);
}

/** The table of a season, under its name. Bots without a game in it are left out. */
function seasonPart(season) {
  const head = [made('th', { scope: 'col' }, 'Bot'), ...COLUMNS.map(([title, key]) => made('th',
    { scope: 'col', className: classOf(key) }, title))];
  const rows = season.rows.filter((row) => row.games > 0).map(seasonRow);
  const table = made('table', {}, made('thead', {}, made('tr', {}, ...head)),
    made('tbody', {}, ...rows));
  const words = `${season.games.toLocaleString('en')} games, until ${season.ended_at} (UTC)`;
  return made('section', {}, made('h2', {}, `Season ${season.name}`),
    made('p', { className: 'faint' }, words), made('div', { className: 'wide' }, table));
}

async function showSeasons() {
  const seasons = await fetchJson('seasons.json');
  const notice = document.getElementById('notice');
  if (seasons === null) {
    notice.textContent = 'The seasons can’t be read now.';
  } else if (seasons.length === 0) {
    notice.textContent = 'No season has ended yet.';
  }
  document.getElementById('seasons').replaceChildren(...(seasons ?? []).map(seasonPart));
  document.body.dataset.state = 'open';
}

showSeasons();
