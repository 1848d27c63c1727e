// The page of one bot: its rating over time, its results against each other bot, its deaths, its
// latency and its last missed moves.
'use strict';

const CHART = { left: 0, right: 640, top: 10, bottom: 190 };

/** The places of the points of a rating in the chart, and the least and the greatest value. */
function chartOf(ratings) {
  const low = Math.min(...ratings.map(([, elo, error]) => elo - error));
  const high = Math.max(...ratings.map(([, elo, error]) => elo + error));
  const last = ratings.at(-1)[0];
  const first = ratings[0][0];
  const x = (games) => (CHART.right * (games - first)) / Math.max(1, last - first);
  const y = (elo) => CHART.bottom - ((CHART.bottom - CHART.top) * (elo - low))
    / Math.max(1, high - low);
  return { low, high, first, last, x, y };
}

/** Round numbers between two, some five of them. */
function marksBetween(low, high) {
  const wide = Math.max(1, high - low) / 6;
  const ten = 10 ** Math.max(0, Math.floor(Math.log10(wide)));
  const step = [1, 2, 2.5, 5, 10].map((it) => it * ten).find((it) => it >= wide);
  const marks = [];
  for (let mark = Math.ceil(low / step) * step; mark <= high; mark += step) {
    marks.push(Math.round(mark));
  }
  return marks;
}

/** Labels the axes: ratings on the left, each at its line, and games below. */
function showAxes(chart, marks) {
  const place = (elo) => `${(100 * chart.y(elo)) / 200}%`;
  const label = (elo) => {
    const words = made('span', {}, elo.toLocaleString('en'));
    words.style.top = place(elo);
    return words;
  };
  document.getElementById('elos').replaceChildren(...marks.map(label));
  const games = (count) => made('span', {}, `game ${count.toLocaleString('en')}`);
  document.getElementById('counts').replaceChildren(games(chart.first), games(chart.last));
}

/** Draws a rating over time with the band of its error. */
function drawRatings(svg, words, ratings) {
  if (ratings.length === 0) {
    words.textContent = 'No games yet.';
    return;
  }
  const chart = chartOf(ratings);
  const point = (games, elo) => `${chart.x(games).toFixed(1)} ${chart.y(elo).toFixed(1)}`;
  const above = ratings.map(([games, elo, error]) => point(games, elo + error));
  const below = ratings.map(([games, elo, error]) => point(games, elo - error)).reverse();
  const marks = marksBetween(chart.low, chart.high);
  showAxes(chart, marks);
  svg.replaceChildren(
    ...marks.map((elo) => drawn('path', { class: 'grid', 'vector-effect': 'non-scaling-stroke',
      d: `M${CHART.left} ${chart.y(elo).toFixed(1)}H${CHART.right}` })),
    drawn('path', { class: 'band', d: `M${[...above, ...below].join('L')}Z` }),
    drawn('path', {
      class: 'rating',
      'vector-effect': 'non-scaling-stroke',
      d: `M${ratings.map(([games, elo]) => point(games, elo)).join('L')}`,
    }));
  const whole = (value) => Math.round(value).toLocaleString('en');
  words.textContent = `From game ${whole(chart.first)} to game ${whole(chart.last)} of the ladder, `
    + `between ${whole(chart.low)} and ${whole(chart.high)}. The band is the error.`;
  svg.setAttribute('aria-label', `Rating over time. ${words.textContent}`);
}

function againstRow({ bot, games, outlived, equal }) {
  const number = (value) => made('td', { className: 'number' }, String(value));
  const line = made('tr', {}, made('th', { scope: 'row' }, botLabel(bot)),
    ...[games, outlived, equal, games - outlived - equal].map(number));
  line.dataset.bot = bot;
  return line;
}

function wordsOfDeath(cause) {
  return Object.hasOwn(CAUSES, cause) ? CAUSES[cause].describe('another snake') : cause;
}

/** The numbers of a bot in words: place, results, latency and missed moves. */
function numbersOf({ place, standing, moves }) {
  const { wins, draws, losses, missed } = standing;
  const causes = missed > 0 ? ` (${wordsOfCauses(standing)})` : '';
  const mark = standing.mark && ` (${standing.mark})`;
  return [
    standing.mark === 'removed' ? 'removed' : `place ${place}${mark}`,
    `Elo ${standing.elo} ± ${standing.error}`,
    `${counted(standing.games, 'game')}: ${wins} won, ${draws} drawn, ${losses} lost`,
    `latency ${inMs(standing.median_ms)}, 99 % ${inMs(standing.p99_ms)}`,
    `${missed} of ${moves} moves missed${causes}`,
  ].map((words) => made('span', {}, words));
}

function showRecord(record) {
  const element = (id) => document.getElementById(id);
  element('numbers').replaceChildren(...numbersOf(record));
  drawRatings(element('ratings'), element('range'), record.ratings);
  document.querySelector('#against tbody').replaceChildren(...record.against.map(againstRow));
  const death = ([cause, times]) => made('li', {}, `${wordsOfDeath(cause)}: ${times}`);
  element('deaths').replaceChildren(...Object.entries(record.deaths).map(death));
  const miss = ({ game, cause, moves }) => made('li', {}, gameLink(game), ` ${cause} ${moves}`);
  element('missed').replaceChildren(...record.missed.map(miss));
  element('record').hidden = false;
}

async function beginBotPage() {
  const bot = new URLSearchParams(location.search).get('bot') ?? '';
  document.title = `${bot} – Ladder`;
  const about = await fetchJson('about.json');
  if (about) {
    showTitle(about, bot);
    document.getElementById('home').textContent = about.name;
  }
  const looks = await fetchJson('looks.json');
  setLooks(looks ?? {});
  document.getElementById('name').replaceChildren(swatchPicture(bot, 0), ` ${bot}`);
  const record = await fetchJson(`bots/${encodeURIComponent(bot)}.json`);
  if (record === null) {
    document.getElementById('notice').textContent =
      'The page has no such bot, or the ladder does not run.';
    document.body.dataset.state = 'fault';
    return;
  }
  showRecord(record);
  const [list, more] = ['finished', 'more'].map((id) => document.getElementById(id));
  await new FinishedGames(list, more).show(bot);
  document.body.dataset.state = 'open';
}

beginBotPage();
