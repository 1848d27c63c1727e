// The page as a whole: opens a transcript that is chosen, dropped or named in the address, and
// handles keys.
'use strict';

const FAR_STEP = 10;

const KEYS = {
  ' ': (viewer) => viewer.panel.togglePlaying(),
  ArrowLeft: (viewer, isFar) => viewer.panel.step(isFar ? -FAR_STEP : -1),
  ArrowRight: (viewer, isFar) => viewer.panel.step(isFar ? FAR_STEP : 1),
  Home: (viewer) => viewer.panel.goToTurn(0),
  End: (viewer) => viewer.panel.goToTurn(viewer.panel.lastTurn),
  '-': (viewer) => viewer.panel.player.changeSpeed(-1),
  '+': (viewer) => viewer.panel.player.changeSpeed(1),
  p: (viewer) => viewer.chooseGameBeside(-1),
  n: (viewer) => viewer.chooseGameBeside(1),
};

function sizeText(bytes) {
  return bytes < 1e6 ? `${Math.ceil(bytes / 1e3)} kB` : `${(bytes / 1e6).toFixed(1)} MB`;
}

/** The message that the transcript does not contain the place that the address names. */
function noticeOf(place, isGame, isStay) {
  if (!isGame) {
    return `The transcript has no game ${place.game}.`;
  }
  const what = isStay ? `turn ${place.turn} in round ${place.round}` : `stay ${place.stay}`;
  return `The game ${place.game} has no ${what}.`;
}

/** The elements of the page that have an id, by their ids. */
function elementsOfPage() {
  const elements = [...document.querySelectorAll('[id]')];
  return Object.fromEntries(elements.map((element) => [element.id, element]));
}

class Viewer {
  constructor(page) {
    this.page = page;
    this.opened = 0;
    this.transcript = null;
    this.table = new GamesTable(page.games, (game) => this.chooseGame(game));
    this.strays = new LongList(page.strays, strayItem);
    this.panel = new GamePanel(
      page, (game) => this.table.markChosen(game), (fault) => this.showFault(fault));
    this.setState('empty');
  }

  setState(state) {
    document.body.dataset.state = state;
  }

  /** Shows the message of a fault. An error in the viewer itself also goes to the console. */
  showFault(fault) {
    this.page.notice.textContent = fault.message;
    if (!(fault instanceof TranscriptFault)) {
      throw fault;
    }
  }

  /** Opens the file that `reading` resolves to, in place of the one that was open or opening. */
  async open(name, reading) {
    this.opened += 1;
    const opened = this.opened;
    const isWanted = () => opened === this.opened;
    this.leave(name);
    try {
      const file = await reading;
      this.page.progress.max = Math.max(1, file.size);
      const onProgress = (reached) => this.showProgress(reached, file.size);
      const transcript = await findTranscript(file, onProgress, isWanted);
      const endings = transcript && await endingsOf(transcript);
      if (isWanted()) {
        this.show(transcript, endings, file.size);
      }
    } catch (fault) {
      if (isWanted()) {
        this.setState('fault');
        const isOfFile = fault instanceof TranscriptFault;
        const message = `${name} can't be shown. ${fault.message}`;
        this.showFault(isOfFile ? new TranscriptFault(message) : fault);
      }
    }
  }

  leave(name) {
    this.setState('opening');
    this.transcript = null;
    this.panel.close();
    this.page.notice.textContent = '';
    this.page.file.textContent = name;
    this.page.progress.value = 0;
    this.page.size.textContent = '';
  }

  showProgress(reached, size) {
    this.page.progress.value = reached;
    this.page.size.textContent = `${sizeText(reached)} of ${sizeText(size)}`;
  }

  show(transcript, endings, size) {
    this.transcript = transcript;
    const lines = transcript.starts.length.toLocaleString('en');
    this.page.size.textContent = `${sizeText(size)}, ${lines} lines`;
    this.panel.open(transcript);
    this.table.show(endings);
    this.strays.show(transcript.strays);
    this.setState('open');
    if (!this.goToAddress() && transcript.games.length > 0) {
      this.showGame(transcript.games[0]);
    }
  }

  chooseGame(game) {
    this.page.notice.textContent = '';
    this.showGame(game);
  }

  /** Shows a game from its beginning. */
  showGame(game) {
    if (game.rounds.length === 0) {
      this.panel.showWithoutBoard(game);
    } else {
      this.panel.player.pause();
      this.panel.goTo(game, game.rounds[0], 0);
    }
  }

  chooseGameBeside(step) {
    const game = this.table.gameBeside(step);
    if (game && game !== this.panel.game) {
      this.chooseGame(game);
    }
  }

  /** Goes to the turn that the address names. Returns whether the transcript contains it. */
  goToAddress() {
    const place = placeInAddress(location.hash);
    if (!place || !this.transcript) {
      return false;
    }
    const stays = this.transcript.staysOf(place.game);
    const game = stays[numberInAddress(place.stay) - 1];
    const number = numberInAddress(place.round);
    const turn = numberInAddress(place.turn);
    this.page.notice.textContent = '';
    if (game?.rounds[number - 1]?.boards[turn] === undefined) {
      this.page.notice.textContent = noticeOf(place, stays.length > 0, game !== undefined);
      return false;
    }
    this.panel.player.pause();
    this.panel.goTo(game, game.rounds[number - 1], turn);
    return true;
  }
}

/** Whether the element that has the focus handles a key itself. */
function isKeyOfElement(event) {
  const takesKeys = event.target.closest?.('input, select') ?? null;
  const takesSpace = event.target.closest?.('button, a, summary') !== null;
  return takesKeys !== null || (event.key === ' ' && takesSpace);
}

function listenToKeys(viewer) {
  document.addEventListener('keydown', (event) => {
    const answer = KEYS[event.key];
    const isCommand = event.ctrlKey || event.altKey || event.metaKey;
    if (!answer || isCommand || isKeyOfElement(event) || !viewer.transcript) {
      return;
    }
    event.preventDefault();
    answer(viewer, event.shiftKey);
  });
}

function listenToFiles(viewer, page) {
  const open = (file) => {
    if (file) {
      setAnswers([]);
      forgetAddress(viewer.transcript !== null);
      viewer.open(file.name, Promise.resolve(file));
    }
  };
  page.choose.addEventListener('change', () => {
    open(page.choose.files[0]);
    page.choose.value = '';
  });
  document.addEventListener('dragover', (event) => event.preventDefault());
  document.addEventListener('drop', (event) => {
    event.preventDefault();
    open(event.dataTransfer.files[0]);
  });
}

/** The transcript that is in the page itself, as a file; the ladder writes such pages. */
function heldFile(element) {
  return Promise.resolve(new Blob([element.textContent]));
}

/** Fetches a transcript, after the looks and answers of its snakes if such files are named. */
async function fetchWithMore(name, looks, answers) {
  if (looks) {
    setLooks((await fetchNamed(looks)) ?? {});
  }
  if (answers) {
    setAnswers(await fetchNamed(answers));
  }
  return fetchFile(name);
}

/** Plays a game that a ladder's page has opened, unless the address names a turn. */
async function playFromLadder(viewer, isAtTurn) {
  const isCalm = matchMedia('(prefers-reduced-motion: reduce)').matches;
  const { game } = viewer.panel.asked;
  if (document.body.dataset.from === 'ladder' && game) {
    document.title = `${game.name} – Ladder`;
    if (!isAtTurn && !isCalm) {
      await viewer.panel.togglePlaying();
    }
  }
}

function beginViewer() {
  const page = elementsOfPage();
  const viewer = new Viewer(page);
  listenToFiles(viewer, page);
  listenToKeys(viewer);
  showSamples(page.samples, (name) => {
    forgetAddress(true);
    viewer.open(`sample ${name}`, loadSample(name));
  });
  window.addEventListener('hashchange', () => viewer.goToAddress());
  const name = fileInAddress(location.search);
  showWayBack(page.back_link, location.search);
  if (page.transcript) {
    setAnswers(JSON.parse(page.answers?.textContent ?? '[]'));
    viewer.open(page.transcript.title, heldFile(page.transcript));
  } else if (name) {
    const { search, hash } = location;
    const reading = fetchWithMore(name, looksInAddress(search), answersInAddress(search));
    viewer.open(name, reading).then(() => playFromLadder(viewer, hash !== ''));
  }
}

beginViewer();
