// The samples of the start page: a button for each, whose transcript is loaded when it is pressed.
'use strict';

// By name, the transcripts that were loaded; each script of samples/ adds its own.
const SAMPLES = {};

const SAMPLE_TITLES = {
  duel: 'Two snakes, until one is out',
  eight: 'Eight snakes on a larger board',
  wrapped: 'Four snakes on a board whose edges are joined',
};

/** Loads the transcript of a sample as a file. A script can be loaded from a folder, too. */
function loadSample(name) {
  return new Promise((resolve, reject) => {
    const script = made('script', { src: `samples/${name}.js` });
    script.addEventListener('load', () => resolve(new Blob([SAMPLES[name]])));
    script.addEventListener(
      'error', () => reject(new TranscriptFault('The folder samples/ is missing.')));
    document.head.append(script);
  });
}

/** Fills the start page with a button for each sample. */
function showSamples(place, onSample) {
  for (const [name, title] of Object.entries(SAMPLE_TITLES)) {
    const button = made('button', { type: 'button', id: `sample-${name}` }, title);
    button.addEventListener('click', () => onSample(name));
    place.append(button);
  }
}
