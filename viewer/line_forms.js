// The forms of the lines of a transcript. A form is recognised by the two ends of a line, without
// parsing the board between them.
'use strict';

const HEAD_BYTES = 32;
// More than can follow a board: a name has 64 bytes, and JSON writes each in at most six.
const TAIL_BYTES = 640;

const JSON_TEXT = String.raw`"(?:[^"\\]|\\.)*"`;
const WITH_BOARD = String.raw`^\{"board":\{"food":\[.*"turn":(?<turn>\d+),"width":\d+\},`
  + String.raw`"charge":(?<charge>\d+)`;
const OF_GAME = `"game":(?<game>${JSON_TEXT})`;
const NUMBERED = String.raw`"seq":(?<seq>\d+)`;

const LINE_FORMS = Object.entries({
  shown: String.raw`${WITH_BOARD},"do":"(?<word>new|move|show|turn)",${OF_GAME},${NUMBERED}\}$`,
  refused: String.raw`^\{${OF_GAME},"no":"(?<reason>G[1-7])",${NUMBERED},"why":"(?<why>[a-z]+)"\}$`,
  unshown: String.raw`^\{"charge":\d+,"do":"(?<word>free|end)",${OF_GAME},${NUMBERED}\}$`,
  final: String.raw`${WITH_BOARD},"final":true,${OF_GAME}\}$`,
  finalWithout: String.raw`^\{"board":null,"charge":(?<charge>\d+),"final":true,${OF_GAME}\}$`,
  stray: String.raw`^\{"line":(?<line>\d+),"no":"(?<reason>L[1-3]|A[1-5])",`
    + String.raw`"why":"(?<why>[a-z]+)"\}$`,
}).map(([name, pattern]) => ({ name, pattern: new RegExp(pattern, 's') }));

const lineDecoder = new TextDecoder();

/** The text of a line, or only its two ends if it is long. */
function endsOf(bytes) {
  if (bytes.length <= HEAD_BYTES + TAIL_BYTES) {
    return lineDecoder.decode(bytes);
  }
  const head = lineDecoder.decode(bytes.subarray(0, HEAD_BYTES));
  return head + lineDecoder.decode(bytes.subarray(-TAIL_BYTES));
}

/** Why a line that has none of the forms is no line of a transcript, in words. */
function strangeness(bytes) {
  const ends = endsOf(bytes);
  if (/^\s*\{\s*"(?:games|version)"\s*:/.test(ends)) {
    return 'is a plan: this is a command file, of which arena serve writes the transcript';
  }
  if (ends.endsWith('}\r')) {
    return 'ends with a carriage return, as no line of a transcript does';
  }
  return 'is no line of a transcript';
}

/**
 * The form of a line and the members at its ends: numbers as numbers, the game's name as its JSON
 * text. Null if the line has none of the forms.
 */
function parseLine(bytes) {
  const ends = endsOf(bytes);
  for (const { name, pattern } of LINE_FORMS) {
    const match = pattern.exec(ends);
    if (match) {
      const parsed = { ...match.groups, form: name };
      for (const number of ['turn', 'charge', 'seq', 'line']) {
        if (parsed[number] !== undefined) {
          parsed[number] = Number(parsed[number]);
        }
      }
      return parsed;
    }
  }
  return null;
}
