// Splits a file into lines, slice by slice, so that the page stays responsive for large files.
'use strict';

const SLICE_BYTES = 512 * 1024;
const LINE_FEED = 10;

/** The reason why a file is no transcript. */
class TranscriptFault extends Error {}

/** Concatenates two byte arrays. */
function joined(first, second) {
  const both = new Uint8Array(first.length + second.length);
  both.set(first);
  both.set(second, first.length);
  return both;
}

/**
 * Splits bytes that begin at `place` of a file: the complete lines, without their line feeds, and
 * the bytes after the last line feed.
 */
function cutLines(bytes, place) {
  const lines = [];
  let from = 0;
  for (let end = bytes.indexOf(LINE_FEED); end >= 0; end = bytes.indexOf(LINE_FEED, from)) {
    lines.push({ start: place + from, bytes: bytes.subarray(from, end) });
    from = end + 1;
  }
  return { lines, rest: bytes.subarray(from) };
}

/**
 * The lines between two places of a file, slice by slice. The browser draws and handles events
 * while a slice is read. Each slice has its lines, the place that was reached, and the number of
 * bytes after the last line feed.
 */
async function* lineSlices(file, from, to) {
  let rest = new Uint8Array(0);
  for (let place = from; place < to; place += SLICE_BYTES) {
    const reached = Math.min(place + SLICE_BYTES, to);
    const slice = new Uint8Array(await file.slice(place, reached).arrayBuffer());
    const cut = cutLines(joined(rest, slice), place - rest.length);
    rest = cut.rest;
    yield { lines: cut.lines, reached, unfinished: rest.length };
  }
}
