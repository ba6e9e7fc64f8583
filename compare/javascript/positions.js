// What the engine's strings and its JSON return for byte positions, lines and JSON strings.
'use strict';
const { dumpOf } = require('./units.js');

// The length of a string in bytes of WTF-8. The engine's encoder replaces a lone surrogate by U+FFFD, which has three
// bytes too.
const byteLength = (text) => Buffer.byteLength(text, 'utf8');

// Whether an index is between the two halves of a surrogate pair.
const dividesPair = (text, at) => 0 < at && 0xFFFF < text.codePointAt(at - 1);

// The number of units before the last boundary at or before an index.
const roundedDown = (text, at) => (dividesPair(text, at) ? at - 1 : at);

// The byte position of the last boundary at or before an index.
const positionAt = (text, at) => byteLength(text.slice(0, roundedDown(text, at)));

// The number of units before the last boundary at or before a byte position.
function unitBefore(text, position) {
  let units = 0;
  let bytes = 0;
  for (const point of text) {
    bytes += byteLength(point);
    if (position < bytes) break;
    units += point.length;
  }
  return units;
}

// A byte position and the number of units before it as a transcript shows them, for an index that is a boundary.
const markAt = (text, at) => `${positionAt(text, at)}:${at}`;

// The indexes at which lines start.
const lineStarts = (text) => [0, ...Array.from(text.matchAll(/\n/g), (found) => found.index + 1)];

// The line and the column of a byte position.
function columnAt(text, position) {
  const lines = text.slice(0, unitBefore(text, position)).split('\n');
  return `${lines.length - 1}:${lines.at(-1).length}`;
}

// The starts of all lines, then the line and the column of each byte position up to the length.
function linesOf(text) {
  const starts = lineStarts(text).map((start) => ` ${markAt(text, start)}`);
  const columns = Array.from({ length: byteLength(text) + 1 }, (_, position) => ` ${columnAt(text, position)}`);
  return `lines${starts.join('')}\ncolumns${columns.join('')}`;
}

// The mark at a line and a column. There is none after the last line or past the end of the string.
function markAtColumn(text, line, column) {
  const at = lineStarts(text)[line] + column;
  return at <= text.length ? markAt(text, roundedDown(text, at)) : '-';
}

// The JSON texts of two strings, one after the other, in hexadecimal.
const jsonOf = (first, second) => dumpOf(Buffer.from(JSON.stringify(first) + JSON.stringify(second), 'utf8'));

// The engine's error for a JSON text, or undefined if it reads it.
function errorOf(text) {
  try {
    JSON.parse(text);
    return undefined;
  } catch (error) {
    return error;
  }
}

const isJson = (text) => errorOf(text) === undefined;

// The JSON string at the front of a text and what follows it, or undefined if there is none.
function readJson(text) {
  if (text[0] !== '"') return undefined;
  for (let end = text.indexOf('"', 1); 0 < end; end = text.indexOf('"', end + 1)) {
    const front = text.slice(0, end + 1);
    if (isJson(front)) return [JSON.parse(front), text.slice(end + 1)];
  }
  return undefined;
}

// The index at which an error of the engine says that a JSON string is malformed, of an escape that of its backslash; for
// some errors the engine names none.
function namedIndex(text, message, cause) {
  const found = / at position (\d+)/.exec(message);
  if (found === null) return undefined;
  return cause === 'escape' ? text.lastIndexOf('\\', found[1] - 1) : Number(found[1]);
}

// The byte position and the cause of the error of a text that begins with no JSON string: the position is the end of the
// longest front that a quotation mark closes, and the cause is what the engine's message says.
function jsonError(text) {
  if (text[0] !== '"') return '0 not opened';
  let at = text.length;
  while (!isJson(`${text.slice(0, at)}"`)) at--;
  const { message } = errorOf(text);
  const cause = message.startsWith('Bad control character') ? 'control character' : message.startsWith('Unterminated') ? 'not closed' : 'escape';
  const named = namedIndex(text, message, cause);
  if (named !== undefined && named !== at) throw new Error(`${message}, and not at ${at}`);
  return `${positionAt(text, at)} ${cause}`;
}

module.exports = { byteLength, positionAt, unitBefore, linesOf, lineStarts, markAtColumn, jsonOf, readJson, jsonError };
