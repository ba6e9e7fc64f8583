// Scripts of calls on `UnitText`s and on the indexed string, and what the engine's own strings return for them.
//     node text_calls.js random SEED CASES FOLDER   random scripts
//     node text_calls.js lists FOLDER               all lists of at most three units out of nine, and long texts, by all
//                                              calls; short texts of lines, and of what is in JSON strings; the lists
//                                              and long strings in which units are replaced
//     node text_calls.js marks SEED CASES FOLDER    long texts with and without marks, and CASES random scripts of these
//     node text_calls.js fixed FOLDER               examples, long texts and some hundred others for the gate to replay;
//                                              they follow the scripts of strings in FOLDER, in place of the old ones
// Each writes the scripts to FOLDER/stdin, one a line in hexadecimal, and their transcripts to FOLDER/stdout, each with
// an empty line after it.
'use strict';
const fs = require('fs');
const path = require('path');
const { hex, textOf, listOf } = require('./units.js');
const { INDEXED_OPCODES, INDEXED_CALLS, indexedOperands, bytesOfNumber } = require('./indexed_calls.js');
const { byteLength, positionAt, unitBefore, linesOf, lineStarts, markAtColumn, jsonOf, readJson, jsonError } = require('./positions.js');

const NINE = [0x0061, 0x00E9, 0xD7FF, 0xD800, 0xDBFF, 0xDC00, 0xDFFF, 0xE000, 0xFFFF];

// ASCII white space, and nine units that are white space or similar.
const SPACES = [0x20, 0x09, 0x0A, 0x0B, 0x0C, 0x0D];
const ABOUT_SPACES = [0x08, 0x09, 0x0D, 0x0E, 0x20, 0x21, 0xA0, 0x0120, 0xD800];

// A string as a transcript shows it: its length and its units.
function unitsOf(text) {
  let units = `${text.length} units:`;
  for (let i = 0; i < text.length; i++) units += hex(text.charCodeAt(i), 4);
  return units;
}

// A string of one unit as a transcript shows it.
const shown = (unit) => (unit === undefined ? '-' : hex(unit.charCodeAt(0), 4));

// The opcodes of the calls. crates/compare_scripts/src/opcodes.rt says what each call does.
const OPCODES = {
  set: 64,
  swap: 65,
  slice: 66,
  concat: 67,
  length: 68,
  unitAt: 69,
  substring: 70,
  charAt: 71,
  startsWith: 72,
  compare: 73,
  cutEverywhere: 74,
  mark: 75,
  indexOf: 76,
  at: 77,
  codePointAt: 78,
  isWellFormed: 79,
  split: 80,
  padStart: 81,
  repeat: 82,
  trim: 83,
  replace: 84,
  toWellFormed: 85,
  push: 86,
  lastIndexOf: 87,
  endsWith: 88,
  fromStr: 89,
  pushStr: 90,
  pushWtf8: 91,
  throughWtf8: 92,
  positionAt: 93,
  unitBefore: 94,
  truncate: 95,
  lines: 96,
  markAtColumn: 97,
  json: 98,
  readJson: 99,
  new: 101,
  clone: 102,
  pushUnits: 103,
  unitsFrom: 104,
  ...INDEXED_OPCODES,
};

// What each call returns over the two texts of a state, its indexed string and its other strings.
const CALLS = {
  new: (state) => unitsOf((state.first = '')),
  clone: (state) => unitsOf((state.first = state.second)),
  set: (state, ...units) => unitsOf((state.first = textOf(units))),
  swap: (state) => {
    [state.first, state.second] = [state.second, state.first];
    return 'swapped';
  },
  length: (state) => `length ${state.first.length}`,
  unitAt: (state, at) => {
    const code = state.first.charCodeAt(at);
    return `unit ${shown(state.first[at])} ${Number.isNaN(code) ? '-' : hex(code, 4)}`;
  },
  slice: (state, begin, end) => {
    if (end < begin || state.first.length < end) return 'refused';
    return unitsOf((state.first = state.first.slice(begin, end)));
  },
  substring: (state, first, second) => unitsOf(state.first.substring(first, second)),
  charAt: (state, at) => unitsOf(state.first.charAt(at)),
  startsWith: (state, at) => `starts ${state.first.startsWith(state.second, at)}`,
  concat: (state) => unitsOf((state.first += state.second)),
  compare: ({ first, second }) => {
    const order = first < second ? 'less' : first > second ? 'greater' : 'equal';
    return `order ${order} lt ${first < second} gt ${second < first} eq ${first === second}`;
  },
  cutEverywhere: ({ first }) => {
    let whole = 0;
    for (let at = 0; at <= first.length; at++) {
      const cut = first.slice(0, at) + first.slice(at);
      if (cut === first) whole += 1;
    }
    return `whole ${whole}`;
  },
  mark: ({ first }) => unitsOf(first),
  indexOf: ({ first, second }, from) => {
    const at = first.indexOf(second, from);
    return `index ${at < 0 ? '-' : at}`;
  },
  lastIndexOf: ({ first, second }, from) => {
    const at = first.lastIndexOf(second, from);
    return `last index ${at < 0 ? '-' : at}`;
  },
  endsWith: ({ first, second }, at) => `ends ${first.endsWith(second, at)}`,
  at: ({ first }, at) => `at ${shown(first.at(at))} ${shown(first.at(-at))}`,
  codePointAt: ({ first }, at) => {
    const point = first.codePointAt(at);
    return `point ${point === undefined ? '-' : `U+${hex(point, 4)}`}`;
  },
  isWellFormed: ({ first }) => `well formed ${first.isWellFormed()}`,
  split: ({ first }, unit) => {
    const pieces = first.split(String.fromCharCode(unit));
    return [`${pieces.length} pieces`, ...pieces.map(unitsOf)].join('\n');
  },
  padStart: (state, width) => unitsOf((state.first = state.first.padStart(width, state.second))),
  repeat: (state, count) => unitsOf((state.first = state.first.repeat(count))),
  trim: (state) => unitsOf((state.first = state.first.replace(/^[\t-\r ]+|[\t-\r ]+$/g, ''))),
  replace: (state, ...units) => unitsOf((state.first = state.first.replace(state.second, () => textOf(units)))),
  toWellFormed: (state) => unitsOf((state.first = state.first.toWellFormed())),
  push: (state, ...units) => {
    for (const unit of units) state.first += String.fromCharCode(unit);
    return unitsOf(state.first);
  },
  pushUnits: (state, ...units) => unitsOf((state.first += textOf(units))),
  fromStr: (state, text) => unitsOf((state.first = text)),
  pushStr: (state, text) => unitsOf((state.first += text)),
  pushWtf8: (state, ...units) => unitsOf((state.first += textOf(units))),
  throughWtf8: ({ first }) => unitsOf(first),
  positionAt: ({ first }, at) => (first.length < at ? 'refused' : `position ${positionAt(first, at)}`),
  unitBefore: ({ first }, position) => `units before ${unitBefore(first, position)}`,
  unitsFrom: ({ first }, at) => {
    if (first.length < at) return 'refused';
    return ['units from', ...listOf(first.slice(at)).map((unit) => hex(unit, 4))].join(' ');
  },
  truncate: (state, length) => (state.first.length < length ? 'refused' : unitsOf((state.first = state.first.slice(0, length)))),
  lines: ({ first }) => linesOf(first),
  markAtColumn: ({ first }, line, column) => `mark ${markAtColumn(first, line, column)}`,
  json: ({ first, second }) => `json: ${jsonOf(first, second)}\nsame true`,
  readJson: ({ first }) => {
    const parts = readJson(first);
    return parts === undefined ? `malformed ${jsonError(first)}` : `read ${unitsOf(parts[0])}\nrest ${unitsOf(parts[1])}`;
  },
  ...INDEXED_CALLS,
};

// The state in which a script begins.
const emptyState = () => ({ first: '', second: '', indexed: '', strings: ['', '', '', ''] });

// The calls whose operands are units, those whose operand is a well-formed string, and those that change a string.
const OF_UNITS = ['set', 'replace', 'push', 'pushUnits', 'pushWtf8'];
const OF_TEXT = ['fromStr', 'pushStr'];
const CHANGING_TEXTS = [...OF_UNITS, ...OF_TEXT, 'new', 'clone', 'swap', 'slice', 'truncate', 'concat', 'padStart', 'repeat', 'trim', 'toWellFormed'];
const CHANGING = [...CHANGING_TEXTS, 'indexedFromUnits', 'indexedFromBuf', 'indexedIntoBuf', 'indexedReplaceUnits', 'indexedReplace'];

// A well-formed string in hexadecimal: the number of its bytes in UTF-8, at most 255, and the bytes.
function utf8Of(text) {
  const bytes = Buffer.from(text, 'utf8');
  return hex(bytes.length, 2) + bytes.toString('hex').toUpperCase();
}

// The operands of a call: a string, or numbers. If they are units, their count comes first.
function operandsOf(name, operands) {
  if (Object.hasOwn(INDEXED_CALLS, name)) return indexedOperands(name, operands);
  if (OF_TEXT.includes(name)) return utf8Of(operands[0]);
  return (OF_UNITS.includes(name) ? [operands.length, ...operands] : operands).map(bytesOfNumber).join('');
}

// A script as a line: each call's opcode and its operands.
function lineOf(calls) {
  return calls.map(([name, ...operands]) => hex(OPCODES[name], 2) + operandsOf(name, operands)).join('') + '\n';
}

// The transcript of a script: what its calls return, and an empty line.
function transcriptOf(calls) {
  const state = emptyState();
  return calls.map(([name, ...operands]) => CALLS[name](state, ...operands) + '\n').join('') + '\n';
}

// A generator of random numbers below a bound, by a seed.
function randomBelow(seed) {
  let state = BigInt(seed) * 2n + 1n;
  return (bound) => {
    state = (state * 6364136223846793005n + 1442695040888963407n) & 0xFFFFFFFFFFFFFFFFn;
    return Number((state >> 33n) % BigInt(bound));
  };
}

// A random unit, a surrogate more often than any other.
function randomUnit(below) {
  switch (below(6)) {
    case 0: return NINE[below(NINE.length)];
    case 1: return below(0x80);
    case 2: return below(0x10000);
    case 3: return 0xDC00 + below(0x400);
    default: return 0xD800 + below(0x800);
  }
}

// A random list of units. One list in eight is long.
function randomUnits(below) {
  const length = below(8) === 0 ? below(301) : below(8);
  return Array.from({ length }, () => randomUnit(below));
}

// A well-formed string of the units, of at most 255 bytes in UTF-8.
const wellFormed = (units) => textOf(units.slice(0, 80)).toWellFormed();

// A random unit other than `unit`.
const anotherUnit = (unit, below) => (unit + 1 + below(0xFFFF)) & 0xFFFF;

// A list with one unit changed, mostly one of the last eight.
function changed(units, below) {
  if (units.length === 0) return units;
  const near = below(3) === 0 ? units.length : Math.min(units.length, 8);
  const at = units.length - 1 - below(near);
  return units.with(at, anotherUnit(units[at], below));
}

// A second list for a first: equal, with one unit changed, shorter, longer, a piece of it from an index, changed or
// not, or any other.
function neighbour(units, at, below) {
  const piece = units.slice(at, at + 1 + below(units.length + 1));
  switch (below(8)) {
    case 0: return units;
    case 1: case 2: return changed(units, below);
    case 3: return units.slice(0, Math.max(0, units.length - 1 - below(8)));
    case 4: return [...units, ...randomUnits(below).slice(0, 1 + below(3))];
    case 5: return piece;
    case 6: return changed(piece, below);
    default: return randomUnits(below);
  }
}

// Units that `replace` inserts. One list in three begins with `$`, which `String.prototype.replace` would interpret.
function randomReplacement(below) {
  if (below(3) === 0) return [0x24, 0x24 + below(14)];
  return randomUnits(below).slice(0, 4);
}

// Units with white space before and after them, and sometimes with a unit that is only similar to it.
function spaced(units, below) {
  const space = () => (below(6) === 0 ? ABOUT_SPACES[below(ABOUT_SPACES.length)] : SPACES[below(SPACES.length)]);
  const spaces = () => Array.from({ length: below(6) === 0 ? below(40) : below(5) }, space);
  return [...spaces(), ...units, ...spaces()];
}

// Random calls that search a string for a piece of it, about an index; its successors take two bytes too.
function searchCalls(first, at, below) {
  const index = Math.min(at, 0xFFF0);
  const piece = listOf(first.slice(index, index + 1 + below(4)));
  const calls = [['swap'], ['set', ...(below(4) === 0 ? changed(piece, below) : piece)], ['swap']];
  calls.push(['indexOf', Math.max(0, index - below(12))], ['indexOf', index], ['indexOf', index + 1]);
  calls.push(['lastIndexOf', index + below(12)], ['lastIndexOf', Math.max(0, index - 1)], ['endsWith', index + piece.length]);
  return below(2) === 0 ? calls : [...calls, ['replace', ...randomReplacement(below)]];
}

// One random call or a few related ones that make another string of the first, or read the whole of it.
function randomMakingCalls(first, index, below) {
  const unit = below(3) === 0 || first === '' ? randomUnit(below) : first.charCodeAt(below(first.length));
  switch (below(7)) {
    case 0: return [['isWellFormed'], ['toWellFormed'], ['isWellFormed']];
    case 1: return [['split', unit]];
    case 2: return [['padStart', Math.max(0, first.length + below(12) - 3)]];
    case 3: return [['repeat', first.length > 200 ? 1 + below(2) : first.length > 12 ? below(6) : below(60)]];
    case 4: return [['set', ...spaced(listOf(first), below)], ['trim']];
    case 5: return [['padStart', first.length + below(300)]];
    default: return searchCalls(first, index, below);
  }
}

// One random call or a few related ones, for the current strings.
function randomCalls({ first }, below) {
  const at = () => (below(40) === 0 ? below(0x10000) : below(first.length + 3));
  const index = at();
  if (first.length < 900 && below(3) === 0) return randomMakingCalls(first, index, below);
  switch (below(22)) {
    case 0: return [['set', ...randomUnits(below)]];
    case 1: return [['swap']];
    case 2: return [['length']];
    case 3: return [['unitAt', index]];
    case 4: return [['slice', ...[index, at()].sort((one, other) => one - other)]];
    case 5: return [['slice', index, at()]];
    case 6: return [['substring', index, at()]];
    case 7: return [['charAt', index]];
    case 8: return [['startsWith', index]];
    case 9: return first.length > 600 ? [['length']] : [['concat'], ['compare']];
    case 10: return [['compare'], ['swap'], ['compare']];
    case 11: return first.length > 300 ? [['length']] : [['cutEverywhere']];
    case 12: return first.length > 900 ? [['length']] : [['indexOf', index]];
    case 13: return [['at', index]];
    case 14: return [['codePointAt', index]];
    case 15: return first.length > 600 ? [['length']] : [['push', ...randomUnits(below)], ['compare'], ['unitAt', first.length]];
    case 16: return first.length > 600 ? [['length']] : [['pushWtf8', ...randomUnits(below)], ['compare'], ['unitAt', first.length]];
    case 17: return first.length > 600 ? [['length']] : [['pushStr', wellFormed(randomUnits(below))], ['unitAt', first.length]];
    case 18: return [['throughWtf8'], ['unitAt', index]];
    case 19: return [['fromStr', wellFormed(randomUnits(below))], ['compare'], ['length']];
    default: {
      const others = neighbour(listOf(first), index, below);
      return [['swap'], ['set', ...others], ['swap'], ['compare'], ['startsWith', index], ['swap'], ['compare'], ['swap']];
    }
  }
}

// A script of the calls `first` and then, `more` times, the calls that `callsOn` returns for the current strings.
function scriptOf(first, more, callsOn, below) {
  const state = emptyState();
  const calls = [];
  const add = (added) => {
    for (const [name, ...operands] of added) {
      if (CHANGING.includes(name)) CALLS[name](state, ...operands);
    }
    calls.push(...added);
  };
  add(first);
  for (let i = 0; i < more; i++) add(callsOn(state, below));
  return calls;
}

// A random script whose calls `callsOn` returns.
function randomScript(below, callsOn) {
  const first = [['set', ...randomUnits(below)], ['swap'], ['set', ...randomUnits(below)]];
  return scriptOf(first, 1 + below(12), callsOn, below);
}

// Calls that the random scripts of the fixed list do without, so that these stay as they are.
function callsBetween({ first }, below) {
  const index = below(first.length + 3);
  switch (below(8)) {
    case 0: return [['new'], ['length'], ['push', ...randomUnits(below)]];
    case 1: return [['clone'], ['compare'], ['push', randomUnit(below)], ['compare']];
    case 2: case 3: return [['unitsFrom', index]];
    default: return first.length > 600 ? [['length']] : [['pushUnits', ...randomUnits(below)], ['compare'], ['unitAt', first.length], ['unitsFrom', index]];
  }
}

// Random calls; in one case of four a call of a kind that the fixed list does not draw, or a few.
const allCalls = (state, below) => (below(4) === 0 ? callsBetween(state, below) : randomCalls(state, below));

// All lists of at most `most` units out of `some`.
function listsOf(some, most) {
  let longest = [[]];
  const all = [[]];
  for (let length = 1; length <= most; length++) {
    longest = longest.flatMap((list) => some.map((unit) => [...list, unit]));
    all.push(...longest);
  }
  return all;
}

// Calls that read a whole string, and calls that make another of it, each followed by `anew`, which restores it.
function makingCalls(units, anew) {
  const calls = [['isWellFormed'], ...[...new Set([0x61, ...units.slice(0, 3)])].map((unit) => ['split', unit])];
  const making = [['repeat', 0], ['repeat', 2], ['repeat', 3], ['trim'], ['toWellFormed'], ['replace'], ['replace', 0x24, 0x26]];
  for (const more of [0, 1, 2, 5]) making.push(['padStart', units.length + more]);
  return [...calls, ...making.flatMap((call) => [call, ...anew])];
}

// The calls on a list, at every index up to one past its end.
function listScript(units) {
  const calls = [['set', ...units], ['length'], ['cutEverywhere'], ...makingCalls(units, [['set', ...units]])];
  for (let at = 0; at <= units.length + 1; at++) {
    calls.push(['unitAt', at], ['charAt', at], ['at', at], ['codePointAt', at]);
    for (let other = 0; other <= units.length + 1; other++) {
      calls.push(['substring', at, other], ['slice', at, other], ['set', ...units]);
    }
  }
  return calls;
}

// Two lists: compared, the second searched in the first at every index, and appended to it, at once and unit by unit.
function pairScript(units, others) {
  const calls = [['set', ...others], ['swap'], ['set', ...units], ['compare']];
  for (let at = 0; at <= units.length + 1; at++) calls.push(['startsWith', at], ['indexOf', at], ['lastIndexOf', at], ['endsWith', at]);
  calls.push(...makingCalls(units, [['set', ...units]]));
  calls.push(['concat'], ['length'], ['compare'], ['cutEverywhere'], ['indexOf', 0], ['replace', 0x24, 0x60]);
  calls.push(['set', ...units], ['push', ...others], ['length'], ['compare'], ['cutEverywhere']);
  calls.push(['set', ...units], ['pushWtf8', ...others], ['length'], ['compare'], ['throughWtf8'], ['length']);
  calls.push(['fromStr', wellFormed(units)], ['length'], ['pushStr', wellFormed(others)], ['length'], ['compare']);
  return calls;
}

// A list trimmed, without and with a space before it and a line feed after it.
const trimScript = (units) => [['set', ...units], ['trim'], ['set', 0x20, ...units, 0x0A], ['trim']];

function listScripts() {
  const short = listsOf(NINE, 2);
  const scripts = listsOf(NINE, 3).map(listScript);
  for (const units of short) for (const others of short) scripts.push(pairScript(units, others));
  const ends = Array.from({ length: 0x180 }, (_, unit) => trimScript([unit, 0x61, unit]));
  return [...scripts, ...listsOf(ABOUT_SPACES, 3).map(trimScript), ends.flat()];
}

function randomScripts(seed, cases, callsOn) {
  const below = randomBelow(seed);
  return Array.from({ length: cases }, () => randomScript(below, callsOn));
}

// Units that long texts repeat: of one, two and three bytes, pairs, and all of these with lone surrogates.
const KINDS = [[0x61, 0x62, 0x63], [0xE9, 0x7FF, 0x80], [0x800, 0xD7FF, 0xE000], [0xD83D, 0xDCA9], [...NINE, 0xD83D, 0xDCA9]];
const textOfKind = (kind, length) => Array.from({ length }, (_, at) => kind[at % kind.length]);

// The indexes at both ends, and about those at which a block may begin.
function indexesOf(length) {
  const indexes = [0, 1, ...[8, 16, 32, 64, 128, 256].flatMap((edge) => [edge - 1, edge, edge + 1]), length - 2, length - 1];
  return [...new Set(indexes.filter((at) => 0 <= at && at < length))];
}

// A long text read unit by unit, and by pieces that begin or end at each index of `indexesOf`. The second text is
// equal, so that a slice to nothing and a concatenation restore the first.
function longScript(units) {
  const last = units.length - 1;
  const again = [['slice', 0, 0], ['concat']];
  const calls = [['set', ...units], ['swap'], ['push', ...units], ['length'], ['compare'], ...again, ['length'], ['compare']];
  for (let at = 0; at <= units.length + 1; at++) calls.push(['unitAt', at], ['charAt', at]);
  if (units.length < 40) calls.push(...makingCalls(units, again));
  calls.push(['padStart', 3 * units.length - 1], ...again);
  for (const at of indexesOf(units.length)) {
    calls.push(['substring', at + 3, at], ['substring', last + 3, Math.max(at, last - 9)], ['at', at], ['codePointAt', at]);
    calls.push(['slice', at, Math.min(at + 3, last + 1)], ...again);
  }
  if (units.length < 100) calls.push(['cutEverywhere'], ['concat'], ['length'], ['unitAt', 2 * last], ['slice', last, last + 2]);
  return calls;
}

// A long text against others made at some of its indexes: one unit changed, the units before, and the piece from there,
// which is searched in it; last, a text that is one unit longer.
function neighbourScript(units, indexes) {
  const calls = [['set', ...units], ['swap']];
  for (const at of indexes) {
    calls.push(['set', ...units.with(at, units[at] ^ 1)], ['compare'], ['set', ...units.slice(0, at)], ['compare'], ['swap'], ['compare']);
    for (const piece of [units.slice(at), units.slice(at).with(-1, units.at(-1) ^ 1)]) {
      calls.push(['swap'], ['set', ...piece], ['swap'], ['startsWith', at], ['startsWith', at + 1], ['indexOf', Math.max(0, at - 9)]);
      calls.push(['lastIndexOf', at], ['lastIndexOf', Math.max(0, at - 1)], ['endsWith', units.length], ['endsWith', units.length - 1]);
    }
    calls.push(['swap']);
  }
  calls.push(['set', ...units, 0x61], ['compare'], ['swap'], ['compare'], ['concat'], ['length'], ['compare']);
  return calls;
}

function longScripts() {
  return KINDS.flatMap((kind) => [
    ...[9, 17, 33, 66].map((length) => longScript(textOfKind(kind, length))),
    ...[10, 34].map((length) => neighbourScript(textOfKind(kind, length), indexesOf(length))),
  ]).concat([0, 4].flatMap((kind) => [
    ...[130, 300].map((length) => longScript(textOfKind(KINDS[kind], length))),
    neighbourScript(textOfKind(KINDS[kind], 300), [32, 64, 128, 256, 298, 299]),
  ]));
}

// The number of units between one mark and the next.
const SPACING = 128;

// The units of a long text by its kind, one or a pair at a time. Among pairs a single unit occurs now and then, so that
// a mark may divide a pair.
const KINDS_OF_MARKED = [
  (below) => [0x20 + below(0x5F)],
  (below) => [0x80 + below(0x780)],
  (below) => [0x4E00 + below(0x5200)],
  (below) => (below(50) === 0 ? [0x4E00] : [0xD800 + below(0x400), 0xDC00 + below(0x400)]),
  (below) => [0xD800 + below(0x800)],
  (below) => (below(30) === 0 ? [0xE9] : [0x61]),
  (below) => KINDS_OF_MARKED[below(6)](below),
];

// `length` units of a kind; a pair at the end may be cut.
function unitsOfKind(kind, length, below) {
  const units = [];
  while (units.length < length) units.push(...kind(below));
  return units.slice(0, length);
}

const anyUnits = (length, below) => unitsOfKind(KINDS_OF_MARKED[below(KINDS_OF_MARKED.length)], length, below);

// An index in a text or a little past its end, mostly about a multiple of `SPACING`.
function indexAbout(length, below) {
  if (below(3) === 0) return below(length + 3);
  return Math.max(0, SPACING * below(Math.ceil(length / SPACING) + 1) + below(5) - 2);
}

// A byte position about an index, mostly that of a boundary.
const positionAbout = (text, index, below) => positionAt(text, Math.min(index, text.length)) + (below(2) === 0 ? 0 : below(4));

// Reads the units about each multiple of `SPACING`, and pieces from there and up to there.
function readsAbout(length) {
  const calls = [];
  for (let edge = 0; edge <= length + 2; edge += SPACING) {
    for (let at = Math.max(0, edge - 2); at <= edge + 2; at++) {
      calls.push(['unitAt', at], ['substring', at, at + 3], ['substring', at, Math.max(0, at - SPACING - 1)]);
      calls.push(['at', at], ['codePointAt', at]);
    }
  }
  return calls;
}

// A text read without marks and with them, appended to one with marks, and cut between two marks.
function markedScript(units) {
  const looks = readsAbout(units.length);
  const calls = [['set', ...units], ...looks, ['mark'], ...looks, ['swap'], ['set', ...units], ['compare'], ['swap'], ['compare'], ['concat'], ['compare']];
  calls.push(...readsAbout(2 * units.length), ['slice', SPACING - 1, units.length + SPACING + 1], ...looks, ['mark'], ...looks);
  return calls;
}

// A text that grows by the same piece, at once or unit by unit, with marks from the start or without, read at the end
// of each piece.
function grownScript(way, piece, count, isMarked) {
  const append = OF_UNITS.includes(way) ? [way, ...piece] : [way];
  const calls = [['set', ...piece], ['swap'], ['set']];
  if (isMarked) calls.push(['mark']);
  for (let end = piece.length; end <= count * piece.length; end += piece.length) {
    calls.push(append, ['unitAt', end - 1], ['unitAt', end], ['substring', Math.max(0, end - piece.length - 1), end - 1]);
  }
  return [...calls, ...readsAbout(count * piece.length)];
}

// Each call that makes a text from others, with marks on these or on none; the result is read about each mark.
function madeScript(units, isMarked) {
  const marks = isMarked ? [['mark']] : [];
  const piece = units.slice(SPACING, 2 * SPACING + 1);
  const making = [['toWellFormed'], ['trim'], ['replace', ...units], ['repeat', 2], ['padStart', units.length + SPACING + 1]];
  const calls = [['set', ...piece], ...marks, ['swap']];
  for (const call of making) {
    calls.push(['set', ...units], ...marks, ['isWellFormed'], ['indexOf', 0], ['split', units[2]], call, ['length'], ...readsAbout(units.length));
  }
  return calls;
}

// A piece that begins with a trail and ends with a lead, so that it joins the units before and after it.
const joining = (units) => units.with(0, 0xDCA9).with(-1, 0xD83D);

function markedScripts(lengths, pieces) {
  const below = randomBelow(1);
  const scripts = KINDS_OF_MARKED.flatMap((kind) => lengths.map((length) => markedScript(unitsOfKind(kind, length, below))));
  for (const length of pieces) {
    const piece = anyUnits(length, below);
    const count = Math.ceil(1200 / length);
    for (const way of ['concat', 'push', 'pushWtf8']) {
      for (const isMarked of [false, true]) scripts.push(...[piece, joining(piece)].map((units) => grownScript(way, units, count, isMarked)));
    }
  }
  for (const kind of KINDS_OF_MARKED) scripts.push(...[false, true].map((isMarked) => madeScript(unitsOfKind(kind, 300, below), isMarked)));
  return scripts;
}

// A random call, or a few related ones, that appends a piece; as a well-formed string only its first units.
function appending(piece, below) {
  switch (below(5)) {
    case 0: return [['push', ...piece]];
    case 3: return [['pushUnits', ...piece]];
    case 1: return [['pushWtf8', ...piece]];
    case 2: return [['pushStr', wellFormed(piece)]];
    default: return [['swap'], ['set', ...piece], ['swap'], ['concat']];
  }
}

// One random call or a few related ones, for the current long texts.
function randomMarkedCalls({ first, second }, below) {
  const index = indexAbout(first.length, below);
  switch (below(36)) {
    case 0: return [['mark']];
    case 1: return [['swap']];
    case 33: return [['unitsFrom', Math.max(index, first.length - below(3 * SPACING))]];
    case 34: return [['unitsFrom', index]];
    case 35: return second.length === 0 ? [['length']] : [['clone'], ['unitAt', below(second.length)], ['mark']];
    case 2: return first.length + second.length > 6000 ? [['length']] : [['concat'], ['length']];
    case 3: case 4: {
      const any = anyUnits(1 + below(2 * SPACING), below);
      const piece = below(2) === 0 ? any : joining(any);
      return [...appending(piece, below), ['unitAt', first.length]];
    }
    case 5: return [['slice', ...[below(SPACING), indexAbout(first.length, below)].sort((one, other) => one - other)]];
    case 6: case 7: case 8: return [['substring', index, index + below(2 * SPACING)]];
    case 9: return [['substring', indexAbout(first.length, below), index]];
    case 10: return [['charAt', index]];
    case 11: return [['at', index]];
    case 12: return [['codePointAt', index]];
    case 13: case 14: return first.length > 6000 ? [['length']] : randomMakingCalls(first, below(2) === 0 ? index : below(SPACING), below);
    case 15: return [['compare'], ['swap'], ['compare'], ['swap']];
    case 16: case 17: {
      const other = first.length === 0 ? [] : changed(listOf(first), below);
      return [['swap'], ['set', ...other], ...(below(2) === 0 ? [['mark']] : []), ['swap'], ['compare']];
    }
    case 18: case 19: return [['positionAt', index]];
    case 20: case 21: return [['unitBefore', positionAbout(first, index, below)]];
    case 22: {
      const any = anyUnits(1 + below(SPACING), below);
      const piece = below(2) === 0 ? any : joining(any);
      return [['truncate', index], ...appending(piece, below), ['unitAt', Math.max(0, index - 1)], ['positionAt', index]];
    }
    default: return [['unitAt', index]];
  }
}

function randomMarkedScript(below) {
  const units = anyUnits(300 + below(4701), below);
  return scriptOf([['set', ...units], ...(below(3) === 0 ? [] : [['mark']])], 20 + below(60), randomMarkedCalls, below);
}

// The positions about each multiple of `SPACING`, of each index and back.
function positionsAbout(text) {
  const calls = [];
  for (let edge = 0; edge <= text.length + 2; edge += SPACING) {
    for (let at = Math.max(0, edge - 3); at <= edge + 3; at++) {
      calls.push(['positionAt', at], ['unitBefore', positionAt(text, at)], ['unitBefore', positionAt(text, at) + 1]);
    }
  }
  return calls;
}

// A text's positions without marks and with them; then, cut about each multiple of `SPACING` and grown again by other
// units, which the marks that were past the cut would be wrong for.
function cutScript(units, isMarked, below) {
  const marks = isMarked ? [['mark']] : [];
  const calls = [['set', ...units], ...marks, ...positionsAbout(textOf(units))];
  for (let edge = SPACING; edge <= units.length; edge += SPACING) {
    for (let length = edge - 2; length <= Math.min(edge + 2, units.length); length++) {
      const piece = anyUnits(SPACING + 3, below);
      calls.push(['set', ...units], ...marks, ['truncate', length], ['length'], ['positionAt', length], ['unitBefore', 0xFFFF]);
      calls.push(...appending(piece, below));
      const grown = length + piece.length;
      for (let at = length - 2; at <= length + 2; at++) calls.push(['unitAt', at], ['positionAt', at]);
      for (let at = grown - 9; at <= grown; at++) calls.push(['unitAt', at], ['positionAt', at]);
    }
  }
  return calls;
}

// A text with marks, whose last unit before a mark is a lead, cut at that mark and grown by a trail: the mark would divide
// their pair.
function cutAtMarkScript() {
  const units = textOfKind([0xE9], 300).with(2 * SPACING - 1, 0xD83D);
  return [['set', ...units], ['mark'], ['truncate', 2 * SPACING], ['push', 0xDCA9, ...units.slice(0, 20)], ...readsAbout(277)];
}

function cutScripts(below) {
  const texts = KINDS_OF_MARKED.flatMap((kind) => [300, 1000].map((length) => unitsOfKind(kind, length, below)));
  return texts.flatMap((units) => [false, true].map((isMarked) => cutScript(units, isMarked, below)));
}

// A text of more units than two bytes count, read at indexes up to the last that two bytes name, from both ends,
// without marks and with them, and compared with an equal text and one that is a unit longer.
function hugeScript(kind, below) {
  const piece = unitsOfKind(kind, 1000, below);
  const looks = [0, 127, 128, 32767, 65407, 65408, 65534, 65535].flatMap((at) => [['unitAt', at], ['at', at], ['codePointAt', at]]);
  const pieces = [['substring', 65530, 65535], ['startsWith', 64999], ['indexOf', 64999], ['lastIndexOf', 65535], ['endsWith', 65000]];
  const calls = [['set', ...piece], ['repeat', 70], ['length'], ...looks, ['mark'], ...looks, ['swap'], ['set', ...piece]];
  calls.push(['swap'], ...pieces, ['swap'], ['repeat', 70], ['compare'], ['push', 0x61], ['compare'], ['swap'], ['compare']);
  return [...calls, ['concat'], ['length'], ...looks];
}

function marksScripts(seed, cases) {
  const below = randomBelow(seed);
  const scripts = markedScripts([300, 1000, 5000], [1, 2, 63, 64, 127, 128, 129, 255, 256, 257, 300]);
  const huge = KINDS_OF_MARKED.map((kind) => hugeScript(kind, below));
  const atOnce = [SPACING - 1, SPACING, SPACING + 1, 3 * SPACING].flatMap((length) => pushedAtOnceScripts(KINDS, length));
  return [...scripts, ...atOnce, ...huge, ...cutScripts(below), ...Array.from({ length: cases }, () => randomMarkedScript(below))];
}

// "a", a pair, "b" and a lead: the string of the worked examples.
const EXAMPLE = [0x61, 0xD83D, 0xDCA9, 0x62, 0xD83D];

// Searches the example for lists, each up to or from an index.
const searchesFor = (call, rows) => rows.flatMap(([at, units]) => [['swap'], ['set', ...units], ['swap'], [call, at]]);

// A call with its operands on each of some lists.
const onEach = (call, rows) => rows.flatMap(([units, ...operands]) => [['set', ...units], [call, ...operands]]);

// A call with its operands on two lists, which become the second and the first text.
const onBoth = (call, rows) =>
  rows.flatMap(([units, others, ...operands]) => [['set', ...others], ['swap'], ['set', ...units], [call, ...operands]]);

// Lists of units in which surrogates join, or stay lone.
const JOINING = [
  [0xD83D, 0xDCA9],
  [0xD83D, 0x20, 0xDCA9],
  [0xD800, 0xDBFF],
  [0xD800, 0xE000],
  [0xD7FF, 0xDC00],
  [0x61, 0xDC00],
  [0xDC00],
  [0xD83D, 0xD83D, 0xDCA9],
  [0xD83D, 0xDCA9, 0xDCA9],
  [0xDCA9, 0xD83D],
];

// Two lists of units whose order by units is not that by code points, or that are equal, or one the other's beginning.
const ORDERED = [
  [[0xE000], [0xD800, 0xDC00]],
  [[0xD83D], [0xD83D, 0xDCA9]],
  [[0xFFFF], [0xD800, 0xDC00]],
  [[], []],
  [[], [0x00]],
  [[0x61, 0x62], [0x61, 0x63]],
  [[0xD83D, 0xDCA9], [0xD83D, 0xDCA9]],
  [[0xD800, 0x61], [0xD800, 0xDC00]],
];

// Units to push one by one: on both sides of the limits of encoded lengths, surrogates that join, and lone ones.
const PUSHED = [
  [0x00, 0x7F, 0x80, 0x7FF, 0x800, 0xFFFF],
  [0xD7FF, 0xDC00, 0xE000],
  [0xD83D, 0xDCA9],
  [0xD800, 0xDC00, 0xDBFF, 0xDFFF],
  [0xD83D, 0xD83D, 0xDCA9, 0xDCA9],
  [0xDCA9, 0xD83D],
  [0xD83D, 0x61, 0xDCA9],
];

// Lists whose pairs are divided by slices of them, and in which a slice occurs at several indexes.
const REPEATING = [
  [0x61, 0xD83D, 0xDCA9, 0x62],
  [0xD83D, 0xDCA9, 0xD83D, 0xDCA9, 0xD83D],
  [0xDCA9, 0xD83D, 0xD83D, 0xDCA9, 0xDCA9],
  [0xE9, 0x61, 0xE9, 0x61, 0xFFFF],
];

// A list searched for each slice of a list, at each index up to two past its end and at the last that two bytes name.
function slicesScript(units, others) {
  const places = [...Array.from({ length: units.length + 3 }, (_, at) => at), 0xFFFF];
  const calls = [['set', ...units]];
  for (let begin = 0; begin <= others.length; begin++) {
    for (let end = begin; end <= others.length; end++) {
      calls.push(['swap'], ['set', ...others.slice(begin, end)], ['swap'], ...places.map((at) => ['startsWith', at]));
    }
  }
  return calls;
}

// 300 pairs, searched at each index of a letter and these pairs, with marks; then a trail, likewise.
function pairsScript() {
  const pairs = textOfKind([0xD83D, 0xDCA9], 600);
  const calls = [['set', ...pairs], ['swap'], ['fromStr', 'a'], ['mark'], ['pushWtf8', ...pairs]];
  for (let at = 0; at < 300; at++) calls.push(['startsWith', at]);
  calls.push(['swap'], ['set', 0xDCA9], ['swap']);
  for (let at = 0; at < 602; at++) calls.push(['startsWith', at]);
  return calls;
}

// Texts of lengths about those at which bytes are compared otherwise, searched in a longer one at an index: equal, and
// with another unit at each index.
function startsOfEachLengthScript() {
  const whole = Array.from({ length: 70 }, (_, at) => 0x21 + at);
  const calls = [['set', ...whole], ['swap']];
  for (const length of [8, 9, 16, 17, 31, 33, 64]) {
    const piece = whole.slice(3, 3 + length);
    const others = piece.map((unit, at) => piece.with(at, unit ^ 1));
    for (const units of [piece, ...others]) calls.push(['set', ...units], ['swap'], ['startsWith', 3], ['swap']);
  }
  return calls;
}

// Texts of six units that repeat, of lengths about those at which a mark is added. In the last three a pair is divided
// at some of the marks.
function nearMarksScripts() {
  const kinds = [[0x61], [0x3042], [0xDCA9, 0xD83D], [0xD83D, 0xDCA9, 0xE9], [0x3042, 0xDCA9, 0xD83D, 0xDCA9, 0xD83D, 0x61]];
  return kinds.flatMap((kind) => [127, 128, 129, 257, 385].map((length) => {
    const looks = readsAbout(length);
    return [['set', ...textOfKind(kind, length)], ...looks, ['mark'], ...looks];
  }));
}

// The examples above by each call that they are for.
function rowScripts() {
  const ofPairs = (call) => JOINING.flatMap((units) => onBoth(call, JOINING.map((others) => [units, others])));
  return [
    ...[...JOINING, [0x61, 0xD83D, 0xDCA9]].map(listScript),
    ofPairs('compare'),
    ofPairs('concat'),
    onBoth('compare', [...ORDERED, ...ORDERED.map(([units, others]) => [others, units])]),
    onEach('push', PUSHED.map((units) => [[], ...units])),
    onBoth('concat', [[[0x61, 0xD83D], [0xDCA9]], [[0xDCA9, 0x61, 0xD83D], [0xDCA9, 0x61, 0xD83D]]]),
    onEach('pushWtf8', [[[0xDCA9, 0x61, 0xD83D], 0xDCA9, 0x61, 0xD83D]]),
    ['', 'a', 'a\u00E9', '\uD55C', 'a\u{1F4A9}'].flatMap((text) => [['fromStr', text], ['length'], ['set'], ['pushStr', text], ['throughWtf8']]),
    ...REPEATING.map((units) => REPEATING.flatMap((others) => slicesScript(units, others))),
    pairsScript(),
    startsOfEachLengthScript(),
    ...nearMarksScripts(),
  ];
}

// Worked examples of the calls: inside a pair and beside it, at both ends and past them, and with empty lists.
function exampleScripts() {
  const longer = [...EXAMPLE, 0x61];
  const indexes = [0, 1, 2, 3, 4, 5, 6].flatMap((at) => [['unitAt', at], ['charAt', at], ['at', at], ['codePointAt', at]]);
  const between = [[0, 5], [0, 2], [2, 0], [2, 4], [9, 3], [3, 3], [7, 6]].map((ends) => ['substring', ...ends]);
  const starts = [[0, []], [5, []], [6, []], [0, [0x61, 0xD83D]], [1, [0x61, 0xD83D]], [2, [0xDCA9, 0x62]], [2, [0xDCA9, 0x63]]];
  starts.push([3, [0x62, 0xD83D]], [3, [0x62, 0xD83D, 0xDCA9]]);
  const ends = [[9, []], [2, []], [2, [0xD83D]], [3, [0xD83D]], [5, [0x62, 0xD83D]], [2, [0x61, 0xD83D]], [0, [0x61]], [9, EXAMPLE], [9, longer]];
  const first = [[0, []], [2, []], [9, []], [0, [0xD83D]], [2, [0xD83D]], [0, [0xDCA9, 0x62]], [4, [0x62]], [9, [0x61]], [0, [0x63]]];
  first.push([0, EXAMPLE], [1, EXAMPLE], [0, longer]);
  const last = [[9, []], [2, []], [3, [0xD83D]], [0, [0xD83D]], [9, [0xDCA9, 0x62]], [9, [0x61]], [9, [0x63]], [9, EXAMPLE], [9, longer]];
  return [
    [['set', ...EXAMPLE], ...indexes, ...between],
    [['set', ...EXAMPLE], ...searchesFor('startsWith', starts), ...searchesFor('endsWith', ends)],
    [['set', ...EXAMPLE], ...searchesFor('indexOf', first), ...searchesFor('lastIndexOf', last)],
    onEach('codePointAt', [[[0xDBFF, 0xDFFF], 0], [[0xD800, 0xDC00], 0], [[0xDC00, 0xD800], 0]]),
    onEach('repeat', [[[0xDCA9, 0xD83D], 0], [[0xDCA9, 0xD83D], 3], [[], 4], [[0x61], 2]]),
    onEach('toWellFormed', [[[0x61, 0xD83D]], [[0xDCA9, 0xD83D, 0xDCA9, 0xD83D]], [[]], [[0xD83D, 0xDCA9, 0xFFFD]]]),
    onEach('isWellFormed', [[[]], [[0x61, 0xD83D, 0xDCA9]], [[0xD83D]], [[0xDCA9, 0xD83D]], [[0xFFFD, 0xE000]]]),
    onEach('trim', [[[]], [[0x20, 0x09]], [[0x20, 0x0D, 0x61, 0x20, 0xDCA9, 0x0A, 0x0B]], [[0x0C, 0xD83D]], [[0x08, 0x20]], [[0x0E, 0x1F, 0x20]]]),
    onEach('split', [[[], 0x2C], [[0x61, 0x2C, 0x2C, 0x62], 0x2C], [[0x2C], 0x2C], [EXAMPLE, 0xD83D], [EXAMPLE, 0x63]]),
    onBoth('padStart', [[[0x61], [0xDCA9, 0xD83D], 4], [[0x61], [0xDCA9, 0xD83D], 5], [[0x61, 0x62], [0x20], 2], [[0x61], [0x20], 0], [[0x61], [], 3], [[], [0x78], 2]]),
    onBoth('replace', [[[0x61, 0x62, 0x61, 0x62], [0x62], 0xD83D], [EXAMPLE, [0xDCA9], 0x24, 0x26], [EXAMPLE, [], 0x78], [EXAMPLE, [0x63], 0x78], [[0x61, 0x61, 0x61], [0x61, 0x61]]]),
    [['fromStr', ''], ['pushStr', ''], ['fromStr', 'a\u{1F4A9}'], ['length'], ['pushStr', '\u00E9\uD55C'], ['throughWtf8'], ['length']],
    onEach('pushWtf8', [[[0x61, 0xD83D], 0xDCA9], [[0xD83D], 0xDCA9, 0xD83D], [[0xD83D]], [[], 0xDCA9], [[0xDCA9], 0xD83D]]),
    onEach('pushStr', [[[0x61, 0xD83D], '\u00E9'], [[0xD83D], '\u{1F4A9}'], [[0xDCA9, 0xD83D], '']]),
    onEach('throughWtf8', [[[]], [[0x61, 0xD83D]], [[0xD83D, 0xDCA9]], [[0xDCA9, 0xD83D]]]),
    ...rowScripts(),
  ];
}

// Worked examples, each a short script on its own input. gate/worked_examples.txt has the calls and results in words.
function workedScripts() {
  const example = ['set', 0x61, 0xD83D, 0xDCA9];
  return [
    [example, ['length'], ['unitAt', 1], ['unitAt', 3]],
    ...[[0, 2], [2, 3], [1, 1]].map((ends) => [example, ['slice', ...ends]]),
    onBoth('concat', [[[0x61, 0xD83D], [0xDCA9]]]),
    [['set'], ['length'], ['unitAt', 0]],
    ...ORDERED.slice(0, 3).map((lists) => onBoth('compare', [lists])),
    [...onBoth('concat', [[[0xD83D], [0xDCA9]]]), ['length'], ['swap'], ['set', 0xD83D, 0xDCA9], ['compare']],
    [example, ['cutEverywhere']],
    ...JOINING.map((units) => [['set', ...units], ['cutEverywhere']]),
    [['new'], ['length'], ['unitAt', 0]],
    [example, ['swap'], ['clone'], ['push', 0x62], ['compare'], ['swap'], ['length']],
    onEach('pushUnits', [[[0x61, 0xD83D], 0xDCA9, 0x62]]),
    onEach('pushUnits', [[[0xDCA9], 0xD83D]]),
    onEach('pushUnits', [[[0xD83D]]]),
    ...[0, 1, 2, 3, 4].map((at) => [example, ['unitsFrom', at]]),
    ...JOINING.map(dividedScript),
  ];
}

// A list divided at every index: its second part appended at once to the first, and read from there. Then a clone of the
// list, and the empty text, to which the list is appended.
function dividedScript(units) {
  const calls = [['set', ...units], ['swap']];
  for (let at = 0; at <= units.length; at++) {
    calls.push(['set', ...units.slice(0, at)], ['pushUnits', ...units.slice(at)], ['compare'], ['unitsFrom', at]);
  }
  calls.push(['unitsFrom', units.length + 1], ['clone'], ['compare'], ['pushUnits', ...units], ['compare'], ['cutEverywhere']);
  return [...calls, ['new'], ['compare'], ['pushUnits', ...units], ['compare'], ['unitsFrom', 0]];
}

// The units from the indexes about each multiple of `SPACING` on.
function unitsAbout(length) {
  const calls = [];
  for (let edge = 0; edge <= length + 2; edge += SPACING) {
    for (let at = Math.max(0, edge - 2); at <= edge + 2; at++) calls.push(['unitsFrom', at]);
  }
  return calls;
}

// Long texts of a piece that is appended at once, with marks and without, and of a clone of the marked text, which keeps
// none; read about each mark.
function pushedAtOnceScripts(kinds, length) {
  const looks = [...readsAbout(2 * length), ...unitsAbout(2 * length)];
  return kinds.flatMap((kind) => {
    const piece = joining(textOfKind(kind, length));
    const grown = [['pushUnits', ...piece], ['pushUnits', ...piece], ['length']];
    return [
      [['new'], ...grown, ...looks],
      [['new'], ['mark'], ...grown, ...looks, ['swap'], ['clone'], ['compare'], ...looks, ['pushUnits', ...piece], ['compare'], ['mark'], ...looks],
    ];
  });
}

// The positions of a list, of every index and of every byte, and the list cut at every index.
function positionsScript(units) {
  const calls = [['set', ...units]];
  for (let position = 0; position <= byteLength(textOf(units)) + 1; position++) calls.push(['unitBefore', position]);
  for (let at = 0; at <= units.length + 1; at++) calls.push(['positionAt', at], ['truncate', at], ['length'], ['set', ...units]);
  return calls;
}

// The lines of a list, and the marks at each of their columns, up to one past the last line and the end.
function linesScript(units) {
  const calls = [['set', ...units], ['lines']];
  for (let line = 0; line <= lineStarts(textOf(units)).length; line++) {
    for (let column = 0; column <= units.length + 1; column++) calls.push(['markAtColumn', line, column]);
  }
  return calls;
}

// A line of more than 300 units, and the marks at and past its end.
function longLineScript() {
  const calls = [['set', 0x61, 0x0A, ...textOfKind([0x61, 0xE9], 320)], ['lines']];
  return [...calls, ...[300, 301, 319, 320, 321].map((column) => ['markAtColumn', 1, column])];
}

// Two lists as JSON texts, and the first read from its text, which another follows.
function jsonScript(units, others) {
  const text = JSON.stringify(textOf(units)) + textOf(others);
  return [['set', ...others], ['swap'], ['set', ...units], ['json'], ['set', ...listOf(text)], ['readJson']];
}

// Units about lines, of all encoded lengths.
const IN_LINES = [0x0A, 0x0D, 0x61, 0xE9, 0xD83D, 0xDCA9, 0x2028];

// Units that JSON text escapes, and their neighbours.
const IN_JSON = [...Array.from({ length: 0x23 }, (_, unit) => unit), 0x2F, 0x5C, 0x7F, 0x80, 0xD7FF, 0xD800, 0xDBFF, 0xDC00, 0xDFFF, 0xE000, 0x2028, 0xFFFD];

// What may come in a JSON string, whole or cut.
const PARTS_OF_JSON = ['"', '\\', 'u', 'n', '/', '0', 'D', 'f', 'x', '\n', '\u00E9', '\uD83D', '\uDCA9', '\\u', '\\ud83d', '\\uDCA9', '\\u00', '12'];

// All texts of at most `most` parts after a quotation mark, read as JSON strings.
const readingScripts = (most) => listsOf(PARTS_OF_JSON, most).map((parts) => [['set', ...listOf(`"${parts.join('')}`)], ['readJson']]);

function positionScripts() {
  const json = IN_JSON.flatMap((unit) => IN_JSON.map((other) => jsonScript([unit, other], [other])));
  const escapes = Array.from({ length: 0x80 }, (_, unit) => ['', '"', '0041"'].map((end) => ['set', ...listOf(`"\\${String.fromCharCode(unit)}${end}`)]));
  const digits = Array.from({ length: 0x80 }, (_, unit) => [0, 1, 2, 3].map((at) => ['set', ...listOf('"\\u00e9"').with(3 + at, unit)]));
  const others = [[], [0x61], [0x22], [0x20, 0x22], [0x5C, 0x22]].map((units) => [['set', ...units], ['readJson']]);
  return [
    ...listsOf(NINE, 3).map(positionsScript),
    ...listsOf(IN_LINES, 4).map(linesScript),
    ...json,
    ...listsOf(NINE, 3).map((units) => jsonScript(units, [0x22])),
    ...readingScripts(3),
    ...[...escapes, ...digits].map((texts) => texts.flatMap((text) => [text, ['readJson']])),
    ...others,
  ];
}

// Random units in lines of random lengths, some of them empty.
const randomLines = (below) => Array.from({ length: below(120) }, () => (below(8) === 0 ? 0x0A : randomUnit(below)));

// A random text that begins as a JSON string, mostly of escapes and units that need none, and mostly closed.
function randomJson(below) {
  const part = () => {
    switch (below(8)) {
      case 0: return PARTS_OF_JSON[below(PARTS_OF_JSON.length)];
      case 1: return `\\u${hex(randomUnit(below), 4)}`;
      case 2: return `\\u${hex(randomUnit(below), 4).toLowerCase()}`;
      case 3: return '\\' + '"\\/bfnrt'[below(8)];
      default: return JSON.stringify(String.fromCharCode(randomUnit(below))).slice(1, -1);
    }
  };
  const parts = Array.from({ length: below(30) }, part);
  return listOf(`"${parts.join('')}${below(4) === 0 ? '' : '"'}${below(3) === 0 ? '"\\' : ''}`);
}

// A random script of positions, lines and JSON strings.
function randomPositionScript(below) {
  const units = randomUnits(below);
  const text = textOf(units);
  const calls = [['set', ...units]];
  for (let i = 0; i < 8; i++) {
    const at = below(units.length + 2);
    calls.push(['positionAt', at], ['unitBefore', below(byteLength(text) + 3)]);
  }
  calls.push(['json'], ['swap'], ['set', ...randomUnits(below)], ['json'], ['truncate', below(units.length + 2)], ['length']);
  const lines = randomLines(below);
  calls.push(['set', ...lines], ['lines']);
  for (let i = 0; i < 8; i++) calls.push(['markAtColumn', below(lineStarts(textOf(lines)).length + 2), below(below(2) === 0 ? 4 : 40)]);
  for (let i = 0; i < 4; i++) calls.push(['set', ...randomJson(below)], ['readJson']);
  return [...calls, ['set', ...listOf(JSON.stringify(text))], ['readJson']];
}

// What is put in place of units: nothing, a letter, halves of pairs, and both in either order.
const PUT = [[], [0x61], [0xD83D], [0xDCA9], [0xDCA9, 0xD83D], [0xD83D, 0xDCA9]];

// Makes a list of at most 255 units the string of a register. The indexed string is empty then.
const inRegister = (register, units) => [['indexedFromUnits', ...units], ['indexedIntoBuf', register]];

// Each part of a list, and a part that ends past it, replaced by each list of `PUT` and by the whole list, as units and as
// a string.
function replacedScript(units) {
  const calls = inRegister(0, units);
  for (const put of [...PUT, units]) {
    calls.push(...inRegister(1, put));
    for (let begin = 0; begin <= units.length; begin++) {
      for (let end = begin; end <= units.length + 1; end++) {
        for (const call of [['indexedReplaceUnits', begin, end, ...put], ['indexedReplace', begin, end, 1]]) calls.push(['indexedFromBuf', 0], call);
      }
    }
  }
  return [...calls, ['indexedReplaceUnits', 1, 0], ['indexedReplace', 1, 0, 1]];
}

// Reads the indexed string at an index, and at the position there and the next.
const readsOfIndexed = (text, at) => [
  ['indexedUnitAt', at],
  ['indexedPositionAt', at],
  ...[0, 1].map((more) => ['indexedUnitBefore', positionAt(text, Math.min(at, text.length)) + more]),
];

// Reads the indexed string about each multiple of `SPACING`.
function readsOfMarks(text) {
  const calls = [];
  for (let edge = 0; edge <= text.length + 2; edge += SPACING) {
    for (let at = Math.max(0, edge - 2); at <= edge + 2; at++) calls.push(...readsOfIndexed(text, at));
  }
  return calls;
}

// A marked string of a list of at most 255 units, in which a string is inserted before, at and after a mark and before
// the end, and then replaced by the whole list; read about each mark after each change. The string is longer than the
// distance between marks, and joins the units before and after it.
function replacedAboutMarksScript(units) {
  const whole = textOf(units);
  const piece = joining(units.slice(0, SPACING + 2));
  const calls = [...inRegister(1, piece), ...inRegister(0, units)];
  for (const begin of [1, SPACING - 1, SPACING, SPACING + 1, units.length - 1]) {
    const withInserted = (text) => whole.slice(0, begin) + text + whole.slice(begin);
    calls.push(['indexedFromBuf', 0], ['indexedMark'], ['indexedReplace', begin, begin, 1], ...readsOfMarks(withInserted(textOf(piece))));
    calls.push(['indexedReplace', begin, begin + piece.length, 0], ...readsOfMarks(withInserted(whole)));
  }
  return calls;
}

const replacedAboutMarksScripts = (kinds) => kinds.map((kind) => replacedAboutMarksScript(textOfKind(kind, 250)));
const replacedScripts = () => [...listsOf(NINE, 3).map(replacedScript), ...replacedAboutMarksScripts(KINDS)];

// At most 255 random units that are put in place of others, half of the time so that they form pairs with the units before and after.
function randomPut(below) {
  const units = randomUnits(below).slice(0, 255);
  return units.length < 2 || below(2) === 0 ? units : joining(units);
}

// Random calls that replace units of the indexed string by units, by a string or by the indexed string, or that read it.
function randomIndexedCalls({ indexed }, below) {
  const { length } = indexed;
  const begin = below(length + 1);
  const end = below(16) === 0 ? below(length + 3) : begin + below(Math.min(length - begin, below(2) === 0 ? 3 : length) + 1);
  const marks = below(4) === 0 ? [] : [['indexedMark']];
  // No string grows beyond what two bytes count.
  switch (length > 900 ? 3 + below(2) : below(6)) {
    case 0: return [['indexedIntoBuf', 0], ...inRegister(1, randomPut(below)), ['indexedFromBuf', 0], ...marks, ['indexedReplace', begin, end, 1]];
    case 1: return [['indexedIntoBuf', 2], ['indexedFromBuf', 2], ...marks, ['indexedReplace', begin, end, 2]];
    case 2: return [['indexedReplace', begin, end, below(4)]];
    case 3: return [['indexedReplaceUnits', begin, end, ...randomPut(below)]];
    default: return readsOfIndexed(indexed, below(length + 2));
  }
}

// A random script on the indexed string.
const randomReplacedScript = (below) => scriptOf([['indexedFromUnits', ...randomPut(below)]], 1 + below(16), randomIndexedCalls, below);

// Scripts of all calls, and a quarter of that number of positions, lines and JSON strings, and of replaced units.
function randomScriptsOfAll(seed, cases) {
  const below = randomBelow(seed);
  const quarterOf = (script) => Array.from({ length: Math.ceil(cases / 4) }, () => script(below));
  return [...randomScripts(seed, cases, allCalls), ...quarterOf(randomPositionScript), ...quarterOf(randomReplacedScript)];
}

function fixedScripts() {
  const lists = listScripts().filter((_, at) => at % 97 === 0);
  const replaced = [...JOINING.map(replacedScript), ...replacedAboutMarksScripts([KINDS[2], KINDS[4]])];
  const marked = markedScripts([300], [129]).filter((_, at) => at % 4 === 2);
  return [...exampleScripts(), ...workedScripts(), ...lists, ...longScripts(), ...marked, cutAtMarkScript(), longLineScript(), ...pushedAtOnceScripts([[0x3042], NINE], SPACING + 1), ...replaced, ...randomScripts(1, 100, randomCalls)];
}

// Writes the scripts and their transcripts after the given lines.
function write(scripts, folder, linesBefore = '', transcriptsBefore = '') {
  for (const [name, before, textOfScript] of [['stdin', linesBefore, lineOf], ['stdout', transcriptsBefore, transcriptOf]]) {
    const file = fs.openSync(path.join(folder, name), 'w');
    fs.writeSync(file, before);
    for (const calls of scripts) fs.writeSync(file, textOfScript(calls));
    fs.closeSync(file);
  }
  console.error(`${scripts.length} scripts, ${scripts.reduce((sum, calls) => sum + calls.length, 0)} calls`);
}

// The scripts of strings in a folder and their transcripts: all before the first that begins with a call on texts.
function stringScripts(folder) {
  const lines = fs.readFileSync(path.join(folder, 'stdin'), 'utf8').split(/(?<=\n)/);
  const transcripts = fs.readFileSync(path.join(folder, 'stdout'), 'utf8').split(/(?<=\n\n)/);
  const first = lines.findIndex((line) => parseInt(line.slice(0, 2), 16) >= OPCODES.set);
  const count = first < 0 ? lines.length : first;
  return [lines.slice(0, count).join(''), transcripts.slice(0, count).join('')];
}

function stop(why) {
  console.error(`text_calls.js: ${why}`);
  process.exit(2);
}

// The whole number that a word spells, which must be at least `least`.
function numberOf(word, least) {
  if (!/^[0-9]{1,9}$/.test(word) || Number(word) < least) stop(`${word} is no whole number from ${least} on`);
  return Number(word);
}

const WAYS = {
  random: { words: 2, scripts: (seed, cases) => randomScriptsOfAll(numberOf(seed, 0), numberOf(cases, 1)) },
  marks: { words: 2, scripts: (seed, cases) => marksScripts(numberOf(seed, 0), numberOf(cases, 1)) },
  lists: { words: 0, scripts: () => [...listScripts(), ...listsOf(NINE, 3).map(dividedScript), ...longScripts(), ...positionScripts(), ...replacedScripts()] },
  fixed: { words: 0, scripts: fixedScripts },
};
const [way, ...words] = process.argv.slice(2);
if (!Object.hasOwn(WAYS, way) || words.length !== WAYS[way].words + 1) {
  stop('random SEED CASES FOLDER, marks SEED CASES FOLDER, lists FOLDER, or fixed FOLDER');
};
const folder = words.pop();
write(WAYS[way].scripts(...words), folder, ...(way === 'fixed' ? stringScripts(folder) : []));
