// Calls on the indexed string, and what the engine's own strings return for them: units are replaced in the middle by
// `slice` and `concat`.
'use strict';
const { hex, textOf, dumpOf, bytesOf } = require('./units.js');
const { positionAt, unitBefore } = require('./positions.js');

// The length and the bytes of a string as a transcript shows them.
const shown = (text) => {
  const bytes = bytesOf(text);
  return `${bytes.length}: ${dumpOf(bytes)}`;
};

// Makes a string the indexed one, and shows it.
function changed(state, text) {
  state.indexed = text;
  return `indexed ${text.length} units ${shown(text)}`;
}

// Replaces the units from one index to another by a string.
function replaced(state, begin, end, text) {
  const old = state.indexed;
  if (end < begin || old.length < end) return 'refused';
  return changed(state, old.slice(0, begin).concat(text, old.slice(end)));
}

// The opcodes of the calls. crates/compare_scripts/src/opcodes.rt says what each call does.
const INDEXED_OPCODES = {
  indexedFromUnits: 130,
  indexedFromBuf: 131,
  indexedMark: 133,
  indexedUnitAt: 145,
  indexedPositionAt: 148,
  indexedUnitBefore: 149,
  indexedIntoBuf: 153,
  indexedReplaceUnits: 156,
  indexedReplace: 157,
};

// What each call returns over the indexed string and the strings of a state.
const INDEXED_CALLS = {
  indexedFromUnits: (state, ...units) => changed(state, textOf(units)),
  indexedFromBuf: (state, register) => changed(state, state.strings[register]),
  indexedMark: (state) => changed(state, state.indexed),
  indexedUnitAt: ({ indexed }, at) => `unit ${at < indexed.length ? hex(indexed.charCodeAt(at), 4) : '-'}`,
  indexedPositionAt: ({ indexed }, at) => (indexed.length < at ? 'refused' : `position ${positionAt(indexed, at)}`),
  indexedUnitBefore: ({ indexed }, position) => `units before ${unitBefore(indexed, position)}`,
  indexedIntoBuf: (state, register) => {
    const text = state.indexed;
    state.strings[register] = text;
    state.indexed = '';
    return `s${register} ${shown(text)}`;
  },
  indexedReplaceUnits: (state, begin, end, ...units) => replaced(state, begin, end, textOf(units)),
  indexedReplace: (state, begin, end, register) => replaced(state, begin, end, state.strings[register]),
};

// A number of two bytes in hexadecimal, little-endian.
const bytesOfNumber = (number) => hex(number & 0xFF, 2) + hex(number >> 8, 2);

// At most 255 units after their count, which has one byte.
const countedUnits = (units) => hex(units.length, 2) + units.map(bytesOfNumber).join('');

// The operands of a call. A register has one byte.
function indexedOperands(name, operands) {
  switch (name) {
    case 'indexedFromUnits': return countedUnits(operands);
    case 'indexedReplaceUnits': return operands.slice(0, 2).map(bytesOfNumber).join('') + countedUnits(operands.slice(2));
    case 'indexedReplace': return operands.slice(0, 2).map(bytesOfNumber).join('') + hex(operands[2], 2);
    case 'indexedFromBuf': case 'indexedIntoBuf': return hex(operands[0], 2);
    default: return operands.map(bytesOfNumber).join('');
  }
}

module.exports = { INDEXED_OPCODES, INDEXED_CALLS, indexedOperands, bytesOfNumber };
