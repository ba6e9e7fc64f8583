// Units, bytes and numbers, and how transcripts show them.
'use strict';

const hex = (number, digits) => number.toString(16).toUpperCase().padStart(digits, '0');

// The string of some units, and the units of a string.
const textOf = (units) => units.map((unit) => String.fromCharCode(unit)).join('');
const listOf = (text) => Array.from({ length: text.length }, (_, at) => text.charCodeAt(at));

// Bytes in hexadecimal, with a space between any two.
const dumpOf = (bytes) => Array.from(bytes, (byte) => hex(byte, 2)).join(' ');

// The bytes of a string in WTF-8. The engine's encoder replaces a lone surrogate, whose first byte is ED.
function bytesOf(text) {
  return Array.from(text).flatMap((point) => {
    const unit = point.charCodeAt(0);
    return point.isWellFormed() ? [...Buffer.from(point, 'utf8')] : [0xED, 0x80 | ((unit >> 6) & 0x3F), 0x80 | (unit & 0x3F)];
  });
}

module.exports = { hex, textOf, listOf, dumpOf, bytesOf };
