// Reads lists of units, one a line, and writes their bytes by the engine's TextEncoder, in the notation of wtf8_dump.
'use strict';
const fs = require('fs');

const hex = (byte) => byte.toString(16).toUpperCase().padStart(2, '0');

function encoded(line) {
  const units = line === '' ? [] : line.split(' ').map((word) => parseInt(word, 16));
  const bytes = new TextEncoder().encode(String.fromCharCode(...units));
  return Array.from(bytes, hex).join(' ');
}

const lines = fs.readFileSync(0, 'latin1').split('\n').slice(0, -1);
process.stdout.write(lines.map((line) => encoded(line) + '\n').join(''));
