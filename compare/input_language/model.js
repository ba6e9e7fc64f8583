"use strict";
// The output of the program wtf8_dump, computed by the engine's own strings: concatenation, length, slice, code points.

const fs = require("fs");

// The bytes of a code point, surrogates included, by its encoded length.
function encoded(point) {
    if (point < 0x80) return [point];
    if (point < 0x800) return [0xc0 + (point >> 6), 0x80 + (point & 63)];
    if (point < 0x10000) return [0xe0 + (point >> 12), 0x80 + ((point >> 6) & 63), 0x80 + (point & 63)];
    return [0xf0 + (point >> 18), 0x80 + ((point >> 12) & 63), 0x80 + ((point >> 6) & 63), 0x80 + (point & 63)];
}

// The first `position` bytes of a text, as a text, or null if no code point ends there.
function frontOf(text, position) {
    let at = 0;
    let front = "";
    for (const point of text) {
        if (position <= at) break;
        at += encoded(point.codePointAt(0)).length;
        front += point;
    }
    return at === position ? front : null;
}

// The output for a line, without its newline.
function outputOf(line) {
    let text = "";
    let refused = 0;
    for (const word of line === "" ? [] : line.split(" ")) {
        if (/^[0-9A-Fa-f]{4,6}$/.test(word) && parseInt(word, 16) <= 0x10ffff) {
            text += String.fromCodePoint(parseInt(word, 16));
        } else if (/^-[0-9]{1,9}$/.test(word)) {
            const front = frontOf(text, Number(word.slice(1)));
            if (front === null) refused += 1;
            else text = front;
        } else if (/^\/[0-9]{1,9}$/.test(word)) {
            const count = Number(word.slice(1));
            if (text.length < count) refused += 1;
            else text = text.slice(0, count);
        } else {
            return "?";
        }
    }
    const bytes = Array.from(text).flatMap((point) => encoded(point.codePointAt(0)));
    const shown = bytes.map((byte) => byte.toString(16).toUpperCase().padStart(2, "0"));
    return shown.concat(refused === 0 ? [] : ["!" + refused]).join(" ");
}

// Each byte is read as one character, so that bytes that are not UTF-8 stay distinct.
const lines = fs.readFileSync(0, "latin1").split("\n");
if (lines[lines.length - 1] === "") lines.pop();
process.stdout.write(lines.map((line) => outputOf(line) + "\n").join(""));
