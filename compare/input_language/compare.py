"""Compares the program's output with that of a model over CPython's codecs, and with that of model.js if node is there."""

import argparse
import os
import random
import re
import shutil
import subprocess
import sys

HERE = os.path.dirname(os.path.abspath(__file__))
POINT = re.compile(rb"[0-9A-Fa-f]{4,6}\Z")
POSITION = re.compile(rb"-[0-9]{1,9}\Z")
COUNT = re.compile(rb"/[0-9]{1,9}\Z")


def bytes_of(units):
    """The bytes of UTF-16 units, low byte first: the codec pairs the surrogates that meet and passes the others."""
    return units.decode("utf-16-le", "surrogatepass").encode("utf-8", "surrogatepass")


def units_of(text):
    return text.decode("utf-8", "surrogatepass").encode("utf-16-le", "surrogatepass")


def output_for(line):
    """The output for a line, without its newline."""
    units, refused = b"", 0
    for word in line.split(b" ") if line else []:
        if POINT.match(word) and int(word, 16) <= 0x10FFFF:
            units += chr(int(word, 16)).encode("utf-16-le", "surrogatepass")
        elif POSITION.match(word):
            text, position = bytes_of(units), int(word[1:])
            if position <= len(text) and (position == len(text) or text[position] & 0xC0 != 0x80):
                units = units_of(text[:position])
            else:
                refused += 1
        elif COUNT.match(word):
            if 2 * int(word[1:]) <= len(units):
                units = units[: 2 * int(word[1:])]
            else:
                refused += 1
        else:
            return b"?"
    parts = [bytes_of(units).hex(" ").upper().encode()] if units else []
    return b" ".join(parts + ([b"!%d" % refused] if refused else []))


EDGES = [0, 0x41, 0x7F, 0x80, 0xE9, 0x7FF, 0x800, 0xD7FF, 0xD800, 0xD83D, 0xDBFF, 0xDC00, 0xDCA9, 0xDFFF]
EDGES += [0xE000, 0xFEFF, 0xFFFD, 0xFFFF, 0x10000, 0x1F4A9, 0xFFFFF, 0x10FFFF]

# Words, or several with the spaces between them, that make the output for any line a question mark.
MALFORMED = b"""
041|0000041|00D83D1|110000|FFFFFF|1000000|G041|004G|0x41|U+0041|-|/|--1|//1|-/1|/-1|-1234567890|/1234567890|-0000000001|/0000000001
+1|-a|/a|-1a|/1f|1-|1/|-1.|!|!1|?|0041,|0041;0042|0041-1|0041/1|\t|0041\t0042|0041\r|\r|\xc3\xa9041|\xff|\x00|0041\x00|-\xd9\xa1
|0041  0042| 0041|0041 |00061 |10ffff |-1 |/0 | |  |\xef\xbb\xbf0041|\xef\xbc\x910041|-1 /|/ 1|- 1|0041\x0b|\x0c|004\xe2\x80\x8b1
""".strip(b"\n").replace(b"\n", b"|")
MALFORMED = [re.sub(rb"\\(t|r|x..)", lambda m: {b"t": b"\t", b"r": b"\r"}.get(m[1]) or bytes([int(m[1][1:], 16)]), w) for w in MALFORMED.split(b"|")]
MALFORMED = [word for word in MALFORMED if word]


def spelled(number, rng):
    """A code point in four to six digits of either case."""
    word = b"%0*X" % (rng.randint(4, 6), number)
    return word if rng.random() < 0.6 else word.lower()


def random_point(rng):
    kind = rng.random()
    if kind < 0.4:
        return rng.choice(EDGES)
    if kind < 0.6:
        return rng.randint(0xD800, 0xDFFF)
    return rng.randrange(rng.choice([0x80, 0x800, 0x10000, 0x110000]))


def random_line(rng):
    """Up to 12 words, seldom up to 300: code points, cuts about the length so far, and seldom a malformed word."""
    words, units, most = [], 0, rng.choice([3, 6, 12, 12, 12, 12, 12, 12, 12, 300])
    for _ in range(rng.randint(0, most)):
        kind = rng.random()
        if kind < 0.75:
            point = random_point(rng)
            words.append(spelled(point, rng))
            units += 1 + (0xFFFF < point)
        elif kind < 0.87:
            words.append(b"-%0*d" % (rng.choice([1, 1, 1, 9]), rng.randint(0, 3 * units + 3)))
        else:
            words.append(b"/%0*d" % (rng.choice([1, 1, 1, 9]), rng.randint(0, units + 2)))
    if rng.random() < 0.1:
        words.insert(rng.randint(0, len(words)), rng.choice(MALFORMED))
    return b" ".join(words)


def listed_lines():
    """Each malformed word alone, after and before a code point; each two edges together, cut at each position and unit; and a
    long line of each kind, cut about its end."""
    lines = [b"", b"-0", b"/0", b"-1", b"/1", b"-999999999", b"/999999999", b"-000000000", b"/000000000"]
    for word in MALFORMED:
        lines += [word, b"0041 " + word, word + b" 0041", b"-9 " + word]
    for one in EDGES:
        for other in EDGES:
            both = b"%04X %04X" % (one, other)
            lines += [both, both + b" -9 -8"]
            lines += [both + b" -%d" % position for position in range(8)]
            lines += [both + b" /%d DC00" % count for count in range(6)]
    for point in (0x41, 0xE9, 0x20AC, 0x1F4A9, 0xD83D):
        for length in (1, 63, 64, 65, 66, 129, 300):
            line = b" ".join([b"%06X" % point] * length)
            width = len(bytes_of(chr(point).encode("utf-16-le", "surrogatepass")))
            units = length * (1 + (0xFFFF < point))
            for near in (-2, -1, 0, 1):
                lines += [line + b" -%d DC00" % (width * length + near)] if 0 <= width * length + near else []
                lines += [line + b" /%d DC00" % (units + near)] if 0 <= units + near else []
    # Many refused cuts, and outputs of about 30,000 to 210,000 bytes.
    lines += [b"0041" + word * count for word in (b" -9", b" /9") for count in (99, 100, 255, 256, 300, 1000)]
    lines += [b" ".join([b"%04X" % point] * count) for point in (0x41, 0x20AC, 0xD800) for count in (9999, 10001, 23334)]
    return lines


def lines_of_each_byte():
    """Each byte as the first and the last digit of a word of hexadecimal digits, and of the numbers of cuts of 20 letters, at
    the end of a line and before a space. A newline ends the line there."""
    letters, lines = b"0041 " * 20, []
    for byte in range(256):
        digit = bytes([byte])
        for word in (digit + b"041", b"004" + digit, digit + b"0041", b"-" + digit, b"-1" + digit, b"/" + digit, b"/1" + digit):
            lines += (letters + word).split(b"\n") + (letters + word + b" 00E9").split(b"\n")
    return lines


def line_of_length(length):
    """A line of `length` bytes, at least ten: words of four digits, of which the first few have five."""
    words = (length + 1) // 5
    more = length - (5 * words - 1)
    return b" ".join([(b"0" if at < more else b"") + b"0041" for at in range(words)])


def compare_about(program, edge):
    """Lines whose newline is about this byte of the input, each followed by another line."""
    for length in range(edge - 4, edge + 4):
        lines = [line_of_length(length), b"D83D DCA9"]
        if len(lines[0]) != length:
            sys.exit(f"no line of {length} bytes")
        compare(f"the program at a newline after {length} bytes", lines, [output_for(line) for line in lines], output([program], lines))


def output(command, lines):
    done = subprocess.run(command, input=b"".join(line + b"\n" for line in lines), capture_output=True)
    if done.returncode != 0 or done.stderr:
        sys.exit(f"{command[0]} ended with status {done.returncode}: {done.stderr[:300]!r}")
    return done.stdout


def compare(name, lines, expected, found):
    """Ends with status 1 at the first line that differs, or if there are too few or too many."""
    outputs = found.split(b"\n")
    if outputs.pop() != b"" or len(outputs) != len(lines):
        sys.exit(f"{name}: {len(outputs)} lines of output for {len(lines)} lines of input")
    for line, of_model, of_program in zip(lines, expected, outputs):
        if of_model != of_program:
            sys.exit(f"{name} differs at the line {line!r}:\n  expected {of_model!r}\n  found    {of_program!r}")


def main():
    parser = argparse.ArgumentParser()
    parser.add_argument("program")
    parser.add_argument("--seed", type=int, default=1)
    parser.add_argument("--cases", type=int, default=20000)
    options = parser.parse_args()
    if options.cases < 1:
        parser.error("--cases is a number from 1 on")
    rng = random.Random(options.seed)
    lines = listed_lines() + lines_of_each_byte() + [random_line(rng) for _ in range(options.cases)]
    expected = [output_for(line) for line in lines]
    kinds = [sum(map(test, expected)) for test in (lambda o: o == b"?", lambda o: b"!" in o, lambda o: len(o) > 900)]
    if not all(kinds):
        sys.exit(f"the lines leave out a kind: {kinds} refused, with a note, long")
    compare("the program", lines, expected, output([options.program], lines))
    for edge in (4096, 8192, 65536):
        compare_about(options.program, edge)
    models = "CPython's codecs"
    if shutil.which("node"):
        compare("the engine's model", lines, expected, output(["node", os.path.join(HERE, "model.js")], lines))
        models += " and the JavaScript engine's strings"
    else:
        print("left out: the engine's model of the program's language, since node is not there")
    # The last line needs no newline.
    end = lines[-1] if lines[-1] else b"0041"
    if output_without_newline(options.program, end) != output_for(end) + b"\n":
        sys.exit("a last line without a newline has another output")
    print(f"{len(lines)} lines, {kinds[0]} refused, {kinds[1]} with a note: the outputs are those of the models over {models}")


def output_without_newline(program, line):
    return subprocess.run([program], input=line, capture_output=True, check=True).stdout


main()
