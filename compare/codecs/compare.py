"""Sends lists of units through a program that dumps WTF-8, and compares its lines with what CPython's codecs make of the
same units, and for well-formed lists with what Node's TextEncoder makes of them.

    python3 compare.py PROGRAM [--seed N] [--cases N]
"""

import argparse
import itertools
import pathlib
import platform
import random
import shutil
import struct
import subprocess
import sys

# The greatest unit of each encoded length, the ends of the lead and trail surrogates, and their neighbours.
NINE = [0x007F, 0x07FF, 0xD7FF, 0xD800, 0xDBFF, 0xDC00, 0xDFFF, 0xE000, 0xFFFF]

LEADS = (0xD800, 0xDBFF)
TRAILS = (0xDC00, 0xDFFF)

# The pieces of well-formed lists: a unit of a range with one encoded length, or a pair.
WELL_FORMED = [[(0x0000, 0x007F)], [(0x0080, 0x07FF)], [(0x0800, 0xD7FF)], [(0xE000, 0xFFFF)], [LEADS, TRAILS]]
ALL = WELL_FORMED + 2 * [[LEADS], [TRAILS]]


def random_unit(first, last, below):
    """A unit of a range, one of its ends every third time or so."""
    if below(3) == 0:
        return (first, last)[below(2)]
    return first + below(last - first + 1)


def random_list(below):
    """Up to 40 units, and once in 200 lists or so up to 2,000; half of the lists are made well-formed."""
    pieces = (WELL_FORMED, ALL)[below(2)]
    length = below(2000) if below(200) == 0 else below(40)
    units = []
    while len(units) < length:
        units += [random_unit(*ends, below) for ends in pieces[below(len(pieces))]]
    return units


def random_lists(seed, cases):
    source = random.Random(seed)

    def below(bound):
        # Of the source's methods, only `random` gives the same numbers in every version of CPython.
        return int(source.random() * bound)

    return [random_list(below) for _ in range(cases)]


def short_lists():
    """All lists of at most three units out of the nine."""
    return [units for length in range(4) for units in itertools.product(NINE, repeat=length)]


def line_of(units):
    return " ".join(f"{unit:04X}" for unit in units)


def utf_16(units):
    return struct.pack(f"<{len(units)}H", *units)


def dumped_by_codecs(units):
    text = utf_16(units).decode("utf-16-le", "surrogatepass")
    return text.encode("utf-8", "surrogatepass").hex(" ").upper()


def is_well_formed(units):
    try:
        utf_16(units).decode("utf-16-le")
        return True
    except UnicodeDecodeError:
        return False


def outputs_of(command, lines):
    """The lines that a program prints for these lines, one for each."""
    ended = subprocess.run(command, input="".join(line + "\n" for line in lines).encode(), stdout=subprocess.PIPE)
    *outputs, rest = ended.stdout.decode("latin-1").split("\n")
    if ended.returncode != 0 or rest or len(outputs) != len(lines):
        sys.exit(f"{command[0]}: status {ended.returncode}, {len(outputs)} lines of output for {len(lines)} lines of input")
    return outputs


def compare(name, lists, outputs, expected):
    """Shows the shortest list with different results and ends, or counts the lists."""
    differing = [case for case in zip(lists, outputs, expected) if case[1] != case[2]]
    if differing:
        units, output, other = min(differing, key=lambda case: len(case[0]))
        sys.exit(
            f"{name}: {len(differing)} of {len(lists)} lists differ; the shortest, the program's output, the expected output:\n"
            f"{line_of(units)}\n{output!r}\n{other!r}"
        )
    print(f"{name}: {len(lists)} lists compared, {sum(map(len, lists))} units, all outputs agree")


def compare_with_codecs(lists, outputs):
    name = f"{platform.python_implementation()} {platform.python_version()}, its codecs"
    compare(name, lists, outputs, [dumped_by_codecs(units) for units in lists])


def compare_with_encoder(lists, outputs):
    node = shutil.which("node")
    if not node:
        print("left out: the comparison with Node's TextEncoder, since node is not there")
        return
    version = subprocess.run([node, "--version"], stdout=subprocess.PIPE, check=True).stdout.decode().strip()
    well_formed = [(units, output) for units, output in zip(lists, outputs) if is_well_formed(units)]
    lists, outputs = zip(*well_formed)
    encoder = pathlib.Path(__file__).with_name("encoder.js")
    compare(f"Node {version}, its TextEncoder", lists, outputs, outputs_of([node, encoder], [line_of(units) for units in lists]))


def main():
    parser = argparse.ArgumentParser(description="Compares a program that dumps WTF-8 with other encoders.")
    parser.add_argument("program")
    parser.add_argument("--seed", type=int, default=1)
    parser.add_argument("--cases", type=int, default=200000)
    arguments = parser.parse_args()
    if arguments.cases < 0:
        parser.error("--cases is below 0")
    lists = short_lists() + random_lists(arguments.seed, arguments.cases)
    outputs = outputs_of([arguments.program], [line_of(units) for units in lists])
    compare_with_codecs(lists, outputs)
    compare_with_encoder(lists, outputs)


main()
