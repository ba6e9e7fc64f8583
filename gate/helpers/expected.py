#!/usr/bin/env python3
"""Compares what a check of the gate found with gate/expected_counts.txt: a check that looks at nothing finds nothing
wrong. From a shell script: gate/helpers/expected.py KIND NAME=NUMBER.."""
import pathlib
import re
import sys

FILE = pathlib.Path(__file__).resolve().parent.parent / "expected_counts.txt"


def as_expected(kind, found):
    """Whether the numbers by name are those of the file's lines `KIND NAME: NUMBER`. Prints each line that is another."""
    lines = re.findall(rf"^{re.escape(kind)} (\S+): (\d+)$", FILE.read_text(encoding="utf-8"), re.M)
    expected = {name: int(number) for name, number in lines}
    wrong = [name for name in sorted({*expected, *found}) if expected.get(name) != found.get(name)]
    for name in wrong:
        print(f"{kind} {name}: {found.get(name, 0)}, and {expected.get(name, 'nothing')} in gate/expected_counts.txt, which changes with them")
    return not wrong and bool(expected)


if __name__ == "__main__":
    numbers = (argument.rpartition("=") for argument in sys.argv[2:])
    sys.exit(not as_expected(sys.argv[1], {name: int(number) for name, _, number in numbers}))
