"""Instructions per item of a loop of the program that compares, counted by valgrind."""

import concurrent.futures
import os
import subprocess

# The loop of `push_wtf8` begins a new string every 64 rounds.
FEW, MANY = 16, 80

# The C library copies and fills long blocks by one instruction each, which valgrind counts once for each byte, unless
# these thresholds are above their lengths.
TUNABLES = ":".join(f"glibc.cpu.x86_rep_{kind}_threshold=1000000000" for kind in ("movsb", "stosb"))


def count(program, side, name, rounds):
    """Returns the instructions of a run of one side's loop."""
    command = ["valgrind", "--tool=callgrind", "--callgrind-out-file=/dev/null", program, "loop", side, name, str(rounds)]
    env = {**os.environ, "GLIBC_TUNABLES": TUNABLES}
    run = subprocess.run(command, stdout=subprocess.DEVNULL, stderr=subprocess.PIPE, env=env, text=True, check=True)
    return next(int(line.split()[-1]) for line in run.stderr.splitlines() if "Collected :" in line)


def per_item(program, side, name, items):
    """Returns the instructions per item, without those of making the strings."""
    return (count(program, side, name, MANY) - count(program, side, name, FEW)) / (MANY - FEW) / items


def counts(program, rows, sides):
    """Counts all rows, some at a time, and yields each row's name and its numbers, in the rows' order."""
    with concurrent.futures.ThreadPoolExecutor(max(1, (os.cpu_count() or 1) - 1)) as pool:
        jobs = [(name, [pool.submit(per_item, program, side, name, items) for side in sides]) for name, items in rows]
        for name, numbers in jobs:
            yield name, [number.result() for number in numbers]
