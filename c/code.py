"""Prints a line for each function of the proved code in a library, sorted: its name and its instructions, without addresses but
with the number of the instruction that a jump goes to, and without what only aligns others. So what two assemblers made of one
text is equal. Arguments: the objdump for the library's processor, and the library."""
import re
import subprocess
import sys

# An instruction's address, its text, and whether the linker relocates it.
INSTRUCTION = re.compile(r"^ *([0-9a-f]+):\t(.*?)\s*(?:(?:#|//) .*)?\n(?:\t+[0-9a-f]+: (R)_.*\n)?", re.M)
FILLS = re.compile(r"(?:data16 |cs )*nop|xchg +%ax,%ax$")


def main(objdump, library):
    listing = subprocess.run([objdump, "-dr", "--no-show-raw-insn", library], check=True, capture_output=True, text=True).stdout
    lines = []
    for name, body in re.findall(r"^[0-9a-f]+ <(.*)>:\n((?:[ \t].*\n)+)", listing, re.M):
        # What several objects need has another name in an archive, and what only c/build asks is not there.
        name = re.sub(r"^wtf8_own_\d+_", "", name)
        if not re.search(r"::|_v\d$", name) or name.startswith("wtf8_buffer_"):
            continue
        code, numbers = [], {}
        for address, text, is_relocated in INSTRUCTION.findall(body):
            numbers[address] = len(code)
            if not FILLS.match(text):
                code.append((text, is_relocated))
        jump = re.compile(r"\b([0-9a-f]+) <.*>$")
        code = [jump.sub("elsewhere" if is_relocated else lambda to: str(numbers[to[1]]), text) for text, is_relocated in code]
        lines.append("; ".join([name, *code]))
    if not lines:
        sys.exit(f"c/code.py: {library} has no proved code")
    print(*sorted(lines), sep="\n")


main(*sys.argv[1:])
