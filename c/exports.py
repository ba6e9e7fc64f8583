"""The exports of crates/wtf8_c."""
import pathlib
import re

SOURCES = pathlib.Path(__file__).resolve().parent.parent / "crates/wtf8_c/src"
EXPORT = re.compile(r'pub extern "C" fn (\w+)\(([^)]*)\)(?:\s*->\s*(\w+))?((?:\s*(?:requires|ensures)[^\n]*)*)\s*\{')
# What c/build alone asks the proved code, and what c/wtf8.c alone calls.
IN_BUILD = {"wtf8_buffer_size", "wtf8_buffer_alignment"}
IN_C = {"wtf8_init", "wtf8_init_units"}
TYPES = {"u8": "uint8_t", "u16": "uint16_t", "u32": "uint32_t", "u64": "uint64_t", "usize": "size_t", "i32": "int32_t",
         "bool": "bool", "Wtf8String": "wtf8_string", "": "void"}


def exports():
    """Yields the name, the parameters, the type of the result and the contract of each export. A parameter is its name and
    its type; what takes no bytes is left out."""
    for file in sorted(SOURCES.glob("*.rt")):
        for name, inside, result, contract in EXPORT.findall(file.read_text()):
            parts = [tuple(half.strip() for half in p.split(":", 1)) for p in re.split(r",\s*", inside.strip().rstrip(",")) if p]
            yield name, [(p, kind) for p, kind in parts if kind != "Global"], result, contract
