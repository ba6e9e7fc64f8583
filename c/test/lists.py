"""Random lists of units, pushed in pieces to a string of the module's class, against Python's own strings; what the class
has of them, on texts of CPython's tests of surrogatepass and in parts of random strings too; how many units a search in a part
reads; what it does with other types, refused memory and blocks; that all has types; and those of the calls' results against
the header.
Arguments: a seed, and the number of lists."""
import copy
import ctypes
import gc
import importlib.util
import inspect
import operator
import pathlib
import pickle
import random
import re
import shutil
import struct
import sys
import tempfile

sys.path.insert(0, str(pathlib.Path(__file__).resolve().parent.parent))
import wtf8
from wtf8 import Memory, String, Struct, lib

HEADER = pathlib.Path(__file__).resolve().parent.parent / "wtf8.h"
ABI = pathlib.Path(__file__).resolve().parent.parent / "abi.txt"
BELOW = [(0xD800, 0xDC00), (0xDC00, 0xE000), (0, 0x10000), (0, 0x800), (0, 0x80)]


def text_of(units):
    return struct.pack(f"<{len(units)}H", *units).decode("utf-16-le", "surrogatepass")


TYPES = {
    "void": None,
    "const char *": ctypes.c_char_p,
    "size_t": ctypes.c_size_t,
    "bool": ctypes.c_bool,
    "uint64_t": ctypes.c_uint64,
    "int32_t": ctypes.c_int32,
    "wtf8_result": ctypes.c_int32,
    "wtf8_memory": Memory,
}
# Texts of CPython's tests of surrogatepass, and of edges of the encoding.
TEXTS = [
    "", "\x00z\x7f", "caf\u00e9\u00ff", "\u00ff\u0100", "abc\ud800def", "\U00010fff\ud800", "[\ud800\udc80]", "\ud800", "\udfff", "\udc80\ud800", "\ud800\ud800\udc00",
    "a\udbff\udfff", "\ud7ff\ue000", "\u007f\u0080\u07ff\u0800\uffff\U00010000\U0010ffff", "\0", "\ud83d\udca9\ud83d",
]


def wrong_results():
    """The calls of the header whose result has another type in the module."""
    found = re.findall(r"^(?:WTF8_CODE )?(\w+|const char \*) ?(wtf8_\w+)\(", HEADER.read_text(), re.M)
    if len(found) < 66:
        return [f"only {len(found)} calls in the header"]
    return [name for of, name in found if getattr(lib, name).restype is not TYPES[of]]


def wrong_pairs():
    """The pairs of texts on which what the class has of Python's strings differs from them."""
    wrong = []
    for text in TEXTS:
        for other in TEXTS:
            one, two = String(text), String(other)
            units, others = unit_list(text), unit_list(other)
            joined, at = units + others, len(units) // 2
            code_points, of_other = text_of(units), text_of(others)
            holds = any(units[i : i + len(others)] == others for i in range(len(units) + 1))
            same = (
                (one == two) is (units == others)
                and (one != two) is (units != others)
                and (one == other) is (other == one) is (units == others)
                and (one != other) is (other != one) is (units != others)
                and (one < two) is (one < other) is (other > one) is (code_points < of_other)
                and (one <= other) is (other >= one) is (code_points <= of_other)
                and (one > other) is (other < one) is (code_points > of_other)
                and (one >= two) is (one >= other) is (other <= one) is (code_points >= of_other)
                and (two in one) is holds is (other in one)
                and (one + two).units() == (one + other).units() == (text + two).units() == joined
                and [unit.units() for unit in one] == [[unit] for unit in units] == [one[i].units() for i in range(len(one))]
                and one[at:].units() == units[at:]
                and one[-2:9:1].units() == units[-2:9]
                and one[::-2].units() == units[::-2]
                and [String(part).units() for part in code_points.split()] == [part.units() for part in one.split()]
                and one.to_utf16le() == struct.pack(f"<{len(units)}H", *units)
                and String.from_utf16le(one.to_utf16le()) == String.from_units(iter(units)) == one
                and String.from_units(units) == copy.copy(one) == copy.deepcopy(one) == pickle.loads(pickle.dumps(one)) == one
                and eval(repr(one)) == one
                and one.isascii() is text.isascii()
                and latin1_of(one) == text.encode("latin-1", "replace") * (max(units, default=0) < 256)
                and one.lossy() == re.sub("[\ud800-\udfff]", "\ufffd", code_points)
            )
            plain, needle = (text_of_units(of) for of in (units, others))
            ranges = [(), (1,), (-2,), (0, 2), (1, -1), (9,), (2, 1), (None,), (None, 2), (1, None)]
            same = same and all(in_part(one, part, *of) == in_part(plain, needle, *of) for of in ranges for part in (two, other))
            same = same and all(parts_of(one, part) == parts_of(plain, needle) for part in (two, other))
            same = same and two.join([one, text, other]).units() == units + others + units + others + others
            edited, begin = copy.copy(one), len(units) // 3
            edited.replace(begin, at, other)
            same = same and edited.units() == units[:begin] + others + units[at:]
            edited, inserted = copy.copy(one), copy.copy(one)
            edited.replace(begin, at, two)
            inserted.insert(at, inserted)
            same = same and edited.units() == units[:begin] + others + units[at:] and inserted.units() == units[:at] + units + units[at:]
            copied = copy.copy(one)
            copied += "x"
            if not same or copied == one or String.__hash__ is not None:
                wrong.append((text, other))
    return wrong


def in_part(string, text, *of):
    """What the calls that search a part of a string return of a text, alone and in a tuple."""
    found = [call(text, *of) for call in (string.find, string.rfind, string.count, string.startswith, string.endswith)]
    return [*found, string.startswith(("x", text), *of), string.endswith((text, "x"), *of), string.startswith((), *of)]


def units_in(string):
    """The units of a string of the class, or of a text with a character for each."""
    return string.units() if isinstance(string, String) else list(map(ord, string))


def parts_of(string, text):
    """The units of the parts into which a text divides a string, everywhere and at few places, or the type of what is raised."""
    try:
        return [list(map(units_in, string.split(sep=text, maxsplit=most))) for most in (-1, 0, 1, 3)]
    except ValueError as error:
        return type(error)


def wrong_parts(draw, count):
    """The random strings, of few letters so that some occur often and some far apart, in parts of which another text is found
    than Python finds in a string with a character for each unit."""
    wrong = []
    for _ in range(count):
        letters = draw.choice(["ab", "a\u4e2d", "\u00e9\ud83d\udca9", "\udca9\ud83d", "\u4e2d\ud83da"])
        weights = [draw.choice([1, 1000]), *[1] * (len(letters) - 1)]
        plain = "".join(draw.choices(letters, weights, k=draw.choice([3, 40, 2000, 9000])))
        string, n = String.from_units(map(ord, plain)), len(plain)
        if draw.randrange(2):
            string.mark()
        begin = draw.randrange(n)
        for text in (plain[begin : begin + draw.choice([0, 1, 2, 1500])], "".join(draw.choices(letters, k=draw.choice([1, 3])))):
            of = [draw.choice([None, draw.randrange(-n - 2, n + 3)]) for _ in range(2)]
            same = all(in_part(string, part, *of) == in_part(plain, text, *of) for part in (text, String(text)))
            if not same or parts_of(string, text) != parts_of(plain, text) or string.units() != units_in(plain):
                wrong.append((plain[:9], text, *of))
    return wrong


def wrong_costs():
    """The searches of parts of a long string for which the library is passed more units than four times those up to what is
    found, or than the part or the first piece has, or more than eight pieces."""
    string, size, passed, calls = String("a" * 100000), 1024, [], wtf8.lib
    string.replace(70000, 70000, "b")

    class Noting:
        """The library, whose searches note how many units they are passed."""

        def __getattr__(self, name):
            call = getattr(calls, name)
            if name not in ("wtf8_find", "wtf8_rfind"):
                return call
            return lambda of, *rest: (passed.append(len(of)), call(of, *rest))[1]

    wrong, wtf8.lib = [], Noting()
    for find, of, at, most in [
        (string.find, (0, 10), -1, 10), (string.rfind, (99990, 100000), -1, 10), (string.find, (70000, 99999), 70000, size),
        (string.rfind, (1, 70001), 70000, size), (string.find, (60000, 99999), 70000, 4 * 10000), (string.rfind, (1, 80000), 70000, 4 * 10000),
        (string.find, (0, 99999), 70000, 100000), (string.rfind, (1, 100000), 70000, 100000),
    ]:
        passed.clear()
        if find("b", *of) != at or most < sum(passed) or not 0 < len(passed) < 9:
            wrong.append((find.__name__, *of, *passed))
    wtf8.lib = calls
    return wrong


def untyped():
    """The functions of the module and the class that lack the type of a parameter or of the result."""
    functions = {f"{of.__name__}.{name}": call for of in (wtf8, String) for name, call in vars(of).items()}
    named = {name: getattr(call, "__wrapped__", getattr(call, "__func__", call)) for name, call in functions.items()}
    found = {name: inspect.signature(call) for name, call in named.items() if inspect.isfunction(call) and call.__module__ == "wtf8"}
    lacking = inspect.Signature.empty
    return [
        name
        for name, of in found.items()
        if of.return_annotation is lacking
        or any(each.annotation is lacking for each in of.parameters.values() if each.name not in ("self", "cls"))
    ] + ["functions"] * (len(found) < 40)


def wrong_ranges():
    """The ranges of a text, in order or not and past its ends, in which what is found, cut out or replaced differs."""
    text, wrong = "abcabcabab", []
    string, bounds = String(text), [None, *range(-len(text) - 2, len(text) + 3)]
    for begin in bounds:
        for end in bounds:
            same = str(string[begin:end]) == text[begin:end]
            for part in ("ab", "abc", "cab", "b", ""):
                same = same and in_part(string, part, begin, end) == in_part(text, part, begin, end)
            if begin is not None and end is not None and 0 <= begin and 0 <= end:
                edited, is_range = String(text), begin <= end <= len(text)
                try:
                    edited.replace(begin, end, "xyz")
                    same = same and is_range and str(edited) == text[:begin] + "xyz" + text[end:]
                except IndexError:
                    same = same and not is_range and str(edited) == text
            if not same:
                wrong.append((begin, end))
    return wrong


class Name(String):
    """A subclass, which what is made of its strings has too."""


def error_of(call):
    """What a call raises, or None."""
    try:
        call()
    except Exception as error:
        return error
    return None


def raised(call):
    """The type of what a call raises."""
    return type(error_of(call))


def wrong_kinds():
    """What differs for strings of a subclass, values of other types, refused memory, blocks that are not freed, and the
    library beside the module."""
    name, huge = Name("ab"), ctypes.c_size_t(1 << 62)
    made = {
        "split": name.split("a")[1], "split by none": name.split()[0], "join": name.join(["c"]), "from_utf16le": Name.from_utf16le(b"ab"),
        "iteration": next(iter(name)), "slice": name[1:], "slice by step": name[::-1], "+": name + "c", "+ of a text": "c" + name, "copy": copy.copy(name),
        "pickle": pickle.loads(pickle.dumps(name)), "from_units": Name.from_units([1]),
    }
    wrong = [call for call, string in made.items() if type(string) is not Name]
    wrong += ["repr"] * (repr(name) != "Name('ab')")
    wrong += ["=="] * (name == "a" or name != "ab" or name == 1 or name == None or "ab" not in [name])  # noqa: E711
    wrong += ["a text with a pair"] * (String("\ud83d\udca9") != "\ud83d\udca9" or String("\ud83d\udca9") != "\U0001f4a9")
    others = {
        "+ of a number": lambda: name + 1, "number +": lambda: 1 + name, "+= of a number": lambda: operator.iadd(name, 1),
        "< of a number": lambda: name < 1, ">= of a number": lambda: name >= 1, "hash": lambda: hash(name), "index": lambda: name["a"],
        "a number": lambda: String(3), "bytes": lambda: String(b"ab"), "None": lambda: String(None), "push": lambda: name.push(3),
        "find": lambda: name.find(3), "find in bytes": lambda: name.find("a", "b"), "in": lambda: 3 in name, "count": lambda: name.count(3),
        "startswith": lambda: name.startswith(["a"]), "endswith": lambda: name.endswith(("a", 3, "b")), "split": lambda: name.split(3),
        "join": lambda: name.join(["a", 3]), "join of none": lambda: name.join(None), "insert": lambda: name.insert("a", "b"),
        "replace of texts": lambda: name.replace("a", "b"), "replace by a number": lambda: name.replace(0, 1, 3),
        "units of bytes": lambda: Name.from_units(b"ab"), "units of an array of bytes": lambda: Name.from_units(bytearray(b"ab")),
        "units of a text": lambda: Name.from_units("ab"), "UTF-16 of a text": lambda: Name.from_utf16le("ab"),
    }
    wrong += [call for call, of in others.items() if raised(of) is not TypeError]
    after = [2, -3, 1 << 64, -(1 << 64)]
    wrong += [f"index {i}" for i in after if raised(lambda: name[i]) is not IndexError]
    wrong += [f"insert {i}" for i in (*after[1:], 3, -1) if raised(lambda: name.insert(i, "c")) is not IndexError]
    wrong += ["half a unit"] * (raised(lambda: Name.from_utf16le(b"abc")) is not ValueError)
    wrong += ["split by nothing"] * (raised(lambda: name.split("")) is not ValueError or str(name) != "ab")
    wrong += ["refused memory"] * (raised(lambda: wtf8.check(lib.wtf8_reserve_bytes(name, huge))) is not MemoryError)
    wrong += ["an error"] * ("not a boundary" not in str(error_of(lambda: name.replace(1, 9, ""))))
    same = name
    same += "c"
    wrong += ["+="] * (same is not name)
    wrong += ["units that are none"] * (raised(lambda: Name.from_units([65536])) is not OverflowError)
    wrong += ["__del__"] * bool(complaints_of_half_a_string())
    return wrong + ["blocks"] * (blocks_left() != 0) + ["the library beside the module"] * (not is_beside_read())


def complaints_of_half_a_string():
    """What is said when a string is let go whose subclass raises before it is made."""

    class Half(String):
        def __init__(self):
            raise KeyError

    said, before = [], sys.unraisablehook
    sys.unraisablehook = said.append
    try:
        wrong = [] if raised(Half) is KeyError else ["no error"]
        gc.collect()
    finally:
        sys.unraisablehook = before
    return said + wrong


def blocks_left():
    """The number of blocks that are left of strings which are made, changed and let go."""
    libc, blocks = ctypes.CDLL(None), set()
    libc.malloc.restype = libc.realloc.restype = ctypes.c_void_p

    def allocate(size):
        blocks.add(at := libc.malloc(ctypes.c_size_t(size)))
        return at

    def reallocate(at, size):
        blocks.discard(at)
        blocks.add(at := libc.realloc(ctypes.c_void_p(at), ctypes.c_size_t(size)))
        return at

    def release(at):
        blocks.discard(at)
        libc.free(ctypes.c_void_p(at))

    word, size = ctypes.c_void_p, ctypes.c_size_t
    functions = ctypes.CFUNCTYPE(word, size)(allocate), ctypes.CFUNCTYPE(word, word, size)(reallocate), ctypes.CFUNCTYPE(None, word)(release)
    gc.collect()
    lib.wtf8_use_memory(*functions)
    made = [String("text" * n) for n in range(9)]
    made += [string + "more" for string in made] + [string[1:3] for string in made] + [copy.copy(string) for string in made]
    counts = len(blocks)
    del made
    gc.collect()
    lib.wtf8_use_memory(*(ctypes.cast(of, word) for of in (libc.malloc, libc.realloc, libc.free)))
    return len(blocks) if counts else -1


def is_beside_read():
    """Whether a copy of the module reads the library that lies beside it: here a file that is none."""
    with tempfile.TemporaryDirectory() as folder:
        module = pathlib.Path(shutil.copy(wtf8.__file__, folder))
        module.with_name("libwtf8.so.0").write_bytes(b"none")
        spec = importlib.util.spec_from_file_location("beside", module)
        return raised(lambda: spec.loader.exec_module(importlib.util.module_from_spec(spec))) is OSError


def latin1_of(string):
    """The string's text in Latin-1, or no bytes if it has none."""
    try:
        return string.latin1()
    except ValueError:
        return b""


def text_of_units(units):
    """A text with a character for each unit, in which Python's `find` counts units."""
    return "".join(map(chr, units))


def unit_list(text):
    encoded = text.encode("utf-16-le", "surrogatepass")
    return list(struct.unpack(f"<{len(encoded) // 2}H", encoded))


def hash_of(units, *seeds):
    """The hash by the library of the list of units, without a string."""
    array = (ctypes.c_uint16 * len(units))(*units)
    return lib.wtf8_hash_units(array, ctypes.c_size_t(len(units)), *map(ctypes.c_uint64, seeds))


def main(seed, count):
    draw = random.Random(seed)
    wrong = lone = 0
    for kind, name in (Struct, "wtf8_string"), (Memory, "wtf8_memory"):
        size, aligned = map(int, re.search(rf"{name}: (\d+) bytes, aligned to (\d+)", ABI.read_text()).groups())
        wrong += ctypes.sizeof(kind) != size or ctypes.alignment(kind) != aligned
    last, last_units = String(), []
    for _ in range(count):
        units = [draw.randrange(*draw.choice(BELOW)) for _ in range(draw.choice([0, 1, 2, 5, 40, 300]))]
        cuts = sorted(draw.randint(0, len(units)) for _ in range(draw.randrange(4)))
        text = text_of(units)
        string = String(text_of(units[: cuts[0]] if cuts else units))
        for begin, end in zip(cuts, cuts[1:] + [len(units)]):
            string.push(text_of(units[begin:end]))
        wrong += str(string) != text or len(string) != len(units)
        wrong += lib.wtf8_byte_len(string) != len(text.encode("utf-8", "surrogatepass"))
        seeds = draw.randrange(1 << 64), draw.randrange(1 << 64)
        wrong += string.hash(*seeds) != hash_of(units, *seeds) or string.hash() != hash_of(units, 0, 0)
        order = (last_units > units) - (last_units < units)
        wrong += lib.wtf8_compare_units(last, string) != order
        wrong += (last.key() > string.key()) - (last.key() < string.key()) != order
        last, last_units = string, units
        lone += any(0xD800 <= ord(point) < 0xE000 for point in text)
    for found in (wrong_results(), wrong_pairs(), wrong_ranges(), wrong_parts(draw, count // 20), wrong_costs(), wrong_kinds(), untyped()):
        wrong += len(found)
        print(*map(ascii, found), sep="\n", end="\n" * bool(found))
    print(f"lists.py: {wrong} differences in {count} lists, of which {lone} have a lone surrogate")
    return wrong != 0 or not lone


sys.exit(main(*map(int, sys.argv[1:])))
