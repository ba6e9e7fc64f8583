"""Strings of wtf8.h, to hand to libraries in C that take a wtf8_string, and to have one hash and one order with them.

Python's own strings also hold lone surrogates: a program that calls no such library needs nothing else. `lib` has every
call of wtf8.h with its result's type; pass each size_t as ctypes.c_size_t. A String may be passed as the struct. Threads
may share one, by its lock, in an interpreter without a global one too; calls that only read need it beside changes alone.
The handler of a signal may ask a String that the program was just calling.
"""
from __future__ import annotations

import array
import contextlib
import ctypes
import functools
import itertools
import operator
import os
import threading
from typing import Any, Callable, Iterable, Iterator, List, Optional, Tuple, Union


def load() -> ctypes.CDLL:
    """The library beside this file if it is there, else where the loader finds it."""
    beside = os.path.join(os.path.dirname(os.path.abspath(__file__)), "libwtf8.so.0")
    return ctypes.CDLL(beside if os.path.exists(beside) else "libwtf8.so.0")


lib = load()


class Struct(ctypes.Structure):
    """A wtf8_string."""

    _fields_ = [("words", ctypes.c_uint64 * 7)]


class Memory(ctypes.Structure):
    """A wtf8_memory."""

    _fields_ = [(name, ctypes.c_void_p) for name in ("allocate", "reallocate", "release", "context")]


# The types of results, and the calls that have them.
RESULTS = [
    (Memory, "memory_in_use"),
    (ctypes.c_char_p, "result_text version"),
    (None, "use_memory use_memory_with move clear free shrink"),
    (ctypes.c_size_t, "encoded_len unit_len byte_len capacity unit_before"),
    (
        ctypes.c_bool,
        """
        is_boundary is_utf8 is_ascii is_latin1 equal equal_units equal_utf8 starts_with_utf8 starts_with starts_with_units
        divides_pair
        """,
    ),
    (ctypes.c_uint64, "hash hash_units hash_utf8"),
    (
        ctypes.c_int32,
        """
        set_units set_utf8 set_latin1 set_string reserve_bytes mark push_unit push_code_point push_code_points
        push_units push_latin1 push_utf8 push_utf8_part push_utf8_lossy push_utf8_lossy_part push_string push_slice
        utf8_unit_len position_at unit_at next_surrogate next_code_point previous_code_point code_point_before
        truncate_bytes truncate_units pop slice_units insert_units remove_units replace_units insert replace copy_code_points
        copy_units copy_slice copy_utf8 copy_lossy copy_latin1 compare_units compare_code_points compare_with_units
        compare_with_utf8 find find_units rfind rfind_units
        """,
    ),
]
for result, names in RESULTS:
    for name in names.split():
        getattr(lib, f"wtf8_{name}").restype = result
NO_MEMORY, BAD_POSITION, ARRAY_TOO_SHORT = 1, 2, 3

Text = Union[str, "String"]


def check(code: int) -> None:
    """Raises what a call's code means in Python."""
    if code == NO_MEMORY:
        raise MemoryError
    if code:
        raise (IndexError if code == BAD_POSITION else ValueError)(lib.wtf8_result_text(code).decode())


def as_size(index: int) -> ctypes.c_size_t:
    """An index for the library. IndexError if it is negative or has more than 64 bits, of which ctypes would drop some."""
    size = ctypes.c_size_t(index)
    if size.value != index:
        raise IndexError(f"no unit has the index {index}")
    return size


@contextlib.contextmanager
def locked(*strings: String) -> Iterator[None]:
    """Holds the locks of strings, in one order whoever asks, so that no two threads wait for each other."""
    with contextlib.ExitStack() as stack:
        for _, string in sorted({id(string): string for string in strings}.items()):
            stack.enter_context(string.lock)
        yield


def units_of(text: str) -> array.array[int]:
    """The units of a text in UTF-16."""
    if not isinstance(text, str):
        raise TypeError(f"a str or a String is needed, not {type(text).__name__}")
    units = array.array("H")
    units.frombytes(text.encode("utf-16-le", "surrogatepass"))
    return units


def string_of(text: Text) -> String:
    """A string as it is, or that of a text."""
    return text if isinstance(text, String) else String(text)


def found(call: Callable[..., int], string: String, index: int, other: String) -> int:
    """What a search for another string finds at, after or before an index, or -1. The locks are held."""
    at = ctypes.c_size_t()
    code = call(string, ctypes.c_size_t(index), other, ctypes.byref(at))
    return at.value if code == 0 else -1


def occurrences(string: String, other: String) -> Iterator[int]:
    """The indexes at which another string, which is not empty, occurs, each after the end of the one before. The locks are
    held, and the string has marks, so that all this takes time linear in its length."""
    n: int = lib.wtf8_unit_len(other)
    at = found(lib.wtf8_find, string, 0, other)
    while at != -1:
        yield at
        at = found(lib.wtf8_find, string, at + n, other)


@functools.total_ordering
class String:
    """A string of 16-bit units, paired or not. Its length, its indexes and its slices count units, as in wtf8.h, and `<`
    goes by code points, as for Python's strings. A str stands for its units in UTF-16, so it equals the String of it, and a str
    with two surrogates that make a pair equals that of the character. `push` and `+=` change a String, so it is no key of a
    dict: `str` of it is one, and `hash` is the library's hash."""

    __hash__ = None  # type: ignore[assignment]

    def __init__(self, text: Text = "") -> None:
        self._as_parameter_ = ctypes.byref(Struct())
        self.lock = threading.RLock()
        self.push(text)

    def __del__(self, free: Callable[[String], None] = lib.wtf8_free) -> None:
        if hasattr(self, "_as_parameter_"):  # not if the __init__ of a subclass failed before this one
            free(self)

    @classmethod
    def from_units(cls, units: Iterable[int]) -> String:
        """A string of units, which must be numbers up to 0xFFFF. TypeError for bytes: `from_utf16le` takes two for each."""
        if isinstance(units, (bytes, bytearray)):
            raise TypeError("numbers are needed, not bytes: from_utf16le takes these")
        string = cls()
        string._push(array.array("H", units))
        return string

    @classmethod
    def from_utf16le(cls, data: bytes) -> String:
        """A string of units of two bytes each, the lower byte first, paired or not. ValueError if a byte is left over."""
        string, units = cls(), array.array("H")
        units.frombytes(data)
        string._push(units)
        return string

    def _push(self, units: array.array[int]) -> None:
        n = len(units)
        with self.lock:
            check(lib.wtf8_push_units(self, (ctypes.c_uint16 * n).from_buffer_copy(units), ctypes.c_size_t(n)))

    def push(self, text: Text) -> None:
        """Appends a text or another string. A trail surrogate after a lead completes the pair."""
        if isinstance(text, String):
            with locked(self, text):
                check(lib.wtf8_push_string(self, text))
            return
        self._push(units_of(text))

    def insert(self, index: int, text: Text) -> None:
        """Inserts a text or another string before the unit at an index."""
        self.replace(index, index, text)

    def replace(self, begin: int, end: int, text: Text) -> None:
        """Replaces the units from `begin` to before `end` by those of a text or another string, which may be empty. IndexError
        unless 0 <= begin <= end <= len(self)."""
        first, last = as_size(begin), as_size(end)
        if isinstance(text, String):
            with locked(self, text):
                check(lib.wtf8_replace(self, first, last, text))
            return
        units = units_of(text)
        n = len(units)
        with self.lock:
            new = (ctypes.c_uint16 * n).from_buffer_copy(units)
            check(lib.wtf8_replace_units(self, first, last, new, ctypes.c_size_t(n)))

    def mark(self) -> None:
        """Makes marks, by which an index is found without counting the units before it. `push` keeps them."""
        with self.lock:
            check(lib.wtf8_mark(self))

    def __len__(self) -> int:
        """The number of 16-bit units."""
        with self.lock:
            n: int = lib.wtf8_unit_len(self)
        return n

    def _copied(self, kind: Any, length: Callable[..., int], call: Callable[..., int], *more: None) -> bytes:
        """What a call copies out, in elements of a type. A signal's handler may change the length before the call."""
        with self.lock:
            n, code = ctypes.c_size_t(length(self)), ARRAY_TOO_SHORT
            while code == ARRAY_TOO_SHORT:
                out = (kind * n.value)()
                code = call(self, out, n, ctypes.byref(n), *more)
        check(code)
        return bytes(out)[: n.value * ctypes.sizeof(kind)]

    def to_utf16le(self) -> bytes:
        """The units as two bytes each, the lower byte first, paired or not."""
        return self._copied(ctypes.c_uint16, lib.wtf8_unit_len, lib.wtf8_copy_units)

    def units(self) -> List[int]:
        """The units as numbers."""
        return memoryview(self.to_utf16le()).cast("H").tolist()

    def __str__(self) -> str:
        return self.to_utf16le().decode("utf-16-le", "surrogatepass")

    def __repr__(self) -> str:
        return f"{type(self).__name__}({str(self)!r})"

    def lossy(self) -> str:
        """The text, with U+FFFD in place of each surrogate that is not paired."""
        return self._copied(ctypes.c_uint8, lib.wtf8_byte_len, lib.wtf8_copy_lossy).decode()

    def isascii(self) -> bool:
        """Whether each unit is ASCII."""
        with self.lock:
            return bool(lib.wtf8_is_ascii(self))

    def latin1(self) -> bytes:
        """The units, each as a byte. ValueError if one is greater than 0xFF."""
        return self._copied(ctypes.c_uint8, lib.wtf8_unit_len, lib.wtf8_copy_latin1, None)

    def __getitem__(self, index: Union[int, slice]) -> String:
        """A string of the unit at an index, or of the units of a slice."""
        with self.lock:
            n: int = lib.wtf8_unit_len(self)
            if not isinstance(index, slice):
                at = range(n)[operator.index(index)]
                return self._part(at, at + 1)
            begin, end, step = index.indices(n)
            if step == 1:
                return self._part(begin, max(begin, end))
        return self.from_units(self.units()[index])

    def _part(self, begin: int, end: int) -> String:
        """A string of the units from `begin` to before `end`. The lock is held."""
        part = type(self)()
        check(lib.wtf8_slice_units(part, self, ctypes.c_size_t(begin), ctypes.c_size_t(end)))
        return part

    def __iter__(self) -> Iterator[String]:
        """The units, each as a string, which are copied out first, since a look-up of each index would count to there."""
        for unit in self.units():
            yield self.from_units([unit])

    def __contains__(self, text: Text) -> bool:
        """Whether the units of a text or a string stand one after another in this one, also within a pair."""
        return self.find(text) != -1

    def _indexes(self, other: String, start: Optional[int], end: Optional[int]) -> range:
        """The indexes at which another string has room in `self[start:end]`, none if `start` is after the end of this one, as
        for str. The locks are held."""
        n: int = lib.wtf8_unit_len(self)
        begin, stop, _ = slice(start, end).indices(n)
        is_within = start is None or operator.index(start) <= n
        return range(begin, stop + 1 - lib.wtf8_unit_len(other) if is_within else begin)

    def find(self, text: Text, start: Optional[int] = None, end: Optional[int] = None) -> int:
        """The first index in `self[start:end]` at which the units of a text or a string occur, or -1, as of a str."""
        return self._find(text, start, end, is_last=False)

    def rfind(self, text: Text, start: Optional[int] = None, end: Optional[int] = None) -> int:
        """The last such index, or -1."""
        return self._find(text, start, end, is_last=True)

    def _find(self, text: Text, start: Optional[int], end: Optional[int], is_last: bool) -> int:
        """A search of the library goes on to an end of the string. If the part ends before, pieces of it are copied and
        searched, each for twice as many indexes, so that this takes time linear in the distance to what is found."""
        other, size = string_of(text), 1024
        call = lib.wtf8_rfind if is_last else lib.wtf8_find
        with locked(self, other):
            indexes, n = self._indexes(other, start, end), lib.wtf8_unit_len(other)
            if indexes and (indexes.start == 0 if is_last else lib.wtf8_unit_len(self) < indexes.stop + n):
                return found(call, self, indexes[-1 if is_last else 0], other)
            while indexes:
                piece = indexes[-size:] if is_last else indexes[:size]
                at = found(call, self._part(piece[0], piece[-1] + n), len(piece) - 1 if is_last else 0, other)
                if at != -1:
                    return piece[0] + at
                indexes = indexes[:-size] if is_last else indexes[size:]
                size *= 2
        return -1

    def count(self, text: Text, start: Optional[int] = None, end: Optional[int] = None) -> int:
        """How often the units of a text or a string occur in `self[start:end]`, each after the end of the one before, as of a
        str: those of none once more than the part has units."""
        other = string_of(text)
        with locked(self, other):
            indexes, n = self._indexes(other, start, end), lib.wtf8_unit_len(other)
            if n == 0 or not indexes:
                return len(indexes)
            part = self._part(indexes[0], indexes[-1] + n)
            part.mark()
            return sum(1 for _ in occurrences(part, other))

    def startswith(self, text: Union[Text, Tuple[Text, ...]], start: Optional[int] = None, end: Optional[int] = None) -> bool:
        """Whether `self[start:end]` begins with the units of a text or a string, or of one of a tuple, as of a str."""
        return self._has_at(0, text, start, end)

    def endswith(self, text: Union[Text, Tuple[Text, ...]], start: Optional[int] = None, end: Optional[int] = None) -> bool:
        """Whether it ends with them."""
        return self._has_at(-1, text, start, end)

    def _has_at(self, which: int, text: Union[Text, Tuple[Text, ...]], start: Optional[int], end: Optional[int]) -> bool:
        if isinstance(text, tuple):
            return any(self._has_at(which, each, start, end) for each in text)
        other = string_of(text)
        with locked(self, other):
            indexes = self._indexes(other, start, end)
            return bool(indexes) and bool(lib.wtf8_starts_with(self, ctypes.c_size_t(indexes[which]), other))

    def split(self, sep: Optional[Text] = None, maxsplit: int = -1) -> List[String]:
        """The strings between occurrences of a text or a string, the first `maxsplit` of these if that is not negative, or
        between white space, as of a str. ValueError if `sep` is empty."""
        if sep is None:
            return [type(self)(text) for text in str(self).split(None, maxsplit)]
        other, whole, parts, begin = string_of(sep), self[:], [], 0
        whole.mark()
        with locked(whole, other):
            n: int = lib.wtf8_unit_len(other)
            if n == 0:
                raise ValueError("empty separator")
            for at in itertools.islice(occurrences(whole, other), None if maxsplit < 0 else maxsplit):
                parts.append(whole._part(begin, at))
                begin = at + n
            return [*parts, whole._part(begin, lib.wtf8_unit_len(whole))]

    def join(self, parts: Iterable[Text]) -> String:
        """A string of texts or strings with this one between them."""
        whole = type(self)()
        for i, part in enumerate(parts):
            if i != 0:
                whole.push(self)
            whole.push(part)
        return whole

    def __add__(self, other: Text) -> String:
        if not isinstance(other, (str, String)):
            return NotImplemented
        whole = self[:]
        whole.push(other)
        return whole

    def __radd__(self, other: str) -> String:
        return type(self)(other) + self if isinstance(other, str) else NotImplemented

    def __iadd__(self, other: Text) -> String:
        if not isinstance(other, (str, String)):
            return NotImplemented
        self.push(other)
        return self

    def __eq__(self, other: object) -> bool:
        if not isinstance(other, (str, String)):
            return NotImplemented
        string = string_of(other)
        with locked(self, string):
            return bool(lib.wtf8_equal(self, string))

    def __lt__(self, other: Text) -> bool:
        if not isinstance(other, (str, String)):
            return NotImplemented
        string = string_of(other)
        with locked(self, string):
            return bool(lib.wtf8_compare_code_points(self, string) < 0)

    def __reduce__(self) -> Tuple[type[String], Tuple[str]]:
        """Copies, also `copy.copy`, have a struct of their own."""
        return type(self), (str(self),)

    def hash(self, seed_0: int = 0, seed_1: int = 0) -> int:
        """The hash that wtf8_hash returns under the seed."""
        with self.lock:
            return int(lib.wtf8_hash(self, ctypes.c_uint64(seed_0), ctypes.c_uint64(seed_1)))

    def key(self) -> bytes:
        """What to sort by, as `sorted(strings, key=String.key)`, for the order of wtf8_compare_units. That takes less
        time than a call for each comparison; `key=str` sorts by code points."""
        return str(self).encode("utf-16-be", "surrogatepass")
