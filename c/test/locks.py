"""Whether each call of the module's class holds the locks of the strings that it passes to the library: the locks note that
they are held, and the library is called through an object that looks. Then whether a signal's handler may ask a string in the
middle of each call: the library is called through an object that raises the signal."""
import copy
import faulthandler
import operator
import pathlib
import signal
import sys

sys.path.insert(0, str(pathlib.Path(__file__).resolve().parent.parent))
import wtf8
from wtf8 import String

# The strings whose locks must be held, by their identity. A call makes others, which no other thread has.
shared = {}
# What is wrong, the library's calls that were given such strings, and the orders in which two locks were taken.
faults, passed, orders = [], set(), set()


class Lock:
    """The lock of a shared string, which can be held once."""

    def __init__(self, name):
        self.name, self.is_held = name, False

    def __enter__(self):
        if self.is_held:
            faults.append(f"the lock of {self.name} is taken twice")
        orders.update((string.lock.name, self.name) for string in shared.values() if string.lock.is_held)
        self.is_held = True

    def __exit__(self, *_):
        self.is_held = False


class Library:
    """The library, each of whose calls looks for the locks of the strings that it is given."""

    def __init__(self, lib):
        self.calls, self.lib = {}, lib

    def __getattr__(self, name):
        def call(*arguments):
            for argument in arguments:
                if id(argument) in shared:
                    passed.add(name)
                    if not argument.lock.is_held:
                        faults.append(f"{name} is passed {argument.lock.name}, which is not locked")
            return getattr(self.lib, name)(*arguments)

        return self.calls.setdefault(name, call)


def a_string(text, name):
    string = String(text)
    string.lock = Lock(name)
    shared[id(string)] = string
    return string


def ignoring(error, call):
    """The call, without the error that it raises."""
    try:
        call()
        faults.append(f"no {error.__name__}")
    except error:
        pass


one, two = a_string("ab\ud83d\udca9abc", "one"), a_string("ab", "two")
wtf8.lib = Library(wtf8.lib)
OF_ONE = [
    len, str, repr, list, String.units, String.lossy, String.isascii, String.hash, String.key, copy.copy, copy.deepcopy,
    lambda s: s.push("a\udca9"), lambda s: s.push(""), lambda s: s.replace(1, 3, "x"), lambda s: s[0], lambda s: s[-1],
    lambda s: s[1:3], lambda s: s[:], lambda s: s[::-1], lambda s: "b" in s, lambda s: s.find("b"), lambda s: s.rfind("b", 1),
    lambda s: s + "a", lambda s: "a" + s, lambda s: operator.iadd(s, "a"), lambda s: s == "a", lambda s: s < "a",
    lambda s: s.find("b", 1, 3), lambda s: s.rfind("b", 1, 3), lambda s: s.count("b", 1, 5), lambda s: s.startswith(("a", "b")),
    lambda s: s.endswith("b"), lambda s: s.split("b"), String.split, lambda s: s.join("ab"), String.mark, String.to_utf16le,
    lambda s: ignoring(IndexError, lambda: s.replace(3, 1, "x")), lambda s: ignoring(ValueError, s.latin1),
    lambda s: ignoring(IndexError, lambda: s[10**6]), lambda s: ignoring(UnicodeEncodeError, lambda: str(s).encode()),
]
OF_TWO = [
    String.push, operator.add, operator.iadd, operator.eq, operator.ne, operator.lt, operator.le, operator.gt, operator.ge,
    operator.contains, String.find, String.rfind, lambda a, b: a.find(b, 1, 5), String.count, String.startswith, String.endswith,
    String.split, lambda a, b: a.join([b, a]), lambda a, b: a.count(b, 1), lambda a, b: a.rfind(b, 1, 5),
]
for call in OF_ONE:
    call(one)
for call in OF_TWO:
    for a, b in ((one, two), (two, one), (one, one), (two, two)):
        call(a, b)
if len(orders) != 1:
    faults.append(f"two locks are held together in these orders: {sorted(orders)}")
for string in (one, two):
    if string.lock.is_held:
        faults.append(f"the lock of {string.lock.name} stays held")
expected = {f"wtf8_{name}" for name in """
    unit_len copy_units copy_lossy is_ascii copy_latin1 byte_len hash push_units push_string replace_units slice_units find
    rfind equal compare_code_points starts_with mark
""".split()}
if passed != expected:
    faults.append(f"other calls have strings: {sorted(passed ^ expected)}")


class Signalling(Library):
    """The library, each of whose calls raises a signal before it and after it."""

    def __getattr__(self, name):
        def call(*arguments):
            signal.raise_signal(signal.SIGUSR1)
            result = getattr(self.lib, name)(*arguments)
            signal.raise_signal(signal.SIGUSR1)
            return result

        return self.calls.setdefault(name, call)


def ask(*_):
    """What the signal calls: it asks both strings, and makes the next of the changes, by the plain library."""
    signalling, wtf8.lib = wtf8.lib, plain
    answers.append((len(one) == len(one.units()), str(one).startswith("ab") == one.startswith(two) == (one.find(two, 0, 5) == 0)))
    if changes:
        changes.pop()(one)
    wtf8.lib = signalling


def interrupted(call, *strings):
    """What a call returns in which signals are raised."""
    wtf8.lib = Signalling(plain)
    try:
        return call(*strings)
    finally:
        wtf8.lib = plain


shared.clear()
plain, answers, changes = wtf8.lib.lib, [], []
signal.signal(signal.SIGUSR1, ask)
faulthandler.dump_traceback_later(60, exit=True)  # if a handler waits for a lock
for call, strings in [(call, 1) for call in OF_ONE] + [(call, 2) for call in OF_TWO]:
    answers.clear()
    one, two = String("ab\ud83d\udca9abc\udca9"), String("ab")
    interrupted(call, *(one, two)[:strings])
    if len(answers) < 2 or not all(map(all, answers)):
        faults.append(f"a handler is answered wrong in a call, {answers}")
# Before the string is copied out it changes: before it is asked for its length, after that, or then.
for change in (lambda s: s.push("\u4e2d\udca9"), lambda s: s.replace(0, 1, "")):
    for copied in (String.units, String.lossy, String.to_utf16le, str):
        for i in range(3):
            one = String("ab\ud83d")
            changes = [change, *[len] * i]
            if interrupted(copied, one) != copied(one) or len(one) == 3:
                faults.append(f"{copied} of a string that signal {i} changes")
faulthandler.cancel_dump_traceback_later()
print(*faults, sep="\n", end="\n" * bool(faults))
print(f"locks.py: {len(faults)} faults in {len(passed)} calls")
sys.exit(bool(faults))
