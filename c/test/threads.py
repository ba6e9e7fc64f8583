"""Two Python threads that push to one string of the module's class and ask its length; then threads with a string that
has no lock: they push by calls that keep the interpreter's lock, and ask by calls that do not."""
import ctypes
import pathlib
import sys
import threading

sys.path.insert(0, str(pathlib.Path(__file__).resolve().parent.parent))
from wtf8 import String, Struct, lib

FRONT, CALLS, PUSHES, THREADS = 20000, 30000, 20000, 4
sys.setswitchinterval(1e-5)
keeping = ctypes.PyDLL("libwtf8.so.0")
keeping.wtf8_unit_len.restype = ctypes.c_size_t


def run(count, work):
    """Runs `work` in `count` threads. Returns the sum of the numbers of wrong results that it returns."""
    wrong = [0] * count

    def run_one(i):
        wrong[i] = work()

    threads = [threading.Thread(target=run_one, args=(i,)) for i in range(count)]
    for thread in threads:
        thread.start()
    for thread in threads:
        thread.join()
    return sum(wrong)


shared = String("\u4e2d" * FRONT)


def push_and_ask():
    """Makes half of CALLS pushes, a question after each: no length is below what this thread pushed, or shrinks."""
    wrong, last = 0, FRONT
    for pushed in range(1, CALLS // 2 + 1):
        shared.push("\u4e2d")
        n = len(shared) if pushed % 50 else len(str(shared).rstrip("\u0000"))
        wrong += not max(FRONT + pushed, last + 1) <= n <= FRONT + CALLS
        last = n
    return wrong


wrong = run(2, push_and_ask)
wrong += str(shared) != "\u4e2d" * (FRONT + CALLS)
wrong += run(2, lambda: sum(len(shared) != FRONT + CALLS for _ in range(CALLS)))

s = ctypes.byref(Struct())
if getattr(sys, "_is_gil_enabled", lambda: True)():
    wrong += run(THREADS, lambda: sum(keeping.wtf8_push_unit(s, 0x4E2D) != 0 for _ in range(PUSHES)))
    wrong += keeping.wtf8_unit_len(s) != THREADS * PUSHES
    keeping.wtf8_clear(s)
for _ in range(10 * THREADS):
    wrong += lib.wtf8_push_unit(s, 0x4E2D) != 0
wrong += run(THREADS, lambda: sum(lib.wtf8_unit_len(s) != THREADS * 10 for _ in range(PUSHES)))
lib.wtf8_free(s)
print(f"threads.py: {wrong} wrong results")
raise SystemExit(wrong != 0)
