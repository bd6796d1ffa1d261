"""Lists lent to the functions: every kind that is taken, every kind that is refused, and several threads and processes."""

from __future__ import annotations

import contextlib
import ctypes
import mmap
import os
import random
import signal
import subprocess
import threading
import time
import unittest
import unittest.mock
from array import array
from collections import OrderedDict, UserList, deque
from concurrent.futures import ThreadPoolExecutor
from typing import Any, Callable

from gearcard import Refused, hold, lists, mend, read, release, summary, work, write

from . import seeded

TRACE = [0, 50, 150, 100, 0]
CARD = [17, 1, 2, 18, 0]
HELD = [17, 1, 19, 18, 0]


def spread(values: list[int]) -> memoryview:
    """A view with a gap behind each element."""
    return memoryview(bytearray(byte for value in values for byte in (value, 255)))[::2]


def unaligned(values: list[int]) -> memoryview:
    """Speeds that begin at an odd address."""
    whole = bytearray(1 + 2 * len(values))
    whole[1:] = array("H", values).tobytes()
    return memoryview(whole)[1:].cast("H")


def mapped(values: list[int]) -> memoryview:
    room = mmap.mmap(-1, len(values))
    room[:] = bytes(values)
    return memoryview(room)


def array_of(code: str) -> Callable[[list[int]], Any]:
    return lambda values: array(code, values)


BYTES: dict[str, Callable[[list[int]], Any]] = {
    "list": list,
    "bytearray": bytearray,
    "memoryview": lambda values: memoryview(bytearray(values)),
    "mmap": mapped,
    "backwards": lambda values: memoryview(bytearray(reversed(values)))[::-1],
    "spread": spread,
    **{f"array {code}": array_of(code) for code in "bBhHiIlLqQ"},
}
SPEEDS: dict[str, Callable[[list[int]], Any]] = {
    "list": list,
    "memoryview": lambda values: memoryview(array("H", values)),
    "unaligned": unaligned,
    "spread": lambda values: memoryview(array("H", [each for value in values for each in (value, 9)]))[::2],
    **{f"array {code}": array_of(code) for code in "hHiIlLqQ"},
}
READ_ONLY: dict[str, Callable[[list[int]], Any]] = {
    "tuple": tuple,
    "bytes": bytes,
    "view": lambda values: memoryview(bytes(values)),
    "kind of list": type("Mine", (list,), {}),
}


NUMPY = """
import numpy
from gearcard import hold, lists, mend, work
from tests.tools.seeded import CAR_Z

speeds = numpy.array([0, 50, 150, 100, 0], "u2")
holds, card = numpy.zeros(5, "u1"), numpy.array([17, 1, 2, 18, 0], "u1")
copied, real = [], lists.Lent.copied
lists.Lent.copied = lambda lent: copied.append(lent.name) or real(lent)
assert work(CAR_Z, speeds, holds) == card.tobytes()
hold(CAR_Z, speeds, holds, card, 2, 3)
mend(CAR_Z, speeds, holds, card, 1, 60)
assert holds.tolist() == [0, 0, 3, 0, 0] and card.tolist() == [17, 1, 19, 18, 0] and speeds[1] == 60
assert copied == []
table = numpy.zeros((5, 2), "i8")
table[:, 1] = card
hold(CAR_Z, speeds.astype("i4"), table[:, 0], table[:, 1], 2, 4)
assert table.tolist() == [[0, 17], [0, 1], [4, 20], [0, 18], [0, 0]]
assert copied == ["speeds", "holds", "card"]
before = table.copy(), holds.copy(), card.copy()
fixed = card.copy()
fixed.flags.writeable = False
for wrong in (table, card.astype("f8"), fixed, card.astype("?"), card.astype(">u2"), numpy.broadcast_to(card[:1], 5), numpy.array(3, "u1"), card.astype("U1")):
    for lent in ((wrong, card), (holds, wrong)):
        try:
            hold(CAR_Z, speeds, *lent, 2, 3)
        except TypeError:
            continue
        raise SystemExit(f"taken: {wrong!r}")
try:
    hold(CAR_Z, speeds, card, card[:], 2, 3)
    raise SystemExit("one memory was taken twice")
except ValueError:
    pass
assert (table == before[0]).all() and (holds == before[1]).all() and (card == before[2]).all()
print("lent")
"""


def lent_by(case: unittest.TestCase, copied: Callable[[lists.Lent], array[int]]) -> None:
    """Has lists be copied by this function up to the end of the test."""
    patch = unittest.mock.patch.object(lists.Lent, "copied", copied)
    patch.start()
    case.addCleanup(patch.stop)


class Kinds(unittest.TestCase):
    def test_taken(self) -> None:
        """Each kind as holds and as card, beside each other kind."""
        for one, holds_of in BYTES.items():
            for two, card_of in BYTES.items():
                with self.subTest(holds=one, card=two):
                    holds, card = holds_of([0] * 5), card_of(CARD)
                    hold(seeded.CAR_Z, TRACE, holds, card, 2, 3)
                    self.assertEqual((list(holds), list(card)), ([0, 0, 3, 0, 0], HELD))
                    with self.assertRaises(Refused):
                        hold(seeded.CAR_Z, TRACE, holds, card, 2, 6)
                    self.assertEqual((list(holds), list(card)), ([0, 0, 3, 0, 0], HELD))
                    release(seeded.CAR_Z, TRACE, holds, card, 2)
                    self.assertEqual((list(holds), list(card)), ([0] * 5, CARD))

    def test_speeds(self) -> None:
        for name, speeds_of in SPEEDS.items():
            for card in (bytearray(CARD), list(CARD)):
                with self.subTest(name):
                    speeds = speeds_of(TRACE)
                    self.assertEqual(list(work(seeded.CAR_Z, speeds)), CARD)
                    self.assertEqual(summary(speeds, card).standing, 2)
                    mend(seeded.CAR_Z, speeds, bytes(5), card, 2, 120)
                    self.assertEqual(list(speeds), [0, 50, 120, 100, 0])
                    self.assertEqual(list(card), list(work(seeded.CAR_Z, [0, 50, 120, 100, 0])))
        self.assertEqual(list(work(seeded.CAR_Z, tuple(TRACE), (0,) * 5)), CARD)

    def test_only_read(self) -> None:
        for name, kind in READ_ONLY.items():
            with self.subTest(name):
                self.assertEqual(list(work(seeded.CAR_Z, TRACE, kind([0, 0, 3, 0, 0]))), HELD)
                holds, card = bytearray(5), bytearray(CARD)
                for lent in ((kind([0] * 5), card), (holds, kind(CARD))):
                    with self.assertRaisesRegex(TypeError, "cannot be written"):
                        hold(seeded.CAR_Z, TRACE, *lent, 2, 3)
                self.assertEqual((holds, card), (bytearray(5), bytearray(CARD)))

    def test_lent_as_it_is(self) -> None:
        """A buffer of the right numbers is not copied: while it is lent no other has room to look, so the count of copies is looked at."""
        copied: list[str] = []
        real = lists.Lent.copied

        def noted(lent: lists.Lent) -> array[int]:
            copied.append(lent.name)
            return real(lent)

        lent_by(self, noted)
        hold(seeded.CAR_Z, array("H", TRACE), bytearray(5), memoryview(bytearray(CARD)), 2, 3)
        work(seeded.CAR_Z, memoryview(array("H", TRACE)).toreadonly(), bytes(5))
        self.assertEqual(copied, [])
        hold(seeded.CAR_Z, array("H", TRACE), [0] * 5, bytearray(CARD), 2, 3)
        self.assertEqual(copied, ["holds", "card"])

    def test_refused(self) -> None:
        """Other kinds, before anything is written."""
        table = memoryview(bytearray(10)).cast("B", (2, 5))
        number = memoryview(bytearray(1)).cast("B", ())
        for wrong, words in (
            (deque([0] * 5), "cannot be written: deque"),
            (dict.fromkeys(range(5), 0), "cannot be written: dict"),
            (OrderedDict.fromkeys(range(5), 0), "cannot be written: OrderedDict"),
            (UserList([0] * 5), "cannot be written: UserList"),
            ({0, 1}, "cannot be written: set"),
            (iter([0] * 5), "cannot be written: list_iterator"),
            ("00000", "cannot be written: str"),
            (None, "cannot be written: NoneType"),
            (5, "cannot be written: int"),
            (table, "has 2 dimensions, and not one"),
            (number, "has 0 dimensions, and not one"),
            (array("f", [0] * 5), "is a buffer of 'f', and not of whole numbers"),
            (array("d", [0] * 5), "is a buffer of 'd'"),
            (memoryview(bytearray(5)).cast("c"), "is a buffer of 'c'"),
            (memoryview(bytearray(5)).cast("?"), r"is a buffer of '\?'"),
            ((ctypes.c_uint16 * 5)(), "is a buffer of '<H'"),
        ):
            holds, card = bytearray(5), bytearray(CARD)
            for name, lent in (("holds", (wrong, card)), ("card", (holds, wrong))):
                with self.subTest(name, wrong=type(wrong).__name__), self.assertRaisesRegex(TypeError, f"{name} {words}"):
                    hold(seeded.CAR_Z, TRACE, *lent, 2, 3)
            if wrong is not None:
                with self.assertRaises(TypeError):
                    work(seeded.CAR_Z, TRACE, wrong)
            self.assertEqual((holds, card), (bytearray(5), bytearray(CARD)))

    def test_wrong_numbers(self) -> None:
        numbers: tuple[tuple[Any, type[Exception], str], ...] = (
            ([0, 0, 256, 0, 0], ValueError, r"holds\[2\] = 256 is no whole number from 0 to 255"),
            ([0, 0, 0, -1, 0], ValueError, r"holds\[3\] = -1 is"),
            ([0, 2.0, 0, 0, 0], TypeError, r"holds\[1\] = 2.0 is no whole number"),
            ([None] * 5, TypeError, r"holds\[0\] = None is no whole number"),
            (array("i", [0, 0, 300, 0, 0]), ValueError, r"holds\[2\] = 300"),
        )
        for wrong, error, words in numbers:
            card, before = bytearray(CARD), list(wrong)
            with self.assertRaisesRegex(error, words):
                hold(seeded.CAR_Z, TRACE, wrong, card, 2, 3)
            self.assertEqual((list(wrong), card), (before, bytearray(CARD)))

    def test_shared(self) -> None:
        """Lists that are one memory are refused before anything is written; parts of one memory that do not meet are taken."""
        one, plain = bytearray(20), [0] * 5
        view = memoryview(one)
        speeds = view[:10].cast("H")
        for lent in (
            (TRACE, plain, plain),
            (TRACE, one, one),
            (TRACE, view[:5], view[4:9]),
            (TRACE, view[:10:2], view[2:7]),
            (TRACE, view[4::-1], view[:5]),
            (speeds, view[5:10], bytearray(CARD)),
            (speeds, bytearray(5), view[9:14]),
            (plain, plain, bytearray(CARD)),
        ):
            with self.assertRaisesRegex(ValueError, "share memory"):
                hold(seeded.CAR_Z, *lent, 2, 3)
        self.assertEqual((one, plain), (bytearray(20), [0] * 5))
        rows = bytearray(10)
        rows[1::2] = bytes(CARD)
        hold(seeded.CAR_Z, TRACE, memoryview(rows)[0::2], memoryview(rows)[1::2], 2, 3)
        self.assertEqual((list(rows[0::2]), list(rows[1::2])), ([0, 0, 3, 0, 0], HELD))
        # Where nothing is written, they may be one.
        self.assertEqual(summary([0] * 5, [0] * 5), summary(plain, plain))

    def test_empty(self) -> None:
        for empty in ([], bytearray(), array("H"), memoryview(b""), ()):
            calls: tuple[Callable[[], object], ...] = (
                lambda: work(seeded.CAR_Z, empty),
                lambda: write(seeded.CAR_Z, empty),
                lambda: summary(empty, empty),
            )
            for call in calls:
                with self.assertRaises((Refused, TypeError)) as raised:
                    call()
                if isinstance(raised.exception, Refused):
                    self.assertEqual((raised.exception.number, raised.exception.place), (1, 0))
        with self.assertRaises(Refused) as refused:
            hold(seeded.CAR_Z, array("H"), bytearray(), bytearray(), 0, 1)
        self.assertEqual((refused.exception.number, refused.exception.place), (1, 0))

    def test_numpy(self) -> None:
        """By Debian's Python, with Debian's numpy."""
        python = "/usr/bin/python3"
        if subprocess.run([python, "-c", "import numpy"], capture_output=True).returncode != 0:
            subprocess.run(["bash", "-c", ". scripts/kit.sh && needs 'numpy of the system' python3 python3-numpy"], check=True)
        ran = subprocess.run([python, "-c", NUMPY], env={**os.environ, "PYTHONPATH": f"python{os.pathsep}."}, capture_output=True, text=True)
        self.assertEqual((ran.returncode, ran.stdout), (0, "lent\n"), ran.stderr)


class Threads(unittest.TestCase):
    """Threads that share a job: every edit that is answered is there, and the card is that of the whole working."""

    def setUp(self) -> None:
        """A pause behind each copy, so that without a lock another thread would come between."""
        real = lists.Lent.copied

        def slowly(lent: lists.Lent) -> array[int]:
            copy = real(lent)
            time.sleep(1e-4)
            return copy

        lent_by(self, slowly)

    def trial(self, kind: Callable[[bytearray], Any], edits: int = 120) -> None:
        speeds = array("H", [0, *[150] * edits, 0])
        holds, card = kind(bytearray(len(speeds))), kind(work(seeded.CAR_Z, speeds))
        at_once = threading.Barrier(8)

        def some(first: int) -> None:
            at_once.wait()
            for second in range(first, edits + 1, 8):
                hold(seeded.CAR_Z, speeds, holds, card, second, 3)

        with ThreadPoolExecutor(8) as pool:
            list(pool.map(some, range(1, 9)))
        kept = sum(each == 3 for each in holds)
        print(f"tools: threads that share {type(holds).__name__}s: {edits} holds answered, {kept} kept")
        self.assertEqual(kept, edits)
        self.assertEqual(list(card), list(work(seeded.CAR_Z, speeds, holds)))

    def test_shared(self) -> None:
        kinds: tuple[Callable[[bytearray], Any], ...] = (bytearray, list, lambda values: array("i", list(values)))
        for kind in kinds:
            self.trial(kind)

    def test_readers(self) -> None:
        """No reader sees the speeds of an edit without its card, nor its card without the speeds."""
        speeds, holds = [0, *[150] * 60, 0], [0] * 62
        card = list(work(seeded.CAR_Z, speeds))
        before = summary(speeds, card)
        mend(seeded.CAR_Z, speeds, holds, card, 30, 0)
        whole, seen, done = {before, summary(speeds, card)}, set(), threading.Event()
        self.assertEqual(len(whole), 2)

        def edits() -> None:
            for k in range(60):
                mend(seeded.CAR_Z, speeds, holds, card, 30, 150 * (k % 2))
            done.set()

        editor = threading.Thread(target=edits)
        editor.start()
        while not done.is_set():
            seen.add(summary(speeds, card))
        editor.join()
        self.assertLessEqual(seen, whole)

    def test_read_in_threads(self) -> None:
        jobs = [seeded.job(seed) for seed in range(40)]
        with ThreadPoolExecutor(8) as pool:
            self.assertEqual(list(pool.map(lambda job: read(seeded.encoded(job)), jobs * 5)), jobs * 5)


class Forks(unittest.TestCase):
    def test_while_another_thread_calls(self) -> None:
        """A child of a fork works, and its lists are whole, whatever another thread was doing."""
        speeds, holds = [0, *[150] * 300, 0], [0] * 302
        card = list(work(seeded.CAR_Z, speeds))
        stop = threading.Event()

        def edits() -> None:
            r = random.Random(3)
            while not stop.is_set():
                second = r.randrange(1, 301)
                both: tuple[Callable[[], object], ...] = (
                    lambda: hold(seeded.CAR_Z, speeds, holds, card, second, 3),
                    lambda: release(seeded.CAR_Z, speeds, holds, card, second),
                )
                edit = r.choice(both)
                with contextlib.suppress(Refused):
                    edit()

        editor = threading.Thread(target=edits)
        editor.start()
        try:
            for _ in range(40):
                self.child(lambda: card == list(work(seeded.CAR_Z, speeds, holds)) and hold(seeded.CAR_Z, speeds, holds, card, 5, 3) is None)
        finally:
            stop.set()
            editor.join()

    def child(self, ok: Callable[[], bool]) -> None:
        child = os.fork()
        if child == 0:
            signal.alarm(20)
            os._exit(0 if ok() else 1)
        self.assertEqual(os.waitpid(child, 0)[1], 0)


class Interrupts(unittest.TestCase):
    def test_between_two_lists(self) -> None:
        """Interrupted at any moment, both lists are as before or both as after."""

        class Stop(Exception):
            pass

        def stop(*_: object) -> None:
            raise Stop

        before = signal.signal(signal.SIGALRM, stop)
        self.addCleanup(signal.signal, signal.SIGALRM, before)
        speeds, r, stopped = [0, *[150] * 60, 0], random.Random(9), 0
        free = list(work(seeded.CAR_Z, speeds))
        held_holds, held = [0] * 62, list(free)
        hold(seeded.CAR_Z, speeds, held_holds, held, 30, 3)
        until = time.monotonic() + 2
        while time.monotonic() < until:
            holds, card = [0] * 62, list(free)
            try:
                signal.setitimer(signal.ITIMER_REAL, r.uniform(1e-6, 60e-6))
                hold(seeded.CAR_Z, speeds, holds, card, 30, 3)
                signal.setitimer(signal.ITIMER_REAL, 0)
            except Stop:
                stopped += 1
            self.assertIn((holds, card), (([0] * 62, free), (held_holds, held)))
        self.assertGreater(stopped, 100)
