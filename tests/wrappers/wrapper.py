"""Tests examples/python/hardieflax.py on the stand-in for the library: `python3 wrapper.py LIBRARY` (tests/wrappers.sh makes it)."""

from __future__ import annotations

import copy
import ctypes
import gc
import pathlib
import pickle
import sys
import threading
import unittest

sys.path.insert(0, str(pathlib.Path(__file__).resolve().parent.parent.parent / "examples/python"))

from hardieflax import Dialect, Hardieflax, HardieflaxError, Status  # noqa: E402

LIBRARY = sys.argv.pop(1)


def living() -> int:
    """How many handles own something."""
    count = ctypes.CDLL(LIBRARY).stand_in_living
    count.restype = ctypes.c_size_t
    return int(count())


class Wrapper(unittest.TestCase):
    def setUp(self) -> None:
        gc.collect()
        self.handle = Hardieflax(LIBRARY)

    def fails(self, status: int, data: bytes) -> HardieflaxError:
        with self.assertRaises(HardieflaxError) as caught:
            self.handle.build(data)
        self.assertEqual(caught.exception.status, status)
        return caught.exception

    def test_each_call_passes_what_it_is_given(self) -> None:
        text = "é \0 x".encode()
        self.assertEqual(self.handle.build(text), b"build - " + text)
        self.assertEqual(self.handle.guard(text), b"guard - " + text)
        self.assertEqual(self.handle.open(text), b"open - " + text)
        self.assertEqual(self.handle.next(text), b"next - " + text)
        for number, dialect in enumerate((Dialect.PG, Dialect.MYSQL, Dialect.SQLITE, Dialect.BRACKET)):
            self.assertEqual(self.handle.read(dialect, text), b"read %d " % number + text)
            self.assertEqual(self.handle.audit(dialect, text), b"audit %d " % number + text)
            self.assertEqual(self.handle.audit_next(dialect, text), b"audit_next %d " % number + text)
        self.assertEqual(self.handle.open(text, 100), b"open_within 100 " + text)
        self.handle.reset()
        self.assertEqual(self.handle.next(text), b"next - " + text)

    def test_an_answer_outlives_the_next_call(self) -> None:
        first = self.handle.build(b"first")
        self.assertEqual(self.handle.build(b""), b"build - ")
        self.assertEqual(self.handle.build(b"nothing"), b"")
        self.handle.close()
        self.assertEqual(first, b"build - first")

    def test_a_status_is_an_error(self) -> None:
        for status in Status:
            error = self.fails(status, b"status %d" % status)
            self.assertIs(error.status, status)
            self.assertEqual(error.answered, b"")
            self.assertTrue(str(error).startswith(f"{status.name}: "))
            again = pickle.loads(pickle.dumps(error))
            self.assertEqual((type(again), again.status, str(again)), (HardieflaxError, status, str(error)))
        self.assertEqual(str(self.fails(5, b"status 5")), "status 5")
        self.assertEqual(self.handle.build(b"x"), b"build - x")

    def test_an_error_has_the_lines_before(self) -> None:
        error = self.fails(Status.NO_MEMORY, b"deep")
        self.assertEqual(error.answered, b"build - deep")
        again = pickle.loads(pickle.dumps(error))
        self.assertEqual((again.status, again.answered, str(again)), (error.status, error.answered, str(error)))
        self.assertEqual(self.handle.build(b""), b"build - ")
        self.assertEqual(error.answered, b"build - deep")

    def test_a_session_lives_on(self) -> None:
        for call, answered in ((self.handle.open, b"open - deep"), (self.handle.next, b"next - deep")):
            with self.assertRaises(HardieflaxError) as caught:
                call(b"deep")
            self.assertEqual((caught.exception.status, caught.exception.answered), (Status.NO_MEMORY, answered))
            self.assertEqual(self.handle.next(b"y"), b"next - y")
        for status in (Status.NO_MEMORY, Status.USAGE):
            with self.assertRaises(HardieflaxError) as caught:
                self.handle.next(b"status 6")
            self.assertEqual((caught.exception.status, caught.exception.answered), (status, b""))

    def test_a_session_is_open_until_it_is_closed(self) -> None:
        with self.assertRaises(HardieflaxError) as caught:
            self.handle.next(b"x")
        self.assertIs(caught.exception.status, Status.USAGE)
        with self.handle as session:
            self.assertEqual(session.open(b"x"), b"open - x")
            self.assertEqual(session.next(b"y"), b"next - y")
        for call in (lambda: self.handle.next(b"x"), self.handle.reset, lambda: self.handle.audit_next(Dialect.PG, b"x")):
            with self.assertRaises(HardieflaxError) as caught:
                call()
            self.assertIs(caught.exception.status, Status.USAGE)
        for capacity in (-1, 2**32):
            with self.assertRaises(ValueError):
                self.handle.open(b"x", capacity)
        self.assertEqual(self.handle.open(b"x"), b"open - x")

    def test_what_is_no_input_is_not_passed(self) -> None:
        for data in ("text", None, bytearray(b"x"), 5):
            with self.assertRaises(TypeError):
                self.handle.build(data)  # type: ignore[arg-type]
        for dialect in (4, -1, 2**32):
            with self.assertRaises(ValueError):
                self.handle.read(dialect, b"x")  # type: ignore[arg-type]
            with self.assertRaises(ValueError):
                self.handle.audit(dialect, b"x")  # type: ignore[arg-type]

    def test_a_handle_is_not_copied(self) -> None:
        for made in (copy.copy, copy.deepcopy, pickle.dumps):
            with self.assertRaises(TypeError):
                made(self.handle)  # type: ignore[operator]

    def test_what_nothing_refers_to_is_freed(self) -> None:
        before = living()
        other = Hardieflax(LIBRARY)
        other.open(b"x")
        self.assertEqual(living(), before + 1)
        other.close()
        other.close()
        self.assertEqual(living(), before)
        other.open(b"x")
        self.assertEqual(living(), before + 1)
        del other
        gc.collect()
        self.assertEqual(living(), before)

    def test_threads_take_turns(self) -> None:
        wrong = []

        def ask(number: int) -> None:
            for turn in range(5):
                text = b"%d %d" % (number, turn)
                if self.handle.build(b"slow") != b"build - slow" or self.handle.build(text) != b"build - " + text:
                    wrong.append(text)

        threads = [threading.Thread(target=ask, args=(number,)) for number in range(4)]
        for thread in threads:
            thread.start()
        for thread in threads:
            thread.join()
        self.assertEqual(wrong, [])

    def test_a_library_that_is_missing(self) -> None:
        with self.assertRaises(OSError):
            Hardieflax("./no/such/library.so")


if __name__ == "__main__":
    unittest.main()
