"""The library by ctypes, on two stand-ins that are compiled with its header.

One answers with what it was passed, the other by the program.
"""
from __future__ import annotations

import atexit
import copy
import ctypes
import ctypes.util
import gc
import json
import os
import pathlib
import pickle
import shutil
import subprocess
import sys
import tempfile
import threading
import unittest
from typing import Any, Hashable, List

import support
from support import Users
from hardieflax import EngineError, EngineMissing, Library, Program, Refused, Schema, Session, default_engine, query
from hardieflax import engines
from hardieflax.engines import Conversation, KeepsSession

FOLDER = tempfile.TemporaryDirectory(prefix="hardieflax-")
atexit.register(FOLDER.cleanup)


def compiled(source: pathlib.Path, *more: str) -> str:
    """The shared library of a C file. A test is skipped where there is no compiler."""
    compiler = shutil.which("cc") or shutil.which("gcc") or shutil.which("clang")
    if compiler is None:
        raise unittest.SkipTest("no C compiler for the library's stand-in")
    made = os.path.join(FOLDER.name, source.stem + ".so")
    if not os.path.exists(made):
        words = ["-std=c99", "-D_POSIX_C_SOURCE=200809L", "-Wall", "-Wextra", "-Werror", "-O1", "-fPIC", "-shared", *more]
        words.append(f"-I{support.TOP}/examples/c")
        subprocess.run([compiler, *words, "-o", made, str(source)], check=True)
    return made


class Calls(unittest.TestCase):
    """On the stand-in that answers with the call's name and its input."""

    def setUp(self) -> None:
        self.path = compiled(support.TOP / "tests/wrappers/stand_in.c")
        self.library = Library(self.path)

    def living(self) -> int:
        """How many handles own something."""
        gc.collect()
        count = ctypes.CDLL(self.path).stand_in_living
        count.restype = ctypes.c_size_t
        return int(count())

    def test_each_call_passes_what_it_is_given(self) -> None:
        text = "é \0 x".encode()
        for name in ("build", "guard", "open", "next"):
            self.assertEqual(self.library.run([name], text), name.encode() + b" - " + text)
        for number, dialect in enumerate(engines.DIALECTS):
            self.assertEqual(self.library.run(["audit", dialect], text), b"audit %d " % number + text)
        self.assertEqual([self.library.has(each) for each in ("build", "next", "tenant", "x")], [True, True, False, False])

    def test_a_status_is_an_error(self) -> None:
        for status, answered in ((2, b""), (3, b""), (7, b""), (5, b"")):
            with self.assertRaises(EngineError) as caught:
                self.library.run(["build"], b"status %d" % status)
            self.assertEqual((caught.exception.status, caught.exception.answered), (status, answered))
            again = pickle.loads(pickle.dumps(caught.exception))
            self.assertEqual((again.status, str(again)), (status, str(caught.exception)))
        with self.assertRaises(EngineError) as caught:
            self.library.run(["build"], b"deep")
        self.assertEqual((caught.exception.status, caught.exception.answered), (6, b"build - deep"))

    def test_sessions_are_kept(self) -> None:
        opened: List[object] = []

        def asked(owner: int) -> bytes:
            def opening() -> Any:
                opened.append(owner)
                return {"schema": owner}
            return self.library.next(owner, opening, "x")

        self.assertEqual(asked(1), b'next - {"schema":{"tables":[]},x}')
        for owner in (1, 2, 1, 2):
            asked(owner)
        self.assertEqual(opened, [1, 2])
        self.library.close()
        asked(2)
        self.assertEqual(opened, [1, 2, 2])
        before = self.living()
        for owner in range(10, 10 + engines.MOST_SESSIONS):
            asked(owner)
        self.assertEqual(self.living(), before + engines.MOST_SESSIONS - 1)
        asked(2)
        self.assertEqual(opened[-1], 2)

    def test_a_library_without_policies(self) -> None:
        self.assertFalse(self.library.has_policies())

    def test_what_is_no_input_is_not_passed(self) -> None:
        wrong: Any = "text"
        with self.assertRaises(TypeError):
            self.library.run(["build"], wrong)
        with self.assertRaises(ValueError):
            self.library.run(["read", "Oracle"], b"")
        with self.assertRaises(EngineError):
            self.library.run(["tenant"], b"")

    def test_a_handle_is_neither_copied_nor_kept(self) -> None:
        made: Any
        for made in (copy.copy, copy.deepcopy, pickle.dumps):
            with self.assertRaises(TypeError):
                made(self.library)
        before = self.living()
        with Library(self.path) as other:
            other.run(["open"], b"x")
            self.assertEqual(self.living(), before + 1)
        self.assertEqual(self.living(), before)
        other.run(["open"], b"x")
        del other
        self.assertEqual(self.living(), before)

    def test_threads_take_turns(self) -> None:
        wrong = []

        def ask(number: int) -> None:
            for turn in range(5):
                text = b"%d %d" % (number, turn)
                if self.library.run(["build"], b"slow") != b"build - slow" or self.library.run(["build"], text) != b"build - " + text:
                    wrong.append(text)

        threads = [threading.Thread(target=ask, args=(number,)) for number in range(4)]
        for thread in threads:
            thread.start()
        for thread in threads:
            thread.join()
        self.assertEqual(wrong, [])

    def test_a_forked_child_is_told(self) -> None:
        self.library.run(["open"], b"x")
        reading, writing = os.pipe()
        child = os.fork()
        if child == 0:
            try:
                self.library.run(["build"], b"x")
                os.write(writing, b"ran")
            except EngineError:
                os.write(writing, b"refused")
            finally:
                os._exit(0)
        os.waitpid(child, 0)
        self.assertEqual(os.read(reading, 20), b"refused")
        os.close(reading)
        os.close(writing)


class Sessions(unittest.TestCase):
    """On the stand-in that answers by the program."""

    def setUp(self) -> None:
        program = os.path.abspath(support.needed_program())
        self.library = Library(compiled(support.TOP / "tests/packages/library.c", f'-DPROGRAM="{program}"'))

    def test_it_answers_as_the_program_does(self) -> None:
        queries = [query(Users).filter(Users.name == "é\0"), query(Users).limit(1), query(Users).for_update(),
                   query(Users).filter(Users.id.in_([1]))]
        by_library = Session(Schema(*support.SCHEMA), dialect="Sqlite", engine=self.library)
        by_program = Session(Schema(*support.SCHEMA), dialect="Sqlite", engine=Program(support.needed_program()))
        for mine, theirs in zip(by_library.answer_all(queries), by_program.answer_all(queries)):
            if isinstance(mine, Refused) or isinstance(theirs, Refused):
                self.assertEqual(str(mine), str(theirs))
            else:
                for member in ("sql", "values", "columns", "safe", "id"):
                    self.assertEqual(getattr(mine, member), getattr(theirs, member))

    def test_rows_and_guards(self) -> None:
        session = Session(support.SCHEMA, support.blog(), engine=self.library)
        self.assertEqual(session.value(query(Users).count()), 3)
        self.assertTrue(self.library.has_policies())
        for number in (2, 3):
            guarded = Session(support.SCHEMA, support.blog(), engine=self.library, guards={Users: Users.id == number})
            self.assertEqual([user.id for user in guarded.all(query(Users))], [number])
            self.assertEqual(guarded.value(query(Users).count()), 1)


class Conversations(unittest.TestCase):
    """The program that stays."""

    SCHEMA = {"tables": [{"name": "t", "columns": [{"name": "id", "type": "Integer"}]}]}
    BODY = '"requests":[{"dialect":"Pg","query":{"from":{"table":"t"}}}]'

    def setUp(self) -> None:
        self.engine = Conversation(support.needed_program())
        self.addCleanup(self.engine.close)
        self.asked = 0

    def opening(self) -> Any:
        self.asked += 1
        return {"schema": self.SCHEMA}

    def next(self, owner: Hashable = "one", body: str = BODY) -> bytes:
        return self.engine.next(owner, self.opening, body)

    def process(self) -> Any:
        return self.engine._talks["one"]._process

    def test_one_process_answers_an_owner(self) -> None:
        self.assertIsInstance(self.engine, KeepsSession)
        self.assertEqual(self.next(), self.next())
        self.assertEqual(self.asked, 1)
        self.next("two")
        self.next()
        self.assertEqual(self.asked, 2)
        for owner in range(engines.MOST_SESSIONS):
            self.next(owner)
        self.assertEqual(len(self.engine._talks), engines.MOST_SESSIONS)
        self.next()
        self.assertEqual(self.asked, 3 + engines.MOST_SESSIONS)

    def test_it_answers_as_build_does(self) -> None:
        document = f'{{"schema":{json.dumps(self.SCHEMA)},{self.BODY}}}'
        self.assertEqual(self.next(), Program(support.needed_program()).run(["build"], document.encode()))
        self.assertEqual(self.next(body=self.BODY.replace(",", "\n,\n")), self.next())

    def test_what_it_refuses_ends_nothing(self) -> None:
        self.next()
        for body, status in (('"requests":[1]', 3), (f'"requests":[],"more":"{"x" * 16777216}"', 7)):
            with self.assertRaises(EngineError) as raised:
                self.next(body=body)
            self.assertEqual((raised.exception.status, raised.exception.answered), (status, b""))
        self.next()
        self.assertEqual(self.asked, 1)

    def test_after_the_process_is_killed_another_is_started(self) -> None:
        self.next()
        process = self.process()
        process.kill()
        process.wait()
        with self.assertRaises(EngineError):
            self.next()
        self.assertTrue(self.next())
        self.assertEqual(self.asked, 2)

    def test_close(self) -> None:
        self.next()
        process = self.process()
        self.engine.close()
        self.assertEqual(process.returncode, 0)
        self.assertTrue(self.next())

    def test_it_is_pickled_by_its_words(self) -> None:
        self.next()
        other = pickle.loads(pickle.dumps(self.engine))
        self.addCleanup(other.close)
        self.assertEqual(other.next("one", self.opening, self.BODY), self.next())

    def test_threads_wait_in_turn(self) -> None:
        told: List[bytes] = []
        threads = [threading.Thread(target=lambda: told.extend(self.next() for _ in range(50))) for _ in range(8)]
        for thread in threads:
            thread.start()
        for thread in threads:
            thread.join()
        self.assertEqual(set(told), {self.next()})
        self.assertEqual(len(told), 400)

    def test_policies(self) -> None:
        self.assertTrue(self.engine.has_policies())
        self.assertFalse(Conversation(sys.executable, "-c", "print('x')").has_policies())

    def test_a_forked_child_starts_its_own(self) -> None:
        self.next()
        child = os.fork()
        if child == 0:
            answered = False
            try:
                answered = bool(self.next())
                self.engine.close()
            finally:
                os._exit(0 if answered else 1)
        self.assertEqual(os.waitpid(child, 0)[1], 0)
        self.assertTrue(self.next())
        self.assertEqual(self.asked, 1)

    def test_a_program_without_the_command(self) -> None:
        with self.assertRaisesRegex(EngineMissing, "no command session"):
            Conversation(sys.executable, "-c", "raise SystemExit(2)")


class Finding(unittest.TestCase):
    def setUp(self) -> None:
        self.before = dict(os.environ)
        engines._default.clear()

    def tearDown(self) -> None:
        os.environ.clear()
        os.environ.update(self.before)
        engines._default.clear()

    def test_what_the_environment_names(self) -> None:
        os.environ["HARDIEFLAX_PROGRAM"] = support.needed_program()
        os.environ.pop("HARDIEFLAX_LIBRARY", None)
        found = default_engine()
        self.assertIsInstance(found, Program)
        self.assertIs(found, default_engine())

    def test_nothing_is_there(self) -> None:
        for name in ("HARDIEFLAX_PROGRAM", "HARDIEFLAX_LIBRARY"):
            os.environ.pop(name, None)
        os.environ["PATH"] = ""
        with self.assertRaisesRegex(EngineMissing, "HARDIEFLAX_LIBRARY=PATH"):
            default_engine()

    def test_what_is_named_is_missing_or_another(self) -> None:
        another = ctypes.util.find_library("c") or "libc.so.6"
        made: Any
        for made in (lambda: Library("./no/such.so"), lambda: Library(another), lambda: Program("no-such-program")):
            with self.assertRaises(EngineMissing):
                made()

    def test_commands(self) -> None:
        program = Program(support.needed_program())
        self.assertEqual([program.has(each) for each in ("build", "guard", "session", "biuld", "open")], [True, True, True, False, False])


if __name__ == "__main__":
    unittest.main()
