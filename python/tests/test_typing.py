"""mypy --strict is content with the package, finds wrong names and types, and knows the types of rows."""
from __future__ import annotations

import os
import pathlib
import re
import subprocess
import sys
import tempfile
import unittest
from typing import ClassVar, List

import support

BEGIN = """
import datetime
from typing import List, Optional, Tuple
from hardieflax import (BigInt, Bool, Column, Date, Integer, Nullable, Schema, Session, Table, Text, alias, count, nullable, query, select,
                        value)


class Users(Table, name="users"):
    id = Column(BigInt)
    email = Column(Text)
    name = Column(Nullable(Text))
    active = Column(Bool)
    born = Column(Nullable(Date))


class Posts(Table, name="posts"):
    id = Column(BigInt)
    author_id = Column(BigInt, references=Users)
    editor_id = Column(Nullable(BigInt))
    title = Column(Text)


session = Session(Schema(Users, Posts), dialect="Sqlite")
users = session.all(query(Users))
u2 = alias(Users, "u2")
of_users = {Users: Users.active}
"""

# What is right, with the type that it has.
RIGHT = [
    ("users", "List[Users]"),
    ("users[0].name", "Optional[str]"),
    ("users[0].born", "Optional[datetime.date]"),
    ("session.all(query(Users).join(Posts))", "List[Tuple[Users, Posts]]"),
    ("session.all(query(Users).left_join(Posts).filter(Users.name == 'x').limit(1))", "List[Tuple[Users, Optional[Posts]]]"),
    ("session.all(query(Users).left_join(Posts).join(u2, u2.id == Posts.editor_id))", "List[Tuple[Users, Optional[Posts], Users]]"),
    ("session.all(query(Users).select(Users.id, Users.name, Posts.title.nullable(), Posts, nullable(Posts)))",
     "List[Tuple[int, Optional[str], Optional[str], Posts, Optional[Posts]]]"),
    ("session.value(query(Users).count())", "int"),
    ("session.values(query(Users).select(Users.name))", "List[Optional[str]]"),
    ("session.first(query(Users))", "Optional[Users]"),
    ("session.all(query(Users).select(Users.id).union(query(Posts).select(Posts.author_id)))", "List[Tuple[int]]"),
    ("session.all(query(Posts).group_by(Posts.author_id).select(Posts.author_id, count()))", "List[Tuple[int, int]]"),
    ("session.one(query(Users).select(query(Posts).select(Posts.title).single_value()))", "Tuple[Optional[str]]"),
    ("session.one(select(value(1, Integer)))", "Tuple[int]"),
    ("session.all(query(Users).filter(Users.active, Users.name == None, Users.id == Posts.editor_id, Posts.editor_id == Users.id))",
     "List[Users]"),
    ("session.all(query(Users).filter(Users.id.in_([1]) & ~Users.active | Users.born.in_([None, datetime.date.today()])))", "List[Users]"),
    ("session.all(query(Posts).filter(Posts.editor_id.in_(query(Users).select(Users.id))))", "List[Posts]"),
    ("session.all(query(Users).filter(Users.id.not_in(query(Posts).select(Posts.editor_id)), ~Users.active))", "List[Users]"),
    ("session.all(query(Users).filter(~(Users.name == 'x')))", "List[Users]"),
    ("session.one(query(Users).select(~Users.active, Users.name == 'x'))", "Tuple[bool, Optional[bool]]"),
    ("Session(session.schema, dialect='Pg', guards={Users: Users.active, Posts: Posts.author_id == 1})", "Session"),
    ("Session(session.schema, dialect='Pg', guards=of_users, shared=[Posts])", "Session"),
]

# What is wrong.
WRONG = [
    "Users.nam", "users[0].nam", "query(Users).filter(Users.name == 5)", "query(Users).filter(Users.id == 'x')", "Users.id < 'x'",
    "query(Users).filter(Users.id)", "query(Users).filter(True)", "Users.id.in_(['x'])", "Users.email == None", "Users.id == 1 & Users.active",
    "session.value(query(Users).select(Users.id, Users.name))", "query(Users).order('id')", "query('users')", "Users.id == Posts.title",
    "Users.born < 5", "query(Users).limit('1')", "query(Users).select(Users.id).union(query(Users).select(Users.email))",
]


class Typing(unittest.TestCase):
    folder: ClassVar[tempfile.TemporaryDirectory[str]]

    @classmethod
    def setUpClass(cls) -> None:
        run = subprocess.run([sys.executable, "-m", "mypy", "--version"], capture_output=True)
        if run.returncode:
            raise unittest.SkipTest("no mypy")
        cls.folder = tempfile.TemporaryDirectory()

    @classmethod
    def tearDownClass(cls) -> None:
        cls.folder.cleanup()

    def mypy(self, *words: str) -> str:
        configuration = str(support.HERE.parent / "pyproject.toml")
        command = [sys.executable, "-m", "mypy", "--strict", "--config-file", configuration, "--cache-dir", f"{self.folder.name}/cache", *words]
        run = subprocess.run(command, stdout=subprocess.PIPE, stderr=subprocess.STDOUT, text=True, cwd=support.HERE.parent,
                             env={**os.environ, "MYPYPATH": f"{support.HERE.parent / 'src'}:{support.TOP / 'tests/servers'}"})
        return run.stdout

    def lines_of(self, text: str) -> List[int]:
        """The lines of a file of a user that mypy is not content with."""
        path = pathlib.Path(self.folder.name) / "user.py"
        path.write_text(text)
        return [int(number) for number in re.findall(r"user\.py:(\d+): error", self.mypy(str(path)))]

    def test_the_package_and_its_tests(self) -> None:
        self.assertIn("Success", self.mypy("src/hardieflax", *map(str, support.HERE.glob("*.py"))))

    def test_what_a_user_writes(self) -> None:
        begin = BEGIN.count("\n") + 1
        right = [f"right{number}: {type} = {expression}" for number, (expression, type) in enumerate(RIGHT)]
        text = BEGIN + "\n".join([*right, *WRONG]) + "\n"
        self.assertEqual(sorted(set(self.lines_of(text))), list(range(begin + len(right), begin + len(right) + len(WRONG))))

    def test_types_are_no_wider(self) -> None:
        """What may be NULL is not taken for a text, and the other way round a row's number is no text."""
        wrong = ["a: str = users[0].name", "b: str = users[0].id", "c: List[Tuple[Users, Posts]] = session.all(query(Users).left_join(Posts))"]
        text = BEGIN + "\n".join(wrong) + "\n"
        begin = BEGIN.count("\n") + 1
        self.assertEqual(self.lines_of(text), [begin, begin + 1, begin + 2])


if __name__ == "__main__":
    unittest.main()
