"""The examples of the pages, run as they stand: by this checkout, or in the environment whose folder of programs HARDIEFLAX_BIN names."""
from __future__ import annotations

import os
import pathlib
import re
import sqlite3
import stat
import subprocess
import sys
import tempfile
import unittest
from typing import Dict, List

import support

README = support.HERE.parent / "README.md"
LIMITS = support.HERE.parent / "LIMITS.md"
BLOG = """
CREATE TABLE users (id integer PRIMARY KEY, name text, active boolean NOT NULL);
CREATE TABLE posts (id integer PRIMARY KEY, author_id integer NOT NULL REFERENCES users, title text NOT NULL);
INSERT INTO users VALUES (1, 'Sean', true), (2, 'Tess', false), (3, NULL, true);
INSERT INTO posts VALUES (1, 1, 'Trees'), (2, 1, 'Birds'), (3, 2, 'Rivers');
"""


class Pages(unittest.TestCase):
    def setUp(self) -> None:
        folder = tempfile.TemporaryDirectory()
        self.addCleanup(folder.cleanup)
        self.folder = pathlib.Path(folder.name)
        connection = sqlite3.connect(self.folder / "blog.db")
        connection.executescript(BLOG)
        connection.close()
        named = os.environ.get("HARDIEFLAX_BIN")
        self.environment = self.installed(named) if named else self.checkout()

    @staticmethod
    def installed(folder: str) -> Dict[str, str]:
        """What is installed there, and nothing of this checkout."""
        kept = {name: value for name, value in os.environ.items() if not name.startswith(("PYTHON", "HARDIEFLAX_"))}
        return {**kept, "PATH": f"{folder}:{os.environ['PATH']}"}

    def checkout(self) -> Dict[str, str]:
        """This checkout, with its program, by the names that an environment would give."""
        program, commands = os.path.abspath(support.needed_program()), self.folder / "bin"
        commands.mkdir()
        for name, words in (("hardieflax", f"{sys.executable} -m hardieflax"), ("python3", sys.executable)):
            command = commands / name
            command.write_text(f'#!/bin/sh\nexec {words} "$@"\n')
            command.chmod(command.stat().st_mode | stat.S_IXUSR)
        return {**os.environ, "HARDIEFLAX_PROGRAM": program, "PYTHONPATH": str(support.HERE.parent / "src"),
                "PATH": f"{commands}:{os.environ['PATH']}"}

    def run_words(self, *words: str) -> "subprocess.CompletedProcess[str]":
        return subprocess.run(words, cwd=self.folder, env=self.environment, stdout=subprocess.PIPE, stderr=subprocess.PIPE, text=True)

    def test_examples(self) -> None:
        flags: List[str] = ["-o", "ELLIPSIS", "-o", "NORMALIZE_WHITESPACE", "-v"]
        for page, least in ((README, 14), (LIMITS, 6)):
            run = self.run_words("python3", "-m", "doctest", *flags, str(page))
            self.assertEqual(run.returncode, 0, run.stdout[-2000:] + run.stderr)
            found = re.search(r"^([0-9]+) passed", run.stdout, re.MULTILINE)
            self.assertGreaterEqual(int(found[1]) if found else 0, least)

    def test_three_commands(self) -> None:
        """The commands of the first lines, but for pip, and the script below them."""
        text = README.read_text("utf-8")
        (self.folder / "report.py").write_text(re.findall(r"```python\n(.*?)```", text, re.DOTALL)[0])
        commands = [line.strip() for line in text.splitlines() if line.startswith("    ")][:3]
        self.assertEqual(commands[0].split("  ")[0], "pip install hardieflax")
        run = self.run_words("sh", "-e", "-c", "\n".join(commands[1:]))
        self.assertEqual((run.returncode, run.stdout), (0, "Birds by Sean\nTrees by Sean\n"), run.stderr)

    def test_an_audit(self) -> None:
        """The command for a CI, in a folder with tables.py."""
        (self.folder / "queries").mkdir()
        (self.folder / "queries/a.sql").write_text('SELECT "users"."name" FROM "users";\nSELECT "nope"."x" FROM "nope"\n')
        script = "hardieflax schema blog.db --python > tables.py && hardieflax check blog.db && hardieflax audit 'queries/*.sql' --dialect Pg"
        run = self.run_words("sh", "-e", "-c", script)
        self.assertEqual((run.returncode, run.stdout.splitlines()), (1, [
            "queries/a.sql:1: users (users.name)", "queries/a.sql:2: UnknownTable: reads a table that the schema has not"]), run.stderr)


if __name__ == "__main__":
    unittest.main()
