"""The audit of SQL in files, and the command `hardieflax`."""
from __future__ import annotations

import contextlib
import io
import json
import os
import pathlib
import sqlite3
import tempfile
import unittest
from typing import Any, List, Tuple

import support
from hardieflax import Column, Schema, Table, Text, auditing, cli

try:
    import sqlglot  # noqa: F401
    HAS_SQLGLOT = True
except ImportError:
    HAS_SQLGLOT = False


class Splitting(unittest.TestCase):
    def split(self, text: str, backslash: bool = False) -> List[Tuple[int, str]]:
        return [(each.line, each.sql) for each in auditing.split(text, backslash=backslash)]

    def test_statements_and_their_lines(self) -> None:
        self.assertEqual(self.split("SELECT 1;\n\n-- no; statement\nSELECT\n 2 /* ; */ ;;\n"), [(1, "SELECT 1"), (4, "SELECT\n 2")])
        self.assertEqual(self.split(" \n ; "), [])
        self.assertEqual(self.split("SELECT 'a;''b', \"c;\"\"d\", `e;`;SELECT 2"), [(1, "SELECT 'a;''b', \"c;\"\"d\", `e;`"), (1, "SELECT 2")])
        self.assertEqual(self.split("SELECT $$a;b$$, $x$;$y$;$x$, $1;"), [(1, "SELECT $$a;b$$, $x$;$y$;$x$, $1")])
        self.assertEqual(self.split("/* a /* b; */ c; */ SELECT 1"), [(1, "SELECT 1")])
        self.assertEqual(self.split("SELECT 'a\\';b'; # c;\nSELECT 2", backslash=True), [(1, "SELECT 'a\\';b'"), (2, "SELECT 2")])
        self.assertEqual(self.split("SELECT 'open; "), [(1, "SELECT 'open;")])


class Audits(unittest.TestCase):
    def told(self, sql: str, dialect: str = "Pg", people: bool = True) -> auditing.Use:
        (made,) = auditing.audited([auditing.Text("q.sql", 3, sql)], support.SCHEMA, dialect, support.engine(), people)
        return made

    def test_the_grammars_own_spelling(self) -> None:
        use = self.told('SELECT "u"."id" FROM "users" AS "u" WHERE ("u"."name" = $1)', people=False)
        self.assertEqual((use.tables, use.columns), (("users",), (("users", "id"), ("users", "name"))))
        self.assertEqual(str(use), "q.sql:3: users (users.id, users.name)")
        self.assertEqual(self.told("select 1", people=False).refused, "NotInGrammar")
        self.assertEqual(str(self.told('SELECT "x"."id" FROM "x"', people=False)),
                         "q.sql:3: UnknownTable: reads a table that the schema has not")

    @unittest.skipUnless(HAS_SQLGLOT, "no sqlglot")
    def test_sql_as_people_write_it(self) -> None:
        cases = [
            ("select id, lower(name) from users where email like 'a%' order by 1 limit 5", {("users", "id"), ("users", "name"), ("users",
                                                                                                                                 "email")}),
            ("SELECT u.id FROM users u JOIN posts p ON p.author_id = u.id WHERE p.stars BETWEEN 1 AND 5",
             {("users", "id"), ("posts", "author_id"), ("posts", "stars")}),
            ("select count(*) from posts where id in (select post_id from comments)", {("posts", "id"), ("comments", "post_id")}),
            ("select id from users union select author_id from posts", {("users", "id"), ("posts", "author_id")}),
            ("select id from posts where id in (1, 2) and stars not in (3) and title in (select name from users)",
             {("posts", "id"), ("posts", "stars"), ("posts", "title"), ("users", "name")}),
            ("select * from comments", {("comments", each) for each in ("id", "post_id", "user_id", "body")}),
        ]
        for dialect in ("Pg", "Mysql", "Sqlite"):
            for sql, wanted in cases:
                with self.subTest(sql=sql, dialect=dialect):
                    use = self.told(sql, dialect)
                    self.assertIsNone(use.refused, use.notes)
                    self.assertEqual(set(use.columns), wanted)
        self.assertEqual(str(self.told(cases[0][0])), "q.sql:3: users (users.email, users.id, users.name) [Like is reduced to its columns; "
                                                      "Lower is reduced to its columns]")
        self.assertEqual(str(self.told(cases[3][0])), "q.sql:3: posts, users (posts.author_id, users.id)")

    @unittest.skipUnless(HAS_SQLGLOT, "no sqlglot")
    def test_lists_are_not_reduced(self) -> None:
        for dialect, sql in (("Pg", "select id from users where id = any($1) and name <> all($2) and email in ('a', 'b')"),
                             ("Pg", "select id from users where id = any(array[1, 2]) and id = any(select id from posts)"),
                             ("Sqlite", "select id from users where id not in (1, 2) and name in (?, ?)")):
            use = self.told(sql, dialect)
            self.assertEqual((use.refused, use.reduced), (None, ()), sql)
        self.assertEqual(self.told("select id from users where id in (1, active)").reduced, ("In is reduced to its columns",))

    @unittest.skipUnless(HAS_SQLGLOT, "no sqlglot")
    def test_forty_ordinary_statements(self) -> None:
        """24 are read as they are, 14 once expressions are reduced, and 2 are refused: WITH, and a subquery in FROM."""
        tables = {"users": "id name email active nickname created_at first_name last_name", "posts": "id user_id title", "a": "id", "b": "id",
                  "orders": "id total status customer_id created_at archived deleted_at", "customers": "id name country",
                  "order_items": "id price quantity", "events": "id data kind"}
        made: List[Any] = [type(name.title(), (Table,), {column: Column(Text) for column in columns.split()}, name=name)
                           for name, columns in tables.items()]
        texts = list(auditing.split((support.HERE / "statements.sql").read_text(), "statements.sql"))
        uses = auditing.audited(texts, Schema(*made), "Pg", support.engine())
        read = [use for use in uses if use.refused is None]
        self.assertEqual((len(uses), len(read), sum(not use.reduced for use in read)), (40, 38, 24), [str(use) for use in uses if use.refused])

    @unittest.skipUnless(HAS_SQLGLOT, "no sqlglot")
    def test_what_the_grammar_lacks_is_said(self) -> None:
        for sql, what in (("with x as (select 1) select * from x", "WITH"), ("select a.id from (select id from users) a", "subquery in FROM"),
                          ("select nope from users", "nope, which no table has"), ("delete from users", "DELETE"), ("select ((", "sqlglot")):
            with self.subTest(sql=sql):
                use = self.told(sql)
                self.assertEqual(use.refused, "NotInGrammar")
                self.assertIn(what, str(use))


class Commands(unittest.TestCase):
    def setUp(self) -> None:
        self.folder = tempfile.TemporaryDirectory()
        self.path = pathlib.Path(self.folder.name)
        connection = sqlite3.connect(self.path / "blog.db")
        support.fill(connection, "Sqlite")
        connection.execute("CREATE TABLE dated (id integer primary key, at date, place geometry, \"class\" text, "
                           "user_id integer references users)")
        connection.close()
        os.environ["HARDIEFLAX_PROGRAM"] = support.needed_program()

    def tearDown(self) -> None:
        self.folder.cleanup()

    def run_command(self, *words: str) -> Tuple[int, str, str]:
        out, error = io.StringIO(), io.StringIO()
        with contextlib.redirect_stdout(out), contextlib.redirect_stderr(error):
            status = cli.main(words)
        return status, out.getvalue(), error.getvalue()

    def test_schema_and_check(self) -> None:
        database = str(self.path / "blog.db")
        kinds: List[Tuple[List[str], str]] = [(["--python"], "tables.py"), ([], "tables.json")]
        for words, name in kinds:
            status, text, error = self.run_command("schema", database, *words)
            self.assertEqual(status, 0)
            self.assertIn("dated.place: geometry has no counterpart, left out", error)
            (self.path / name).write_text(text, "utf-8")
            self.assertEqual(self.run_command("check", str(self.path / name), database)[:2], (0, ""))
        self.assertIn("class_ = Column(Nullable(Text), sql_name='class')", (self.path / "tables.py").read_text())
        self.assertIn('{"name": "class", "type": "Text?"}', (self.path / "tables.json").read_text())
        self.assertNotIn('"at"', (self.path / "tables.json").read_text())
        connection = sqlite3.connect(self.path / "blog.db")
        connection.executescript("ALTER TABLE dated DROP COLUMN at; DROP TABLE comments; ALTER TABLE users RENAME COLUMN email TO mail")
        connection.close()
        status, text, _ = self.run_command("check", str(self.path / "tables.py"), database)
        self.assertEqual((status, text.splitlines()), (1, [
            "comments: the database has no such table", "dated.at: the database has no such column",
            "users.email: the database has no such column"]))

    def test_audit(self) -> None:
        database = str(self.path / "blog.db")
        (self.path / "schema.json").write_text(self.run_command("schema", database)[1])
        (self.path / "a.sql").write_text('SELECT "users"."id" FROM "users";\n\nSELECT "x"."id" FROM "x";\n')
        (self.path / "b.sql").write_text('SELECT "users"."name" FROM "users"')
        words = ["audit", str(self.path / "*.sql"), "--schema", str(self.path / "schema.json"), "--dialect", "Pg"]
        status, text, error = self.run_command(*words)
        self.assertEqual((status, error), (1, "3 statements, 1 refused\n"))
        self.assertEqual([line.split("/")[-1] for line in text.splitlines()], [
            "a.sql:1: users (users.id)", "a.sql:3: UnknownTable: reads a table that the schema has not", "b.sql:1: users (users.name)"])
        self.assertEqual(len(self.run_command(*words, "--quiet")[1].splitlines()), 1)
        self.assertEqual(json.loads(self.run_command(*words, "--json")[1].splitlines()[0])["tables"], ["users"])
        self.assertEqual(self.run_command(*words[:1], str(self.path / "b.sql"), *words[2:])[0], 0)

    def test_a_schema_that_the_folder_has(self) -> None:
        database, before = str(self.path / "blog.db"), os.getcwd()
        text = self.run_command("schema", database, "--python")[1]
        (self.path / "b.sql").write_text('SELECT "users"."name" FROM "users"')
        os.chdir(self.path)
        try:
            for words in (["audit", "*.sql", "--dialect", "Pg"], ["check", database]):
                self.assertIn("no tables.py", self.run_command(*words)[2])
                (self.path / "tables.py").write_text(text)
                self.assertEqual(self.run_command(*words)[0], 0)
                (self.path / "schema.json").write_text("{}")
                self.assertIn("tables.py and schema.json", self.run_command(*words)[2])
                (self.path / "schema.json").unlink()
                (self.path / "tables.py").unlink()
        finally:
            os.chdir(before)

    def test_what_cannot_be_done(self) -> None:
        for words in (["schema", str(self.path / "no.db")], ["check", str(self.path / "no.json"), str(self.path / "blog.db")],
                      ["schema", str(self.path / "blog.db"), "--only", "nobody"],
                      ["audit", str(self.path / "no*.sql"), "--schema", "x", "--dialect", "Pg"]):
            status, text, error = self.run_command(*words)
            self.assertEqual((status, text), (2, ""))
            self.assertIn("hardieflax: ", error)


if __name__ == "__main__":
    unittest.main()
