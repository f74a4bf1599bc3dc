#!/usr/bin/env python3
"""A small report: sql_tool writes its statements, and a database that this script fills runs them. Then the posts of each of two users
are reported, as those of a tenant, by guarded statements over all posts: the same as plain ones find where there are no others."""
from __future__ import annotations

import argparse
import json
import pathlib
import re
import shlex
import sqlite3
import subprocess
import sys
from typing import Any, Iterable

SETUP = [
    "CREATE TEMP TABLE users (id integer, name text)",
    "INSERT INTO users VALUES (1, 'Sean'), (2, 'Tess'), (3, 'x''; DROP TABLE users; --')",
    'CREATE TEMP TABLE posts (id bigint, user_id integer, title text, stars smallint, "no`te"" FROM users; --" text)',
    "INSERT INTO posts VALUES (1, 1, 'Trees', 3, 'long'), (2, 1, 'Birds', 5, NULL), (3, 2, 'Rivers', 4, 'short')",
]
SCHEMA = {"tables": [
    {"name": "users", "columns": [{"name": "id", "type": "Integer"}, {"name": "name", "type": "Text"}]},
    {"name": "posts", "columns": [
        {"name": "id", "type": "BigInt"}, {"name": "user_id", "type": "Integer"}, {"name": "title", "type": "Text"},
        {"name": "stars", "type": "SmallInt"}, {"name": "note", "type": "Text?", "sql_name": 'no`te" FROM users; --'}]},
], "joinable": [{"child": "posts", "key": "user_id", "parent": "users"}], "together": [["users", "posts"]]}

USERS, POSTS = {"table": "users"}, {"table": "posts"}
ID, NAME = ({"col": ["users", name]} for name in ("id", "name"))
USER_ID, TITLE, STARS, NOTE = ({"col": ["posts", name]} for name in ("user_id", "title", "stars", "note"))
VALUES = [["SmallInt", -1], ["Integer", 7], ["BigInt", 2**40], ["Text", "it's"], ["Binary", "00ff"],
          ["Bool", True], ["Text?", None]]
REQUESTS = {
    "The best two posts, and who wrote them": {"from": POSTS, "calls": [
        ["inner_join", USERS], ["select", [TITLE, STARS, NAME]], ["order", [{"desc": STARS}]], ["limit", 2]]},
    "How many posts each author has": {"from": POSTS, "calls": [
        ["group_by", USER_ID], ["select", [USER_ID, "count_star"]], ["order", [USER_ID]]]},
    "The users 1 and 2": {"from": USERS, "calls": [
        ["filter", {"eq_any": [ID, {"list": ["Integer", [1, 2]]}]}], ["order", [ID]]]},
    "A user whose name looks like SQL": {"from": USERS, "calls": [
        ["filter", {"eq": [NAME, {"bind": ["Text", "x'; DROP TABLE users; --"]}]}]]},
    "Notes, from a column whose name looks like SQL": {"from": POSTS, "calls": [["select", [TITLE, NOTE]], ["order", [TITLE]]]},
    "A value of each type, and NULL": {"select": [{"bind": value} for value in VALUES]},
    "Titles of users, who have none": {"from": USERS, "calls": [["select", TITLE]]},
}
# Of each of these users the posts are reported, by guarded statements.
TENANTS = 1, 2
GUARDED = {
    "Users and their posts": {"from": USERS, "calls": [
        ["left_join", POSTS], ["select", [NAME, {"nullable": TITLE}]], ["order", [ID, {"nullable": TITLE}]]]},
    "Authors": {"from": USERS, "calls": [["inner_join", POSTS], ["select", [NAME, TITLE]], ["order", [TITLE]]]},
    "The best post": {"from": POSTS, "calls": [["select", [TITLE, STARS]], ["order", [{"desc": STARS}]], ["limit", 1]]},
}


def bound(kind: str, value: Any) -> Any:
    """A value as the driver binds it."""
    if isinstance(value, list):
        return [bound(kind, each) for each in value]
    return bytes.fromhex(value) if kind.startswith("Binary") and value is not None else value


def shown(kind: str, value: Any) -> str:
    """A value of a row as the report shows it."""
    if value is None:
        return "NULL"
    if kind.startswith("Bool"):
        return str(bool(value)).lower()  # SQLite gives 0 or 1
    return str(value.hex() if kind.startswith("Binary") else value)


def for_psycopg(text: str) -> str:
    """A text as psycopg takes it: %s for each placeholder, which are $1 to $n in this order, and %% for a percent sign. Names keep their $."""
    return re.sub(r'("[^"]*")|\$[0-9]+|%', lambda part: part[1].replace("%", "%%") if part[1] else "%%" if part[0] == "%" else "%s", text)


def answers(program: list[str], dialect: str, command: str, queries: Iterable[Any], **members: Any) -> list[Any]:
    """What the program writes for these queries, line by line."""
    document = {"schema": SCHEMA, "requests": [{"dialect": dialect, "query": query} for query in queries], **members}
    run = subprocess.run([*program, command], input=json.dumps(document).encode(), stdout=subprocess.PIPE)
    if run.returncode != 0:
        sys.exit(f"{shlex.join(program)} ended with status {run.returncode}")
    # A line ends with a newline. A text may hold other characters that end lines elsewhere, as U+2028.
    return [json.loads(line) for line in run.stdout.split(b"\n")[:-1]]


class Report:
    """Runs accepted requests on a database, and prints what they find."""

    def __init__(self, cursor: Any, is_postgres: bool) -> None:
        self.cursor = cursor
        self.is_postgres = is_postgres
        for statement in SETUP:
            cursor.execute(statement)

    def rows_of(self, answer: Any) -> list[list[str]]:
        """The rows that the database has for an accepted request."""
        text = for_psycopg(answer["sql"]) if self.is_postgres else answer["sql"]
        self.cursor.execute(text, [bound(kind, value) for kind, value in answer["binds"]])
        return [[shown(kind, value) for kind, value in zip(answer["columns"], row)] for row in self.cursor.fetchall()]

    def show(self, heading: str, answer: Any) -> list[list[str]] | None:
        """Prints a request's text, values and rows, and gives the rows."""
        print(f"{heading}:")
        if "refused" in answer:
            print(f"    refused: {answer['refused']}")
            return None
        print(f"    {answer['sql']}\n    values: {json.dumps(answer['binds'])}")
        rows = self.rows_of(answer)
        table = [answer["columns"], *rows]
        widths = [max(map(len, texts)) for texts in zip(*table)]
        for row in table:
            print("    | " + " | ".join(text.ljust(width) for text, width in zip(row, widths)) + " |")
        return rows

    def rows_without_others(self, answers: list[Any], tenant: int) -> list[list[list[str]]]:
        """The rows of accepted requests where no user but this one has posts: the database of that tenant, as far as a table goes."""
        self.cursor.execute("SAVEPOINT whole")
        self.cursor.execute(f"DELETE FROM posts WHERE user_id <> {tenant}")
        rows = [self.rows_of(answer) for answer in answers]
        self.cursor.execute("ROLLBACK TO whole")
        return rows


def connected(url: str | None) -> Any:
    """A connection to this PostgreSQL database, or else to SQLite in memory."""
    if url is None:
        return sqlite3.connect(":memory:")
    try:
        import psycopg
    except ImportError:
        sys.exit("--postgres needs psycopg 3 (Debian: python3-psycopg)")
    return psycopg.connect(url)


def main() -> None:
    own = pathlib.Path(__file__).resolve().parent.parent / "sql_tool"
    parser = argparse.ArgumentParser(description=__doc__)
    parser.add_argument("--postgres", metavar="URL", help="a PostgreSQL database, in place of SQLite in memory; needs psycopg 3")
    parser.add_argument("--program", metavar="WORDS", default=shlex.join([str(own), "--no-build"]),
                        help="how to run the program, as './sql_tool --try' to have it unproved; else ./sql_tool, which has to be built")
    given = parser.parse_args()
    program = shlex.split(given.program)
    dialect = "Pg" if given.postgres else "Sqlite"
    lines = answers(program, dialect, "build", REQUESTS.values())
    report = Report(connected(given.postgres).cursor(), given.postgres is not None)
    for heading, answer in zip(REQUESTS, lines):
        report.show(heading, answer)
    plain = answers(program, dialect, "build", GUARDED.values())
    for tenant in TENANTS:
        guard = {"table": "posts", "predicate": {"eq": [USER_ID, {"bind": ["Integer", tenant]}]}}
        lines = answers(program, dialect, "guard", GUARDED.values(), guard=guard)
        guarded = [report.show(f"{heading}, of user {tenant}'s posts", line) for heading, line in zip(GUARDED, lines)]
        cut = report.rows_without_others(plain, tenant)
        print(f"    {'the same' if guarded == cut else 'NOT THE SAME'} as over the posts of user {tenant} alone")


if __name__ == "__main__":
    main()
