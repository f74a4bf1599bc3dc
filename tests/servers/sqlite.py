"""Statements on SQLite, of Python's module. It has no server: the database is in memory. It takes 1 and 0 for truth values."""
from __future__ import annotations

import sqlite3
from typing import Any, Iterable, Sequence

import servers
from values import Kind

READ = sqlite3.SQLITE_READ


class Sqlite:
    name = "SQLite"
    dialect = "Sqlite"
    has_types = False
    types = {"SmallInt": "smallint", "Integer": "integer", "BigInt": "bigint", "Text": "text", "Binary": "blob", "Bool": "boolean"}

    def __init__(self) -> None:
        self.version = sqlite3.sqlite_version
        self.sql = ""
        self.open: sqlite3.Connection | None = None

    @property
    def connection(self) -> sqlite3.Connection:
        assert self.open is not None
        return self.open

    def run(self, sql: str, values: Sequence[Any] = ()) -> sqlite3.Cursor:
        try:
            return self.connection.execute(sql, values)
        except (sqlite3.Error, ValueError, OverflowError) as error:
            raise servers.Refused(str(error)) from error

    def prepare(self, sql: str, kinds: Sequence[Kind]) -> tuple[int, list[Any] | None]:
        """The module prepares when it executes, and keeps what it prepared. It refuses another number of values than placeholders, so the
        number is that of the values, or that which its message tells."""
        self.sql = sql
        try:
            self.run("EXPLAIN " + sql, [None] * len(kinds))
        except servers.Refused as error:
            words = str(error).split()
            if "bindings" not in words:
                raise
            return int(words[words.index("uses") + 1].rstrip(",")), None
        return len(kinds), None

    def execute(self, kinds: Sequence[Kind], values: Sequence[Any]) -> tuple[list[Any], list[tuple[Any, ...]]]:
        cursor = self.run(self.sql, values)
        return [None] * len(cursor.description or ()), [tuple(row) for row in cursor.fetchall()]

    def reads(self, sql: str, placeholders: int) -> list[tuple[str, str, str]]:
        """What the text reads by SQLite's own word, in the order in which it finds it: the schema, the table and the column of each path. The
        column is empty where a table is read without one."""
        found: list[tuple[str, str, str]] = []

        def note(action: int, table: str | None, column: str | None, schema: str | None, _: str | None) -> int:
            if action == READ:
                found.append((schema or "", table or "", column or ""))
            return sqlite3.SQLITE_OK

        self.connection.set_authorizer(note)
        try:
            self.run("EXPLAIN " + sql, [None] * placeholders)
        finally:
            self.connection.set_authorizer(lambda *_: sqlite3.SQLITE_OK)
        return found

    def close(self) -> None:
        pass

    def open_schemas(self, names: Iterable[str]) -> dict[str, str]:
        """Makes the schemas of a document, and gives those that SQLite refuses with its message."""
        self.drop_schemas()
        self.open = sqlite3.connect(":memory:", isolation_level=None)
        refused = {}
        for name in set(names) - {"main"}:
            try:
                self.run("ATTACH ':memory:' AS " + self.quoted(name))
            except servers.Refused as error:
                refused[name] = str(error)
        return refused

    def drop_schemas(self) -> None:
        if self.open is not None:
            self.open.close()
            self.open = None

    def quoted(self, name: str) -> str:
        return "`" + name.replace("`", "``") + "`"
