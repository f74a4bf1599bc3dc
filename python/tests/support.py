"""What the tests share: the program, a blog in each database, and servers that are started once and ended at the end."""
from __future__ import annotations

import atexit
import os
import pathlib
import shutil
import sqlite3
import sys
import unittest
from typing import Any, Callable, Dict, List, Optional, Tuple

HERE = pathlib.Path(__file__).resolve().parent
TOP = HERE.parent.parent
sys.path.insert(0, str(HERE.parent / "src"))
sys.path.insert(0, str(TOP / "tests/servers"))

from hardieflax import (BigInt, Binary, Bool, Column, Engine, Integer, Library, Nullable, Program, Schema, SmallInt, Table, Text)  # noqa: E402


def program() -> Optional[str]:
    """The built program: HARDIEFLAX_PROGRAM names another than the repository's."""
    named = os.environ.get("HARDIEFLAX_PROGRAM") or str(TOP / "crates/sql_tool/out/sql_tool")
    return shutil.which(named)


def needed_program() -> str:
    """The built program. A test that needs it is skipped where there is none."""
    found = program()
    if found is None:
        raise unittest.SkipTest("no program: HARDIEFLAX_PROGRAM names none, and crates/sql_tool/out/sql_tool is not built")
    return found


_engine: List[Engine] = []


def engine() -> Engine:
    """What answers in tests: the program, or the library that HARDIEFLAX_LIBRARY names."""
    if not _engine:
        named = os.environ.get("HARDIEFLAX_LIBRARY")
        if named:
            _engine.append(Library(named))
        else:
            _engine.append(Program(needed_program()))
    return _engine[0]


class Users(Table, name="users"):
    """Who writes posts."""

    id = Column(BigInt)
    email = Column(Text)
    name = Column(Nullable(Text))
    active = Column(Bool)
    avatar = Column(Nullable(Binary))


class Posts(Table, name="posts"):
    """What users write."""

    id = Column(BigInt)
    author_id = Column(BigInt, references=Users)
    parent_id = Column(Nullable(BigInt))
    title = Column(Text)
    stars = Column(Nullable(SmallInt))


class Comments(Table, name="comments"):
    """What users say of posts."""

    id = Column(BigInt)
    post_id = Column(BigInt, references=Posts)
    user_id = Column(BigInt, references=Users)
    body = Column(Nullable(Text))


class Odd(Table, name="odd", sql_name='o"d`d'):
    """Names that servers and drivers have to quote."""

    id = Column(Integer)
    mark = Column(Nullable(Text), sql_name="100% of ?, $1, %s")


SCHEMA = Schema(Users, Posts, Comments, Odd)

USERS = [(1, "s@x", "Sean", True, b"\x00\xff"), (2, "t@x", "Tess", False, None), (3, "u@x", None, True, b"")]
POSTS = [(1, 1, None, "Trees", 3), (2, 1, 1, "Birds", 5), (3, 2, 1, "it's 100% \\ \"true\"", None)]
COMMENTS = [(1, 1, 2, "yes"), (2, 1, 3, None), (3, 3, 1, "no")]
ODD = [(1, "a"), (2, None)]
ROWS: Dict[Any, List[Any]] = {Users: USERS, Posts: POSTS, Comments: COMMENTS, Odd: ODD}

_TYPES = {
    "Sqlite": {"SmallInt": "integer", "Integer": "integer", "BigInt": "integer", "Text": "text", "Binary": "blob", "Bool": "boolean"},
    "Pg": {"SmallInt": "smallint", "Integer": "integer", "BigInt": "bigint", "Text": "text", "Binary": "bytea", "Bool": "boolean"},
    "Mysql": {"SmallInt": "smallint", "Integer": "int", "BigInt": "bigint", "Text": "varchar(190)", "Binary": "varbinary(190)",
              "Bool": "boolean"},
}


def quoted(dialect: str, name: str) -> str:
    """A name as the server takes it."""
    mark = "`" if dialect == "Mysql" else '"'
    return mark + name.replace(mark, mark * 2) + mark


def fill(connection: Any, dialect: str) -> None:
    """Makes the tables of the blog, and their rows."""
    cursor = connection.cursor()
    for table, rows in ROWS.items():
        name = quoted(dialect, table.__sql_name__ or table.__table__)
        columns = ", ".join(f"{quoted(dialect, column.sql_name)} {_TYPES[dialect][column.type.base]}" + " NOT NULL" * (not column.type.nullable)
                            for column in table.__columns__.values())
        cursor.execute(f"CREATE TABLE {name} ({columns}, PRIMARY KEY ({quoted(dialect, 'id')}))")
        marks = ", ".join(["?" if dialect == "Sqlite" else "%s"] * len(rows[0]))
        for row in rows:
            cursor.execute(f"INSERT INTO {name.replace('%', '%%') if dialect != 'Sqlite' else name} VALUES ({marks})", row)
    connection.commit()


def blog() -> sqlite3.Connection:
    """The blog in SQLite."""
    connection = sqlite3.connect(":memory:", check_same_thread=False)
    atexit.register(connection.close)
    fill(connection, "Sqlite")
    return connection


_started: Dict[str, Any] = {}


def _start_postgres() -> Tuple[Any, str]:
    import psycopg
    import servers
    process = servers.start_postgres()
    made = process.connected(lambda: psycopg.connect(host=str(process.folder), user="postgres", dbname="postgres"), psycopg.OperationalError)
    return made, f"postgresql:///postgres?host={process.folder}&user=postgres"


def _start_mariadb() -> Tuple[Any, str]:
    import pymysql
    import servers
    process = servers.start_mariadb()
    socket = f"{process.folder}/socket"
    made = process.connected(lambda: pymysql.connect(unix_socket=socket, user="root", charset="utf8mb4"), pymysql.err.OperationalError)
    made.cursor().execute("CREATE DATABASE blog")
    made.select_db("blog")
    return made, f"mysql+pymysql://root@/blog?unix_socket={socket}"


_STARTS: Dict[str, Callable[[], Tuple[Any, str]]] = {"Pg": _start_postgres, "Mysql": _start_mariadb}


def server(dialect: str) -> Tuple[Any, str]:
    """A connection to a server with the blog, and its URL. A test that needs it is skipped where the server or its driver is missing."""
    if dialect not in _started:
        _started[dialect] = _started_server(dialect)
    if isinstance(_started[dialect], str):
        raise unittest.SkipTest(_started[dialect])
    connection, url = _started[dialect]
    return connection, url


def _started_server(dialect: str) -> Any:
    try:
        import servers
    except ImportError as error:
        return f"no tests/servers: {error}"
    try:
        atexit.register(servers.stop_all)
        connection, url = _STARTS[dialect]()
        atexit.register(connection.close)
    except (servers.Missing, ImportError) as error:
        return f"no server or driver for {dialect}: {error}"
    fill(connection, dialect)
    return connection, url
