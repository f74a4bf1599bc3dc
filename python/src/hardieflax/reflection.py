"""Schemas from live databases, as diesel's print-schema makes them: by the standard library alone for SQLite, by SQLAlchemy for others.

What has no counterpart is left out, and a note says so with its table and column.
"""
from __future__ import annotations

import collections
import dataclasses
import re
import sqlite3
from typing import Any, Dict, FrozenSet, Iterable, List, Optional, Sequence, Tuple, Type, Union

from .errors import SchemaError
from .schema import Schema, made_class
from .sql_types import BigInt, Binary, Bool, Date, Decimal, Float, Integer, Json, SmallInt, SqlType, Text, Time, Timestamp, Uuid
from .tables import Column, Table

# A type, or the server's name of one that has no counterpart.
Found = Union[SqlType[Any], str]


@dataclasses.dataclass(frozen=True)
class FoundColumn:
    """A column as a database describes it."""

    name: str
    type: Found
    nullable: bool


@dataclasses.dataclass(frozen=True)
class ForeignKey:
    """Columns that hold the key of another table; no columns there stand for its primary key."""

    columns: Tuple[str, ...]
    table: str
    referred: Tuple[str, ...]


@dataclasses.dataclass(frozen=True)
class FoundTable:
    """A table as a database describes it."""

    name: str
    columns: Tuple[FoundColumn, ...]
    key: Tuple[str, ...]
    foreign_keys: Tuple[ForeignKey, ...]
    schema: Optional[str] = None


class Reflection:
    """Tables of a database, what was left out of them, and the schema that they make.

    `as_text` takes columns whose type has no counterpart for Text, so that `audit` knows them. `for_document` leaves out those whose
    type a document does not know, as dates, and keeps names that Python cannot write.
    """

    def __init__(self, tables: Iterable[FoundTable], notes: Iterable[str], as_text: bool = False, for_document: bool = False) -> None:
        self.tables, self.notes, self._as_text, self._for_document = list(tables), list(notes), as_text, for_document

    def schema(self) -> Schema:
        """The schema of the tables that have a counterpart."""
        kept = {table.name: columns for table in self.tables for columns in [self._columns(table)] if columns}
        keys = {table.name: self._key(table, list(kept[table.name])) for table in self.tables if table.name in kept}
        relations = self._relations(kept, keys)
        classes = [self._class(table, kept[table.name], keys[table.name], relations) for table in self.tables if table.name in kept]
        return Schema(*classes, notes=self.notes)

    def _columns(self, table: FoundTable) -> Dict[str, SqlType[Any]]:
        made: Dict[str, SqlType[Any]] = {}
        for column in table.columns:
            type = self._type(table.name, column)
            if type is not None:
                made[column.name] = type.nullable_form() if column.nullable else type
        if not made:
            self.notes.append(f"{table.name}: has no column left, left out")
        return made

    def _type(self, table: str, column: FoundColumn) -> Optional[SqlType[Any]]:
        is_other = isinstance(column.type, SqlType) and not column.type.is_declared
        if isinstance(column.type, SqlType) and not (is_other and self._for_document):
            return column.type
        name = column.type if isinstance(column.type, str) else column.type.name
        if self._as_text:
            self.notes.append(f"{table}.{column.name}: {name} has no counterpart, so it is Text, for `audit` alone")
            return Text
        self.notes.append(f"{table}.{column.name}: {name} has no counterpart, left out")
        return None

    def _key(self, table: FoundTable, columns: Sequence[str]) -> Tuple[str, ...]:
        lost = [each for each in table.key if each not in columns]
        if table.key and not lost:
            return table.key
        what = f"has a key that was left out ({', '.join(lost)})" if lost else "has no primary key"
        self.notes.append(f"{table.name}: {what}: all columns stand for it; find does not serve")
        return tuple(columns)

    def _relations(self, kept: Dict[str, Dict[str, SqlType[Any]]], keys: Dict[str, Tuple[str, ...]]) -> Dict[Tuple[str, str], str]:
        """(child, column): parent of each foreign key that is a relation, as diesel takes them."""
        counted = collections.Counter(frozenset((table.name, each.table)) for table in self.tables for each in table.foreign_keys)
        made: Dict[Tuple[str, str], str] = {}
        for table in self.tables:
            for each in table.foreign_keys:
                why = _no_relation(table.name, each, kept, keys, counted[frozenset((table.name, each.table))])
                if why is None:
                    made[table.name, each.columns[0]] = each.table
                else:
                    self.notes.append(f"{table.name}({', '.join(each.columns)}) -> {each.table}: {why}")
        return made

    def _class(self, table: FoundTable, columns: Dict[str, SqlType[Any]], key: Tuple[str, ...],
               relations: Dict[Tuple[str, str], str]) -> Type[Table]:
        made = {}
        for name, type in columns.items():
            attribute = name if self._for_document else attribute_name(name)
            sql_name = None if attribute == name else name
            made[attribute] = Column(type, key=name in key, sql_name=sql_name, references=relations.get((table.name, name)))
        return made_class(table.name, made, schema=table.schema)


def _no_relation(child: str, foreign: ForeignKey, kept: Dict[str, Dict[str, SqlType[Any]]], keys: Dict[str, Tuple[str, ...]],
                 count: int) -> Optional[str]:
    """Why a foreign key is no relation; None where it is one."""
    if child not in kept or foreign.table not in kept:
        return "a table of it was left out"
    if child == foreign.table:
        return "refers to itself: joins of it need an alias and an ON"
    if len(foreign.columns) != 1 or len(keys[foreign.table]) != 1:
        return "has more than one column: joins of it need an ON"
    if foreign.referred and foreign.referred != keys[foreign.table]:
        return "refers to other columns than the key: joins of it need an ON"
    if foreign.columns[0] not in kept[child]:
        return "its column was left out"
    mine, theirs = kept[child][foreign.columns[0]], kept[foreign.table][keys[foreign.table][0]]
    if mine.base != theirs.base:
        return f"{mine.name} refers to {theirs.name}: joins of it need an ON"
    if count > 1:
        return "is one of several between these tables: joins of it need an ON (diesel declares none of them either)"
    return None


def attribute_name(name: str) -> str:
    """The attribute of a class for a column: its name, where Python can write it."""
    import keyword
    made = re.sub(r"\W", "_", name)
    made = "_" + made if not made or made[0].isdigit() else made
    while keyword.iskeyword(made) or made.startswith("__"):
        made = made + "_" if keyword.iskeyword(made) else "column" + made.lstrip("_")
    return made


def reflected(database: Any, *, only: Iterable[str] = (), schema: Optional[str] = None, trust_declared: bool = False,
              as_text: bool = False, for_document: bool = False) -> Reflection:
    """What a database describes: a connection of sqlite3, the path of an SQLite file, an engine or a connection of SQLAlchemy, or a URL."""
    notes: List[str] = []
    names = frozenset(only)
    connection = _sqlite_connection(database)
    if connection is not None:
        try:
            tables = _sqlite_tables(connection, names, trust_declared, notes)
        finally:
            if connection is not database:
                connection.close()
    else:
        from .inspection import inspected_tables
        tables = inspected_tables(database, names, schema, trust_declared, notes)
    missing = sorted(names - {each.name for each in tables})
    if missing:
        raise SchemaError(f"the database has no table {', '.join(missing)}")
    return Reflection(tables, notes, as_text, for_document)


def _sqlite_connection(database: Any) -> Optional[sqlite3.Connection]:
    if isinstance(database, sqlite3.Connection):
        return database
    if not isinstance(database, str):
        return None
    path = database[len("sqlite:///"):] if database.startswith("sqlite:///") else None if "://" in database else database
    if path is None:
        return None
    try:
        connection = sqlite3.connect(f"file:{_in_url(path)}?mode=ro", uri=True)
        connection.execute("SELECT 1 FROM sqlite_master")
        return connection
    except sqlite3.Error as error:
        raise SchemaError(f"{path} cannot be read as an SQLite database: {error}") from error


def _in_url(path: str) -> str:
    return path.replace("%", "%25").replace("?", "%3f").replace("#", "%23")


def _affinity(declared: str, trust: bool) -> Found:
    """The type of a column by what is declared. SQLite's whole numbers have 64 bits, whatever they are called."""
    name = declared.upper()
    for pattern, type in _DECLARED:
        if re.search(pattern, name):
            if type is BigInt and trust:
                return SmallInt if re.search("SMALL|TINY|INT2", name) else BigInt if re.search("BIG|INT8", name) else Integer
            return type
    return declared or "no type"


_DECLARED: Tuple[Tuple[str, SqlType[Any]], ...] = (
    ("BOOL", Bool), ("INT", BigInt), ("JSON", Json), ("UUID", Uuid), ("CHAR|CLOB|TEXT", Text), ("BLOB", Binary),
    ("DATETIME|TIMESTAMP", Timestamp),
    ("^DATE$", Date), ("^TIME$", Time), ("REAL|FLOA|DOUB", Float), ("NUMERIC|DECIMAL", Decimal))


def _sqlite_tables(connection: sqlite3.Connection, only: FrozenSet[str], trust: bool, notes: List[str]) -> List[FoundTable]:
    made = []
    for name, kind, strict, without_rowid in sorted(_sqlite_listed(connection)):
        if only and name not in only:
            continue
        if kind != "table":
            notes.append(f"{name}: is a {kind}, left out")
            continue
        if not strict and not trust:
            notes.append(f"{name}: is not STRICT, so a column may hold values of any type: a session looks at each value that it reads")
        columns, key = [], []
        for _, column, declared, not_null, _, place, hidden in _rows(connection, "pragma_table_xinfo", name):
            if hidden == 1:
                continue
            # INTEGER PRIMARY KEY is the row's number; WITHOUT ROWID and STRICT forbid NULL in keys, and no other table does.
            never = bool(not_null) or bool(place) and (without_rowid or strict or declared.upper() == "INTEGER")
            columns.append(FoundColumn(column, _affinity(declared, trust), not never))
            key += [(place, column)] if place else []
        foreign: Dict[int, List[Any]] = {}
        for number, _, *rest in _rows(connection, "pragma_foreign_key_list", name):
            foreign.setdefault(number, []).append(rest)
        keys = tuple(ForeignKey(tuple(row[1] for row in rows), rows[0][0], tuple(row[2] for row in rows if row[2] is not None))
                     for rows in foreign.values())
        made.append(FoundTable(name, tuple(columns), tuple(each for _, each in sorted(key)), keys))
    return made


def _sqlite_listed(connection: sqlite3.Connection) -> List[Tuple[str, str, bool, bool]]:
    """(name, kind, whether STRICT, whether WITHOUT ROWID) of each table and view of one's own."""
    cursor = connection.cursor()
    cursor.row_factory = None
    try:
        found = cursor.execute("SELECT name, type, strict, wr FROM pragma_table_list "
                               "WHERE schema = 'main' AND name NOT LIKE 'sqlite\\_%' ESCAPE '\\'")
        return [(name, kind, bool(strict), bool(without)) for name, kind, strict, without in found]
    except sqlite3.OperationalError:  # before SQLite 3.37
        found = cursor.execute("SELECT name, type, 0, sql LIKE '%WITHOUT ROWID%' FROM sqlite_master "
                               "WHERE type IN ('table', 'view') AND name NOT LIKE 'sqlite\\_%' ESCAPE '\\'")
        return [(name, kind, False, bool(without)) for name, kind, _, without in found]


def _rows(connection: sqlite3.Connection, function: str, name: str) -> List[Tuple[Any, ...]]:
    cursor = connection.cursor()
    cursor.row_factory = None
    return cursor.execute(f"SELECT * FROM {function}(?)", [name]).fetchall()
