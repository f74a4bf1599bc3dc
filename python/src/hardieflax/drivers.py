"""Drivers: what executes a statement on a connection of sqlite3, psycopg 3 or PyMySQL.

A value is bound, and never written into a text. psycopg and PyMySQL have placeholders of their own, so where one of theirs is wanted a
placeholder of the text becomes `%s`: the text is cut into quoted names and the rest, and a name stays as it is.
"""
from __future__ import annotations

import re
from typing import Any, Callable, Dict, Iterator, List, Optional, Protocol, Sequence, Tuple

from .errors import HardieflaxError
from .sql_types import Bound

Row = Sequence[Any]
FETCHED = 500


class Driver(Protocol):
    """Executes statements on one connection."""

    @property
    def dialect(self) -> str:
        """The dialect of its server."""

    def rows(self, sql: str, binds: Sequence[Bound], keep: bool) -> Iterator[Row]:
        """The rows that a statement gives. Where `keep` is true, it may be prepared once and used with other values."""


def driver_of(connection: Any) -> Driver:
    """The driver of a connection, found by its type. HardieflaxError: it is none of the three."""
    if type(connection).__module__.split(".")[0] == "sqlalchemy":
        connection = connection.connection.driver_connection
    for base in type(connection).__mro__:
        made = _DRIVERS.get((base.__module__.split(".")[0], base.__name__))
        if made is not None:
            return made(connection)
    raise HardieflaxError(f"a connection of sqlite3, psycopg 3 or PyMySQL is wanted, and not {type(connection).__module__}."
                          f"{type(connection).__qualname__}; for others build the statement, and give its sql and values to them")


class Sqlite:
    """sqlite3, which keeps what it prepared by its text."""

    dialect = "Sqlite"

    def __init__(self, connection: Any) -> None:
        self.connection = connection

    def rows(self, sql: str, binds: Sequence[Bound], keep: bool) -> Iterator[Row]:
        """The rows, read as they are asked for."""
        cursor = self.connection.cursor()
        cursor.row_factory = None
        try:
            cursor.execute(sql, [each.python() for each in binds])
            yield from cursor
        finally:
            cursor.close()


_NAMES = {'"': r'"(?:[^"]|"")*"', "`": r"`(?:[^`]|``)*`"}


def _in_place(quote: str, placeholder: str) -> Callable[[str], str]:
    """What makes `%s` of each placeholder of a text, and `%%` of each percent sign."""
    part = re.compile(f"({_NAMES[quote]})|({placeholder})|%")

    def changed(found: re.Match[str]) -> str:
        if found[1]:
            return found[1].replace("%", "%%")
        return "%s" if found[2] else "%%"

    return lambda sql: part.sub(changed, sql)


class Pymysql:
    """PyMySQL, which writes values into the text itself, by its own escapes."""

    dialect = "Mysql"
    _percent = staticmethod(_in_place("`", r"\?"))

    def __init__(self, connection: Any) -> None:
        self.connection = connection

    def rows(self, sql: str, binds: Sequence[Bound], keep: bool) -> Iterator[Row]:
        """The rows, once all are read."""
        from pymysql.cursors import Cursor
        with self.connection.cursor(Cursor) as cursor:
            cursor.execute(self._percent(sql), [each.python() for each in binds])
            yield from cursor


# The types of parameters on PostgreSQL, and those of lists of them.
_OIDS = {"SmallInt": (21, 1005), "Integer": (23, 1007), "BigInt": (20, 1016), "Text": (25, 1009), "Binary": (17, 1001), "Bool": (16, 1000)}
_UNKNOWN = 0


class Psycopg:
    """psycopg 3. Each value has the type that the statement says; one that a document does not know has none, and the server finds it.

    psycopg numbers its `%s` from 1 on, as the text does its placeholders, so the server gets the text as it was. (A RawCursor would take
    the text itself, but is not there before psycopg 3.2.)
    """

    dialect = "Pg"
    _percent = staticmethod(_in_place('"', r"\$[0-9]+"))

    def __init__(self, connection: Any) -> None:
        self.connection = connection
        self._parameter, self._dumper = _psycopg_parameter()

    def rows(self, sql: str, binds: Sequence[Bound], keep: bool) -> Iterator[Row]:
        """The rows, once all are received. The text goes to the server as it is."""
        with self.cursor() as cursor:
            cursor.execute(*self.words(sql, binds), prepare=keep)
            while True:
                some = cursor.fetchmany(FETCHED)
                yield from some
                if len(some) < FETCHED:
                    return

    def words(self, sql: str, binds: Sequence[Bound]) -> Tuple[str, List[Any]]:
        """The text and the values as psycopg takes them."""
        return self._percent(sql), [self._parameter(each) for each in binds]

    def cursor(self) -> Any:
        """A cursor of psycopg's own, whatever kind the connection makes, that knows our parameters."""
        from psycopg import Cursor
        return self._prepared(Cursor)

    def async_cursor(self) -> Any:
        """The same on a connection of asyncio."""
        from psycopg import AsyncCursor
        return self._prepared(AsyncCursor)

    def _prepared(self, kind: Any) -> Any:
        from psycopg.rows import tuple_row
        cursor = kind(self.connection, row_factory=tuple_row)
        cursor.adapters.register_dumper(self._parameter, self._dumper)
        return cursor


_parameters: List[Tuple[Any, Any]] = []


def _psycopg_parameter() -> Tuple[Any, Any]:
    """A class of parameters, and the dumper that says the type of each. Made once, where psycopg is there."""
    if _parameters:
        return _parameters[0]
    from psycopg.adapt import Dumper

    class Parameter:
        """A value with the type by which the server takes it."""

        __slots__ = ("data", "oid")

        def __init__(self, bound: Bound) -> None:
            self.oid = _OIDS[bound.type.base][bound.is_list] if bound.type.is_declared else _UNKNOWN
            self.data = _list_text(bound) if bound.is_list else _text(bound.type.base, bound.wire)

    class ParameterDumper(Dumper):
        """Gives the bytes of a parameter, and its type."""

        def __init__(self, cls: Any, context: Any = None, oid: int = _UNKNOWN) -> None:
            super().__init__(cls, context)
            self.oid = oid

        def get_key(self, obj: Any, format: Any) -> Any:
            return (self.cls, obj.oid)

        def upgrade(self, obj: Any, format: Any) -> Any:
            return ParameterDumper(self.cls, None, obj.oid)

        def dump(self, obj: Any) -> Any:
            return obj.data

    _parameters.append((Parameter, ParameterDumper))
    return _parameters[0]


def _text(base: str, wire: Any) -> Optional[bytes]:
    """The text form of a value on PostgreSQL; None for NULL."""
    if wire is None:
        return None
    if base == "Binary":
        return b"\\x" + str(wire).encode()
    if base == "Bool":
        return b"t" if wire else b"f"
    return str(wire).encode()


def _list_text(bound: Bound) -> bytes:
    """The text form of an array on PostgreSQL."""
    parts = []
    for each in bound.wire:
        text = _text(bound.type.base, each)
        parts.append(b"NULL" if text is None else b'"' + text.replace(b"\\", b"\\\\").replace(b'"', b'\\"') + b'"')
    return b"{" + b",".join(parts) + b"}"


_DRIVERS: Dict[Tuple[str, str], Callable[[Any], Driver]] = {
    ("sqlite3", "Connection"): Sqlite,
    ("psycopg", "Connection"): Psycopg,
    ("pymysql", "Connection"): Pymysql,
}
