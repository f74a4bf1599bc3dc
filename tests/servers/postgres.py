"""Statements on PostgreSQL: prepared by libpq with the types that an answer tells, bound and read in the binary form."""
from __future__ import annotations

import struct
from typing import Any, Iterable, Sequence

import servers
from values import Kind

OIDS = {"SmallInt": (21, 1005), "Integer": (23, 1007), "BigInt": (20, 1016), "Text": (25, 1009), "Binary": (17, 1001), "Bool": (16, 1000)}
BASES = {oid: base for base, (oid, _) in OIDS.items()}
NUMBERS = {"SmallInt": "!h", "Integer": "!i", "BigInt": "!q"}


def encoded(base: str, value: Any) -> bytes | None:
    """The binary form of a value, None for NULL."""
    if value is None:
        return None
    if base in NUMBERS:
        return struct.pack(NUMBERS[base], value)
    if base == "Bool":
        return b"\1" if value else b"\0"
    return value.encode() if base == "Text" else bytes(value)


def encoded_list(base: str, values: Sequence[Any]) -> bytes:
    """The binary form of an array."""
    if not values:
        return struct.pack("!iii", 0, 0, OIDS[base][0])
    parts = [struct.pack("!iiiii", 1, int(None in values), OIDS[base][0], len(values), 1)]
    for value in values:
        data = encoded(base, value)
        parts.append(struct.pack("!i", -1) if data is None else struct.pack("!i", len(data)) + data)
    return b"".join(parts)


def decoded(base: Any, data: bytes | None) -> Any:
    if data is None:
        return None
    if base in NUMBERS:
        return struct.unpack(NUMBERS[base], data)[0]
    if base == "Bool":
        return data != b"\0"
    return data.decode() if base == "Text" else bytes(data)


class Postgres:
    name = "PostgreSQL"
    dialect = "Pg"
    has_types = True
    types = {"SmallInt": "smallint", "Integer": "integer", "BigInt": "bigint", "Text": "text", "Binary": "bytea", "Bool": "boolean"}

    def __init__(self) -> None:
        try:
            from psycopg import OperationalError, pq
        except ImportError as error:
            raise servers.Missing("python3-psycopg is not installed") from error
        self.pq = pq
        process = servers.start_postgres()
        target = f"host={process.folder} user=postgres dbname=postgres client_encoding=UTF8".encode()

        def connect() -> Any:
            connection = pq.PGconn.connect(target)
            if connection.status != pq.ConnStatus.OK:
                raise OperationalError(connection.error_message.decode())
            return connection

        self.connection = process.connected(connect, OperationalError)
        self.version = self.value("SHOW server_version").split()[0]
        self.made: list[str] = []

    def value(self, sql: str) -> str:
        """The one value of a text without placeholders."""
        return str(self.checked(self.connection.exec_(sql.encode())).get_value(0, 0).decode())

    def texts(self, sql: str) -> list[tuple[str, ...]]:
        """The rows of a text without placeholders, as texts."""
        result = self.checked(self.connection.exec_(sql.encode()))
        return [tuple(result.get_value(row, at).decode() for at in range(result.nfields)) for row in range(result.ntuples)]

    def checked(self, result: Any) -> Any:
        """The result, or the server's message as a refusal."""
        if result.status in (self.pq.ExecStatus.COMMAND_OK, self.pq.ExecStatus.TUPLES_OK):
            return result
        message = result.error_field(self.pq.DiagnosticField.MESSAGE_PRIMARY) or result.error_message
        raise servers.Refused(message.decode())

    def run(self, sql: str) -> None:
        if "\0" in sql:
            raise servers.Refused("a text has a NUL")
        self.checked(self.connection.exec_(sql.encode()))

    def prepare(self, sql: str, kinds: Sequence[Kind]) -> tuple[int, list[Any] | None]:
        """The number of placeholders by the server's count, and the types of the columns."""
        if "\0" in sql:
            raise servers.Refused("a text has a NUL")
        oids = [OIDS[kind.base][kind.is_list] for kind in kinds]
        self.checked(self.connection.prepare(b"s", sql.encode(), oids))
        told = self.checked(self.connection.describe_prepared(b"s"))
        return told.nparams, [BASES.get(told.ftype(at), told.ftype(at)) for at in range(told.nfields)]

    def execute(self, kinds: Sequence[Kind], values: Sequence[Any]) -> tuple[list[Any], list[tuple[Any, ...]]]:
        """The types of the columns, and the rows."""
        data = [encoded_list(kind.base, value) if kind.is_list else encoded(kind.base, value) for kind, value in zip(kinds, values)]
        result = self.checked(self.connection.exec_prepared(b"s", data, [1] * len(data), 1))
        bases = [BASES.get(result.ftype(at), result.ftype(at)) for at in range(result.nfields)]
        rows = [tuple(decoded(base, result.get_value(row, at)) for at, base in enumerate(bases)) for row in range(result.ntuples)]
        return bases, rows

    def close(self) -> None:
        """Forgets the prepared statement, where there is one."""
        self.connection.exec_(b"DEALLOCATE ALL")

    def open_schemas(self, names: Iterable[str]) -> dict[str, str]:
        """Makes the schemas of a document, and gives those that the server refuses with its message."""
        self.run("DROP SCHEMA IF EXISTS public CASCADE")
        self.run("CREATE SCHEMA public")
        self.made = ["public"]
        refused = {}
        for name in set(names) - {"public"}:
            try:
                self.run("CREATE SCHEMA " + self.quoted(name))
                self.made.append(name)
            except servers.Refused as error:
                refused[name] = str(error)
        return refused

    def drop_schemas(self) -> None:
        for name in self.made:
            self.run(f"DROP SCHEMA {self.quoted(name)} CASCADE")

    def quoted(self, name: str) -> str:
        return '"' + name.replace('"', '""') + '"'
