"""Statements on MariaDB: prepared and executed by the binary protocol (COM_STMT_PREPARE, COM_STMT_EXECUTE) over PyMySQL's connection,
which has no call for it."""
from __future__ import annotations

import struct
from typing import Any, Callable, Iterable, Sequence, TypeVar

import servers
from values import Kind

T = TypeVar("T")

PREPARE, EXECUTE, CLOSE = 0x16, 0x17, 0x19
UNSIGNED = 32
BINARY_CHARACTERS = 63
# The codes of types in the protocol.
BOUND = {"SmallInt": (2, "<h"), "Integer": (3, "<i"), "BigInt": (8, "<q"), "Bool": (1, "<b"), "Text": (253, None), "Binary": (252, None)}
NUMBERS = {1: "<b", 2: "<h", 13: "<h", 3: "<i", 9: "<i", 8: "<q"}
NULL_TYPE = 6
READER = "reader@localhost"


def text_of_length(data: bytes) -> bytes:
    """Bytes with their length before them."""
    if len(data) < 251:
        return bytes([len(data)]) + data
    if len(data) < 1 << 16:
        return b"\xfc" + struct.pack("<H", len(data)) + data
    return b"\xfe" + struct.pack("<Q", len(data)) + data


def encoded(base: str, value: Any) -> bytes:
    form = BOUND[base][1]
    if form is not None:
        return struct.pack(form, value)
    return text_of_length(value.encode() if base == "Text" else value)


def execution(statement: int, bases: Sequence[str], values: Sequence[Any]) -> bytes:
    """The packet that executes a statement with these values."""
    packet = struct.pack("<IBI", statement, 0, 1)
    if not bases:
        return packet
    nulls = bytearray((len(values) + 7) // 8)
    for at, value in enumerate(values):
        if value is None:
            nulls[at // 8] |= 1 << at % 8
    types = b"".join(struct.pack("<BB", BOUND[base][0], 0) for base in bases)
    data = b"".join(encoded(base, value) for base, value in zip(bases, values) if value is not None)
    return packet + bytes(nulls) + b"\1" + types + data


def kind_of(column: Any) -> str:
    """What a column's values are: "number", "text", "binary" or "null"."""
    if column.type_code == NULL_TYPE:
        return "null"
    if column.type_code in NUMBERS:
        return "number"
    return "binary" if column.charsetnr == BINARY_CHARACTERS else "text"


def decoded_row(packet: Any, columns: Sequence[Any]) -> tuple[Any, ...]:
    data: bytes = packet.get_all_data()
    at = 1 + (len(columns) + 9) // 8
    row: list[Any] = []
    for number, column in enumerate(columns, 2):
        if data[1 + number // 8] >> number % 8 & 1:
            row.append(None)
        elif column.type_code in NUMBERS:
            form = NUMBERS[column.type_code]
            form = form.upper() if column.flags & UNSIGNED else form
            row.append(struct.unpack_from(form, data, at)[0])
            at += struct.calcsize(form)
        else:
            length, at = length_at(data, at)
            value = data[at:at + length]
            row.append(value.decode() if kind_of(column) == "text" else value)
            at += length
    return tuple(row)


def length_at(data: bytes, at: int) -> tuple[int, int]:
    """A length, and the index after it."""
    first = data[at]
    if first < 251:
        return first, at + 1
    size = {0xfc: 2, 0xfd: 3, 0xfe: 8}[first]
    return int.from_bytes(data[at + 1:at + 1 + size], "little"), at + 1 + size


def connected(pymysql: Any, socket: str, user: str) -> Any:
    return pymysql.connect(unix_socket=socket, user=user, charset="utf8mb4", autocommit=True,
                           init_command="SET NAMES utf8mb4 COLLATE utf8mb4_nopad_bin")


class Client:
    """One user's connection, and the statement that it has prepared."""

    def __init__(self, pymysql: Any, connection: Any) -> None:
        self.pymysql = pymysql
        self.connection = connection
        self.statement: int | None = None

    def guarded(self, action: Callable[[], T]) -> T:
        """What the action gives, or the server's message as a refusal."""
        fault: type[Exception] = self.pymysql.err.MySQLError
        try:
            return action()
        except fault as error:
            raise servers.Refused(str(error.args[-1])) from error

    def run(self, sql: str) -> None:
        self.guarded(lambda: self.query(sql))

    def query(self, sql: str) -> None:
        self.connection.query(sql)

    def described(self, count: int) -> list[Any]:
        """So many descriptions of columns, and the mark after them."""
        columns = [self.connection._read_packet(self.pymysql.protocol.FieldDescriptorPacket) for _ in range(count)]
        if count:
            self.connection._read_packet()
        return columns

    def prepare(self, sql: str, kinds: Sequence[Kind]) -> tuple[int, list[Any] | None]:
        """The number of placeholders by the server's count. The types of columns are known once values are bound."""
        return self.guarded(lambda: (self.prepared(sql), None))

    def prepared(self, sql: str) -> int:
        self.close()
        self.connection._execute_command(PREPARE, sql.encode())
        found = struct.unpack_from("<BIHH", self.connection._read_packet().get_all_data())
        _, self.statement, columns, placeholders = found
        self.described(placeholders)
        self.described(columns)
        return int(placeholders)

    def execute(self, kinds: Sequence[Kind], values: Sequence[Any]) -> tuple[list[Any], list[tuple[Any, ...]]]:
        return self.guarded(lambda: self.executed([kind.base for kind in kinds], values))

    def executed(self, bases: Sequence[str], values: Sequence[Any]) -> tuple[list[Any], list[tuple[Any, ...]]]:
        assert self.statement is not None
        self.connection._execute_command(EXECUTE, execution(self.statement, bases, values))
        first = self.connection._read_packet()
        if first.is_ok_packet():
            return [], []
        columns = self.described(first.read_length_encoded_integer())
        packets = []  # all of them, whatever a row turns out to hold
        while True:
            packets.append(self.connection._read_packet())
            if packets[-1].is_eof_packet():
                return [kind_of(column) for column in columns], [decoded_row(packet, columns) for packet in packets[:-1]]

    def close(self) -> None:
        if self.statement is not None:
            self.connection._execute_command(CLOSE, struct.pack("<I", self.statement))
            self.statement = None


class Mariadb(Client):
    name = "MariaDB"
    dialect = "Mysql"
    has_types = False
    types = {"SmallInt": "smallint", "Integer": "int", "BigInt": "bigint", "Text": "varchar(190)", "Binary": "varbinary(190)", "Bool": "boolean"}

    def __init__(self) -> None:
        try:
            import pymysql
        except ImportError as error:
            raise servers.Missing("python3-pymysql is not installed") from error
        process = servers.start_mariadb()
        self.socket = f"{process.folder}/socket"
        fault: type[Exception] = pymysql.err.OperationalError
        connection = process.connected(lambda: connected(pymysql, self.socket, "root"), fault)
        super().__init__(pymysql, connection)
        self.version: str = self.connection.get_server_info().removeprefix("5.5.5-").split("-")[0]
        self.run(f"CREATE USER {READER}")
        self.made: list[str] = []
        self.readers: Client | None = None

    def reader(self) -> Client:
        """The connection of READER, who may read nothing but what it is granted."""
        if self.readers is None:
            self.readers = Client(self.pymysql, connected(self.pymysql, self.socket, "reader"))
        return self.readers

    def open_schemas(self, names: Iterable[str]) -> dict[str, str]:
        """Makes the schemas of a document, and gives those that the server refuses with its message."""
        self.run("CREATE DATABASE hardieflax")
        self.run("USE hardieflax")
        self.made = ["hardieflax"]
        refused = {}
        for name in names:
            try:
                self.run("CREATE DATABASE " + self.quoted(name))
                self.made.append(name)
            except servers.Refused as error:
                refused[name] = str(error)
        return refused

    def drop_schemas(self) -> None:
        for name in self.made:
            self.run("DROP DATABASE " + self.quoted(name))
        self.made = []

    def quoted(self, name: str) -> str:
        return "`" + name.replace("`", "``") + "`"
