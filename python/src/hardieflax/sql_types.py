"""The types of columns: what a value must be in Python, how it stands in a document, and what a driver gives back.

A document knows six types. The others of this module are declared as Text there, since the server knows what the column is: its values
are sent as texts, to PostgreSQL with the parameter type 0, by which the server takes the type of the column beside it. `columns` of an
answer says Text of them.
"""
from __future__ import annotations

import datetime
import decimal
import enum
import json
import uuid
from typing import Any, Callable, Generic, List, Optional, Tuple, Type, TypeVar, Union, cast

from .errors import RowError, ValueRefused

T = TypeVar("T")
T_co = TypeVar("T_co", covariant=True)
E = TypeVar("E", bound=enum.Enum)

# A value as a document has it. The values of a list are a tuple.
Wire = Union[None, int, str, bool]
Decoder = Callable[[Any], Any]


class SqlType(Generic[T_co]):
    """A type of a column, whose values are of the type T in Python."""

    def __init__(self, base: str, python: Tuple[type, ...], nullable: bool = False) -> None:
        self.base = base
        self.python = python
        self.nullable = nullable
        self.document_name = base + "?" if nullable else base

    def __repr__(self) -> str:
        name = self.name
        return f"Nullable({name})" if self.nullable else name

    @property
    def name(self) -> str:
        """The name by which the package exports it."""
        return self.base

    @property
    def is_declared(self) -> bool:
        """Whether a document knows the type, and not only the server."""
        return True

    def nullable_form(self) -> SqlType[Optional[T_co]]:
        """The same type with NULL."""
        if self.nullable:
            return cast("SqlType[Optional[T_co]]", self)
        made = type(self).__new__(type(self))
        made.__dict__.update(self.__dict__)
        made.nullable = True
        made.document_name = self.base + "?"
        return cast("SqlType[Optional[T_co]]", made)

    def encoded(self, value: Any) -> Wire:
        """The value as a document has it. ValueRefused: it is none of this type."""
        if value is None:
            if self.nullable:
                return None
            raise ValueRefused(f"None is no {self.name}: declare the column as Nullable({self.name})")
        if not self.has(value):
            raise ValueRefused(f"{shown(value)} is no {self.name}, but {self._found(value)}")
        return self._encoded(value)

    def has(self, value: object) -> bool:
        """Whether the value has the form of this type. A truth value is no number."""
        return isinstance(value, self.python) and (type(value) is not bool or bool in self.python)

    def _found(self, value: object) -> str:
        """What a value is that is none of this type."""
        return article(value)

    def _encoded(self, value: Any) -> Wire:
        return cast(Wire, value)

    def decoder(self, dialect: str) -> Optional[Decoder]:
        """What makes T of a value that a driver of this dialect gives; None where the driver gives T itself."""
        decode = self._decoder(dialect)
        if decode is None or not self.nullable:
            return decode
        of: Decoder = decode
        return lambda value: None if value is None else of(value)

    def _decoder(self, dialect: str) -> Optional[Decoder]:
        """The same for values other than NULL. SQLite may keep a value of any type in a column, so there each is looked at."""
        return self.looked_at if dialect == "Sqlite" else None

    def looked_at(self, value: Any) -> Any:
        """The value, if it is of this type. RowError: it is not."""
        if self.has(value):
            return value
        raise RowError(f"the database has {'NULL' if value is None else article(value)} where the schema says {self!r}")


class _Number(SqlType[int]):
    """Whole numbers of so many bits."""

    def __init__(self, base: str, bits: int) -> None:
        super().__init__(base, (int,))
        self.least, self.most = -(1 << bits - 1), (1 << bits - 1) - 1

    def _encoded(self, value: Any) -> Wire:
        if not self.least <= value <= self.most:
            raise ValueRefused(f"{value} is no {self.name}: that is from {self.least} to {self.most}")
        return int(value)


class _Text(SqlType[str]):
    """Texts that UTF-8 has a form for."""

    def _encoded(self, value: Any) -> Wire:
        try:
            value.encode()
        except UnicodeEncodeError as error:
            raise ValueRefused(f"a text has half of a surrogate pair, at {error.start}, which UTF-8 has no form for") from None
        return str(value)


class _Binary(SqlType[bytes]):
    """Bytes; a document has them in hexadecimal digits."""

    def _encoded(self, value: Any) -> Wire:
        return bytes(value).hex()

    def _decoder(self, dialect: str) -> Optional[Decoder]:
        return None if dialect == "Pg" else self._bytes

    def _bytes(self, value: Any) -> bytes:
        return value.encode() if isinstance(value, str) else bytes(self.looked_at(value))


class _Bool(SqlType[bool]):
    """Truth values, which are 0 and 1 outside PostgreSQL."""

    def _decoder(self, dialect: str) -> Optional[Decoder]:
        return None if dialect == "Pg" else self._truth

    def _truth(self, value: Any) -> bool:
        if value == 0 or value == 1:
            return bool(value)
        if isinstance(value, bytes):  # BIT(1) of MySQL
            return any(value)
        return bool(self.looked_at(value))


class OtherType(SqlType[T_co]):
    """A type that the server has and a document has not: declared as Text, sent as a text."""

    def __init__(self, name: str, python: Tuple[type, ...], to_text: Callable[[Any], str], from_text: Callable[[Any], Any]) -> None:
        super().__init__("Text", python)
        self._name, self._to_text, self._from_text = name, to_text, from_text

    @property
    def name(self) -> str:
        """The name by which the package exports it."""
        return self._name

    @property
    def is_declared(self) -> bool:
        """False: a document has it as Text."""
        return False

    def _encoded(self, value: Any) -> Wire:
        return self._to_text(value)

    def _decoder(self, dialect: str) -> Optional[Decoder]:
        return self._decoded

    def _decoded(self, value: Any) -> Any:
        if self.has(value):
            return value
        try:
            return self._from_text(value)
        except (ValueError, TypeError, ArithmeticError, KeyError) as error:
            raise RowError(f"the database has {shown(value)} where the schema says {self!r}: {error}") from error


class _Moment(OtherType[Any]):
    """Times, and dates with a time: with an offset from UTC, or without one. The two are never taken for each other."""

    def __init__(self, name: str, of: type, to_text: Callable[[Any], str], from_text: Callable[[Any], Any], has_offset: bool = False) -> None:
        super().__init__(name, (of,), to_text, from_text)
        self._has_offset = has_offset

    def has(self, value: object) -> bool:
        return super().has(value) and (getattr(value, "tzinfo", None) is not None) == self._has_offset

    def _found(self, value: object) -> str:
        return article(value) + (f" {'without' if self._has_offset else 'with'} an offset from UTC" if super().has(value) else "")


class _Date(OtherType[datetime.date]):
    """Dates without a time. A datetime is none, though Python makes it a kind of date."""

    def has(self, value: object) -> bool:
        return isinstance(value, datetime.date) and not isinstance(value, datetime.datetime)


class _Json(OtherType[Any]):
    """Anything that JSON has a form for. None is NULL, and not JSON's null."""

    def has(self, value: object) -> bool:
        return True

    def _encoded(self, value: Any) -> Wire:
        try:
            return json.dumps(value, ensure_ascii=False, allow_nan=False)
        except (TypeError, ValueError) as error:
            raise ValueRefused(f"{shown(value)} is no Json: {error}") from error

    def _decoder(self, dialect: str) -> Optional[Decoder]:
        return None if dialect == "Pg" else json.loads


def shown(value: object) -> str:
    """A value in a message, cut where it is long."""
    text = repr(value)
    return text if len(text) <= 60 else text[:57] + ".."


def article(value: object) -> str:
    """What a value is, in words."""
    name = type(value).__name__
    return f"an {name}" if name[0] in "aeiou" else f"a {name}"


def _time_of(value: Any) -> datetime.time:
    """A time; PyMySQL gives the time since midnight."""
    if isinstance(value, datetime.timedelta):
        return (datetime.datetime.min + value).time()
    return datetime.time.fromisoformat(value)


def _timestamp_text(value: datetime.datetime) -> str:
    return value.isoformat(" ")


def _decimal_text(value: decimal.Decimal) -> str:
    return format(value, "f") if value.is_finite() else str(value)


def _decimal_of(value: Any) -> decimal.Decimal:
    return decimal.Decimal(str(value))


def _float_text(value: float) -> str:
    return repr(float(value))


SmallInt: SqlType[int] = _Number("SmallInt", 16)
Integer: SqlType[int] = _Number("Integer", 32)
BigInt: SqlType[int] = _Number("BigInt", 64)
Text: SqlType[str] = _Text("Text", (str,))
Binary: SqlType[bytes] = _Binary("Binary", (bytes, bytearray, memoryview))
Bool: SqlType[bool] = _Bool("Bool", (bool,))

Date: SqlType[datetime.date] = _Date("Date", (), datetime.date.isoformat, datetime.date.fromisoformat)
Time: SqlType[datetime.time] = _Moment("Time", datetime.time, datetime.time.isoformat, _time_of)
Timestamp: SqlType[datetime.datetime] = _Moment("Timestamp", datetime.datetime, _timestamp_text, datetime.datetime.fromisoformat)
TimestampTz: SqlType[datetime.datetime] = _Moment(
    "TimestampTz", datetime.datetime, _timestamp_text, datetime.datetime.fromisoformat, has_offset=True)
Decimal: SqlType[decimal.Decimal] = OtherType("Decimal", (decimal.Decimal,), _decimal_text, _decimal_of)
Float: SqlType[float] = OtherType("Float", (float, int), _float_text, float)
Uuid: SqlType[uuid.UUID] = OtherType("Uuid", (uuid.UUID,), str, uuid.UUID)
Json: SqlType[Any] = _Json("Json", (), str, json.loads)

DECLARED: Tuple[SqlType[Any], ...] = (SmallInt, Integer, BigInt, Text, Binary, Bool)
OTHERS: Tuple[SqlType[Any], ...] = (Date, Time, Timestamp, TimestampTz, Decimal, Float, Uuid, Json)


class EnumerationType(OtherType[Any]):
    """The members of an enumeration of Python, by their values or by their names."""

    def __init__(self, members: Type[enum.Enum], by_name: bool) -> None:
        super().__init__("Enumeration", (members,), self._text_of, self._member_of)
        self.members, self.by_name = members, by_name

    def __repr__(self) -> str:
        made = f"Enumeration({self.members.__name__}{', by_name=True' if self.by_name else ''})"
        return f"Nullable({made})" if self.nullable else made

    @property
    def texts(self) -> List[str]:
        """The texts of the members."""
        return [self._text_of(each) for each in self.members]

    def _text_of(self, value: enum.Enum) -> str:
        return value.name if self.by_name else str(value.value)

    def _member_of(self, value: Any) -> enum.Enum:
        return self.members[value] if self.by_name else self.members(value)


def Enumeration(members: Type[E], *, by_name: bool = False) -> SqlType[E]:  # noqa: N802, since it stands where a type does
    """A type of the database whose texts are the values of an enumeration's members, or with `by_name` their names."""
    if not by_name and not all(isinstance(member.value, str) for member in members):
        raise TypeError(f"{members.__name__} has a member whose value is no text: say by_name=True, or give each a text")
    return EnumerationType(members, by_name)


def Nullable(of: SqlType[T]) -> SqlType[Optional[T]]:  # noqa: N802, since it stands where a type does
    """The type with NULL, which is None in Python."""
    return of.nullable_form()


class Bound:
    """A value, or with `is_list` a list of values, that a statement binds."""

    __slots__ = ("type", "wire", "is_list")

    def __init__(self, type: SqlType[Any], wire: Any, is_list: bool = False) -> None:
        self.type, self.wire, self.is_list = type, wire, is_list

    def __repr__(self) -> str:
        return f"<{self.type.document_name}{' list' if self.is_list else ''}>"

    @property
    def length(self) -> Optional[int]:
        """How many values a list has."""
        return len(self.wire) if self.is_list else None

    def python(self) -> Any:
        """The value as a driver takes it: a number, a text, bytes, a truth value or None; a list of these for a list."""
        if self.type.base != "Binary":
            return list(self.wire) if self.is_list else self.wire
        if self.is_list:
            return [None if each is None else bytes.fromhex(each) for each in self.wire]
        return None if self.wire is None else bytes.fromhex(self.wire)


def bound(type: SqlType[Any], value: Any) -> Bound:
    """A value, checked. ValueRefused: it is none of this type."""
    return Bound(type, type.encoded(value))


def bound_list(type: SqlType[Any], values: Any) -> Bound:
    """A list of values, each checked."""
    if isinstance(values, (str, bytes)):
        raise ValueRefused(f"a list of values is wanted, and not {article(values)}")
    encoded: List[Wire] = [type.encoded(each) for each in values]
    return Bound(type, tuple(encoded), is_list=True)
