"""Tables as SQLAlchemy's inspector describes them: PostgreSQL, MySQL, MariaDB and SQLite."""
from __future__ import annotations

import enum
from typing import Any, Dict, FrozenSet, List, Optional, Sequence, Tuple

from .errors import SchemaError
from .reflection import ForeignKey, Found, FoundColumn, FoundTable, attribute_name
from .schema import class_name
from .sql_types import (BigInt, Binary, Bool, Date, Decimal, Enumeration, Float, Integer, Json, SmallInt, SqlType, Text, Time, Timestamp,
                        TimestampTz, Uuid)

_UNSIGNED = {"TINYINT": SmallInt, "SMALLINT": Integer, "MEDIUMINT": Integer, "INTEGER": BigInt}
_NUMBERS = {"TINYINT": SmallInt, "MEDIUMINT": Integer, "YEAR": SmallInt}


def inspected_tables(database: Any, only: FrozenSet[str], schema: Optional[str], trust: bool, notes: List[str]) -> List[FoundTable]:
    """The tables of an engine, a connection or a URL of SQLAlchemy."""
    try:
        import sqlalchemy
    except ImportError as error:
        raise SchemaError("this database is described by SQLAlchemy: pip install 'hardieflax[schema]'. SQLite needs it not: give a "
                          "connection of sqlite3, or the file's path") from error
    try:
        engine = sqlalchemy.create_engine(_with_driver(database)) if isinstance(database, str) else database
        inspector = sqlalchemy.inspect(engine)
    except (sqlalchemy.exc.SQLAlchemyError, ImportError) as error:
        raise SchemaError(f"the database cannot be inspected: {error}") from error
    dialect = str(inspector.dialect.name)
    for view in inspector.get_view_names(schema):
        if not only or view in only:
            notes.append(f"{view}: is a view, left out: which of its columns may be NULL is unknown")
    names = [name for name in sorted(inspector.get_table_names(schema)) if not only or name in only]
    described = {name: list(inspector.get_columns(name, schema)) for name in names}
    return [_table(inspector, name, described[name], dialect, schema, trust, notes) for name in names]


def _with_driver(url: str) -> str:
    """A URL that names no driver gets one that this package knows: psycopg 3, and PyMySQL."""
    for plain, driven in (("postgresql://", "postgresql+psycopg://"), ("postgres://", "postgresql+psycopg://"),
                          ("mysql://", "mysql+pymysql://"), ("mariadb://", "mariadb+pymysql://")):
        if url.startswith(plain):
            return _if_known(driven + url[len(plain):], url)
    return url


def _if_known(url: str, plain: str) -> str:
    """The URL, if this SQLAlchemy knows its driver: before 2.0 it does not know psycopg 3."""
    from sqlalchemy.engine import make_url
    from sqlalchemy.exc import SQLAlchemyError
    try:
        make_url(url).get_dialect()
    except SQLAlchemyError:
        return plain.replace("postgres://", "postgresql://")
    return url


def _table(inspector: Any, name: str, described: List[Any], dialect: str, schema: Optional[str], trust: bool, notes: List[str]) -> FoundTable:
    key: Tuple[str, ...] = tuple(inspector.get_pk_constraint(name, schema).get("constrained_columns") or ())
    columns = []
    for each in described:
        type = found_type(each["type"], dialect, f"{name}_{each['name']}", trust)
        if type is BigInt and getattr(each["type"], "unsigned", False) and _name(each["type"]) == "BIGINT":
            notes.append(f"{name}.{each['name']}: BIGINT UNSIGNED is BigInt here: a value of 2^63 or more does not fit")
        is_row_number = dialect == "sqlite" and key == (each["name"],) and _name(each["type"]) == "INTEGER"
        columns.append(FoundColumn(each["name"], type, bool(each["nullable"]) and not is_row_number))
    foreign = tuple(ForeignKey(tuple(each["constrained_columns"]), each["referred_table"], tuple(each["referred_columns"]))
                    for each in inspector.get_foreign_keys(name, schema))
    return FoundTable(name, tuple(columns), key, foreign, schema)


def _name(type: Any) -> str:
    return str(type.__class__.__name__).upper()


def _types() -> Any:
    """SQLAlchemy's types. (Stubs of it lack some members, so none are used.)"""
    import sqlalchemy
    return sqlalchemy.types


def found_type(type: Any, dialect: str, where: str, trust: bool = False) -> Found:
    """The counterpart of a type of SQLAlchemy, or its name. `where` names an enumeration that has no name of its own."""
    types = _types()
    name = _name(type)
    if isinstance(type, types.Boolean) or name == "TINYINT" and getattr(type, "display_width", None) == 1:
        return Bool
    if getattr(type, "unsigned", False) and name in _UNSIGNED:
        return _UNSIGNED[name]
    if name in _NUMBERS:
        return _NUMBERS[name]
    if name == "BIT" and getattr(type, "length", None) == 1 and dialect in ("mysql", "mariadb"):
        return Bool
    if isinstance(type, types.Integer) and dialect == "sqlite" and not trust:
        return BigInt
    found = _by_class(type, where)
    if found is None:
        return "a type that SQLAlchemy does not know" if isinstance(type, types.NullType) else str(type)
    return found


_enumerations: Dict[Tuple[str, ...], SqlType[Any]] = {}


def enumeration(name: str, texts: Sequence[str]) -> SqlType[Any]:
    """A type of the database with these texts, as an enumeration whose members are made now. One of a name and texts is made once."""
    key = (name, *texts)
    if key not in _enumerations:
        members: Dict[str, str] = {}
        for number, text in enumerate(texts, 1):
            member = attribute_name(text).upper().strip("_") or f"MEMBER{number}"
            members[member if member.isidentifier() and member not in members else f"MEMBER{number}"] = text
        made: Any = enum.Enum(class_name(name), members)  # type: ignore[misc]
        _enumerations[key] = Enumeration(made)
    return _enumerations[key]


def _by_class(type: Any, where: str) -> Optional[SqlType[Any]]:
    types = _types()
    name = _name(type)
    if name == "UUID":
        return Uuid
    if isinstance(type, types.Enum) and name != "SET" and type.enums:
        return enumeration(type.name or where, type.enums)
    if isinstance(type, types.Enum) or name == "SET":
        return None
    moment = TimestampTz if getattr(type, "timezone", False) else Timestamp
    listed: Tuple[Tuple[Any, SqlType[Any]], ...] = (
        (types.SmallInteger, SmallInt), (types.BigInteger, BigInt), (types.Integer, Integer),
        (types.LargeBinary, Binary), (types._Binary, Binary),
        (types.JSON, Json), (types.DateTime, moment), (types.Date, Date), (types.Time, Time), (types.Float, Float), (types.Numeric, Decimal),
        (types.String, Text))
    return next((found for kind, found in listed if isinstance(type, kind)), None)
