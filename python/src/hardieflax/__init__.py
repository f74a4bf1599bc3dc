"""Typed SELECT statements for PostgreSQL, MySQL, MariaDB and SQLite, written by Hardieflax.

    class Users(Table, name="users"):
        id = Column(BigInt)
        name = Column(Nullable(Text))

    session = Session(Schema(Users), sqlite3.connect("blog.db"))
    for user in session.all(query(Users).filter(Users.name == "Sean").order(Users.id.desc()).limit(10)):
        print(user.id, user.name)
"""
from .async_session import AsyncSession
from .engines import Conversation, Engine, Library, Program, default_engine
from .errors import (EngineError, EngineMissing, HardieflaxError, NoRow, NotShared, Refused, RowError, SchemaError, SeveralRows,
                     ValueRefused)
from .expressions import Expr, Order, all_of, any_of, count, value
from .queries import Combination, Query, Selected, Statement, nullable, query, select
from .schema import Schema
from .session import Built, Session
from .sql_types import (BigInt, Binary, Bool, Date, Decimal, Enumeration, Float, Integer, Json, Nullable, SmallInt, SqlType, Text, Time,
                        Timestamp, TimestampTz, Uuid)
from .tables import Column, Table, alias, only, sampled

__version__ = "0.1.0"

__all__ = [
    "AsyncSession", "BigInt", "Binary", "Bool", "Built", "Column", "Combination", "Conversation", "Date", "Decimal", "Engine", "EngineError",
    "EngineMissing", "Enumeration", "Expr", "Float", "HardieflaxError", "Integer", "Json", "Library", "NoRow", "NotShared", "Nullable",
    "Order", "Program", "Query", "Refused", "RowError", "Schema", "SchemaError", "Selected", "Session", "SeveralRows", "SmallInt",
    "SqlType", "Statement", "Table", "Text", "Time", "Timestamp", "TimestampTz", "Uuid", "ValueRefused", "alias", "all_of", "any_of", "count",
    "default_engine", "nullable", "only", "query", "sampled", "select", "value",
]
