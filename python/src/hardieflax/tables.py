"""Tables as classes.

    class Users(Table, name="users"):
        id = Column(BigInt)
        name = Column(Nullable(Text))

Of the class, `Users.name` is an expression, and of a row, which is an instance, it is the value.
"""
from __future__ import annotations

import difflib
from typing import Any, ClassVar, Dict, Generic, Optional, Tuple, Type, TypeVar, Union, overload

from .errors import SchemaError
from .expressions import HOLE, Expr, quoted
from .sql_types import Bound, Integer, SmallInt, SqlType, bound

T = TypeVar("T")
A = TypeVar("A", bound="Table")


class Column(Generic[T]):
    """A column of a class, declared with its type.

    `key` marks the columns of the primary key, which by default is the column `id`. `references` is the table whose key this column
    holds: joins of the two then need no ON. `sql_name` is the name in the database, where it is another than the attribute's.
    """

    def __init__(self, type: SqlType[T], *, key: bool = False, sql_name: Optional[str] = None,
                 references: Union[Type[Table], str, None] = None) -> None:
        if not isinstance(type, SqlType):
            raise SchemaError(f"a column has a type of this package, as Text or Nullable(Text), and not {type!r}")
        self.type, self.is_key, self._sql_name, self.references, self.name = type, key, sql_name, references, ""

    def __set_name__(self, owner: type, name: str) -> None:
        self.name = name

    @property
    def sql_name(self) -> str:
        """The name in the database."""
        return self.name if self._sql_name is None else self._sql_name

    @property
    def parent(self) -> Optional[str]:
        """The name of the table whose key this column holds."""
        if self.references is None or isinstance(self.references, str):
            return self.references
        return self.references.__table__

    def document(self) -> Dict[str, Any]:
        """The column as a document declares it."""
        made: Dict[str, Any] = {"name": self.name, "type": self.type.document_name}
        return made if self._sql_name is None else {**made, "sql_name": self._sql_name}

    @overload
    def __get__(self, row: None, table: Type[Any]) -> Expr[T]: ...
    @overload
    def __get__(self, row: Table, table: Type[Any]) -> T: ...
    def __get__(self, row: Optional[Table], table: Type[Any]) -> Union[Expr[T], T]:
        if row is None:
            found: Expr[T] = table.__expressions__[self.name]
            return found
        raise AttributeError(f"this row of {table.__name__} has no {self.name}")


class Table:
    """A table. A class of it declares columns; an instance is a row, which has a value for each."""

    __table__: ClassVar[str] = ""
    __sql_name__: ClassVar[Optional[str]] = None
    __schema__: ClassVar[Optional[str]] = None
    __source__: ClassVar[str] = ""
    __source_values__: ClassVar[Tuple[Bound, ...]] = ()
    __columns__: ClassVar[Dict[str, Column[Any]]] = {}
    __expressions__: ClassVar[Dict[str, Expr[Any]]] = {}
    __of__: ClassVar[Optional[Type[Table]]] = None

    def __init_subclass__(cls, *, name: Optional[str] = None, sql_name: Optional[str] = None, schema: Optional[str] = None) -> None:
        if cls.__of__ is not None:
            return  # another source of a table that is declared
        columns = {key: column for base in reversed(cls.__mro__) for key, column in vars(base).items() if isinstance(column, Column)}
        cls.__columns__ = columns
        cls.__table__ = cls.__name__.lower() if name is None else name
        cls.__sql_name__, cls.__schema__ = sql_name, schema
        cls.__source__ = f'{{"table":{quoted(cls.__table__)}}}'
        cls.__expressions__ = {key: _column(cls.__table__, column) for key, column in columns.items()}

    def __init__(self, **values: Any) -> None:
        for name in values:
            if name not in self.__columns__:
                raise TypeError(f"{type(self).__name__} has no column {name!r}{near(name, self.__columns__)}")
        self.__dict__.update(values)

    def __repr__(self) -> str:
        shown = ", ".join(f"{name}={self.__dict__[name]!r}" for name in self.__columns__ if name in self.__dict__)
        return f"{(self.__of__ or type(self)).__name__}({shown})"

    def __eq__(self, other: object) -> bool:
        return isinstance(other, Table) and self.__table__ == other.__table__ and self.__dict__ == other.__dict__

    def __hash__(self) -> int:
        return hash((self.__table__, *(self.__dict__.get(name) for name in key_of(type(self)))))


def _column(table: str, column: Column[Any]) -> Expr[Any]:
    return Expr(f'{{"col":[{quoted(table)},{quoted(column.name)}]}}', (), column.type)


def near(name: str, names: Any) -> str:
    """A hint at the name that was probably meant."""
    found = difflib.get_close_matches(name, list(names), 1, 0.6)
    return f"; did you mean {found[0]!r}?" if found else ""


def key_of(table: Type[Table]) -> Tuple[str, ...]:
    """The columns of the primary key: those that are marked, or else `id`."""
    marked = tuple(name for name, column in table.__columns__.items() if column.is_key)
    return marked or (("id",) if "id" in table.__columns__ else ())


def declared(table: Type[Table]) -> Type[Table]:
    """The class that declares the table: that of an alias is another."""
    return table.__of__ or table


def document_of(table: Type[Table]) -> Dict[str, Any]:
    """The table as a document declares it. SchemaError: it has no column, or no key."""
    if not table.__columns__:
        raise SchemaError(f"{table.__name__} has no column")
    key = list(key_of(table))
    if not key:
        raise SchemaError(f"{table.__name__} has no primary key: mark its columns by Column(.., key=True)")
    made: Dict[str, Any] = {"name": table.__table__, "primary_key": key, "columns": [c.document() for c in table.__columns__.values()]}
    if table.__sql_name__ is not None:
        made["sql_name"] = table.__sql_name__
    if table.__schema__ is not None:
        made["schema"] = table.__schema__
    return made


def _another(table: Type[A], source: str, expressions: Dict[str, Expr[Any]], values: Tuple[Bound, ...] = ()) -> Type[A]:
    of = declared(table)
    names = {"__of__": of, "__source__": source, "__source_values__": values, "__expressions__": expressions, "__module__": of.__module__}
    return type(table.__name__, (of,), names)


def alias(table: Type[A], name: str) -> Type[A]:
    """The table under another name, so that a query may read it twice."""
    of = declared(table)
    begin = f'{{"field":[{quoted(name)},{quoted(of.__table__)},'
    fields: Dict[str, Expr[Any]] = {key: Expr(f"{begin}{quoted(key)}]}}", (), column.type) for key, column in of.__columns__.items()}
    return _another(table, f'{{"alias":{quoted(name)},"of":{quoted(of.__table__)}}}', fields)


def only(table: Type[A]) -> Type[A]:
    """ONLY the table, and no table that inherits from it (PostgreSQL)."""
    return _another(table, f'{table.__source__[:-1]},"only":true}}', table.__expressions__, table.__source_values__)


def sampled(table: Type[A], method: str, portion: int, seed: Optional[int] = None) -> Type[A]:
    """A TABLESAMPLE of the table: about so many per cent of its rows, by the method "bernoulli" or "system" (PostgreSQL)."""
    if method not in ("bernoulli", "system"):
        raise ValueError(f"the method is 'bernoulli' or 'system', and not {method!r}")
    if not 0 <= portion <= 100:
        raise ValueError(f"the portion is from 0 to 100, and not {portion}")
    numbers = (bound(SmallInt, portion),) if seed is None else (bound(SmallInt, portion), bound(Integer, seed))
    holes = ",".join(HOLE for _ in numbers)
    return _another(table, f'{table.__source__[:-1]},"sample":["{method}",{holes}]}}', table.__expressions__, table.__source_values__ + numbers)
