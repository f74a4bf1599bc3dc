"""Sessions: queries in, statements or rows out."""
from __future__ import annotations

import copy
import dataclasses
import functools
from typing import Any, Generic, Iterable, Iterator, List, Mapping, Optional, Sequence, Tuple, Type, TypeVar, Union

from .drivers import Driver, driver_of
from .engines import DIALECTS, Engine, default_engine, restricts
from .errors import EngineError, EngineMissing, HardieflaxError, NoRow, Refused, RowError, SchemaError, SeveralRows
from .expressions import Expr
from .guards import Guard
from .outputs import RowReader
from .plans import Outcome, Plan, Request, planner_of
from .queries import Statement
from .schema import Schema
from .sql_types import Bound
from .tables import Table

R = TypeVar("R")
A = TypeVar("A")
T = TypeVar("T", bound=Table)


@dataclasses.dataclass(frozen=True)
class Built(Generic[R]):
    """A statement as a driver takes it.

    `values` are those of its placeholders, in order; `columns` the types of its columns; `safe` says that it may be prepared once and
    used with other values; statements of one `id` have one text and types, and None has none.
    """

    dialect: str
    sql: str
    binds: Tuple[Bound, ...]
    columns: Tuple[str, ...]
    safe: bool
    id: Optional[int]
    query: Statement[R] = dataclasses.field(repr=False, compare=False)

    @property
    def values(self) -> List[Any]:
        """The values as a driver of Python binds them. On PostgreSQL a list is one value."""
        return [each.python() for each in self.binds]

    @functools.cached_property
    def reader(self) -> RowReader:
        """What makes rows of the statement."""
        return RowReader(self.query.outputs, self.query.is_row_alone, self.dialect)

    def row(self, columns: Sequence[Any]) -> R:
        """A row, made of what a driver gives for its columns."""
        if len(columns) != self.reader.width:
            raise RowError(f"a row has {len(columns)} columns, and the statement {self.reader.width}")
        made: R = self.reader(columns)
        return made


class Builder:
    """Builds queries over a schema, in a dialect, restricted by a guard or not: what sessions have in common."""

    def __init__(self, schema: Schema, dialect: Optional[str], spoken: Optional[str], engine: Optional[Engine],
                 guards: Optional[Mapping[Type[T], Expr[Any]]], shared: Iterable[Type[Table]]) -> None:
        found = dialect or spoken
        if found is None:
            raise HardieflaxError(f"a session has a connection, or a dialect: one of {', '.join(DIALECTS)}")
        if found not in DIALECTS:
            raise HardieflaxError(f"{found!r} is no dialect: one of {', '.join(DIALECTS)}")
        if spoken not in (None, found):
            raise HardieflaxError(f"the connection speaks {spoken}, and not {found}")
        if shared and guards is None:
            raise SchemaError("tables are shared in a guarded session: give guards={..}, which may be empty")
        self.schema, self.dialect = schema, found
        self._guard = None if guards is None else Guard(schema, guards, shared)
        engine = engine or default_engine()
        if self._guard is not None and not restricts(engine):
            raise EngineMissing("this library or program knows no policies, so it answers no guarded session: take one of this package's version")
        self._planner = planner_of(schema, engine)

    @property
    def is_guarded(self) -> bool:
        """Whether the session shows rows of its guards alone."""
        return self._guard is not None

    def build(self, query: Statement[R]) -> Built[R]:
        """The statement of a query. Refused: it breaks a rule."""
        return self._built(query, self._planner.plans([self._request(query)])[0])

    def build_all(self, queries: Iterable[Statement[R]]) -> List[Built[R]]:
        """The statements of queries. Refused: one breaks a rule."""
        listed = list(queries)
        plans = self._planner.plans([self._request(each) for each in listed])
        return [self._built(query, plan) for query, plan in zip(listed, plans)]

    def answer_all(self, queries: Iterable[Statement[R]]) -> List[Union[Built[R], Refused]]:
        """For each query its statement, or the refusal of it."""
        listed = list(queries)
        plans = self._planner.plans([self._request(each) for each in listed])
        return [copy.copy(plan) if isinstance(plan, Refused) else self._built(query, plan) for query, plan in zip(listed, plans)]

    def _request(self, query: Statement[Any]) -> Request:
        if not isinstance(query, Statement):
            raise TypeError(f"a session takes a query, as query(Users), and not {query!r}")
        return Request(self.dialect, query, self._guard)

    def _built(self, query: Statement[R], plan: Outcome) -> Built[R]:
        if isinstance(plan, Plan):
            values = query.values if self._guard is None else self._guard.values + query.values
            return Built(self.dialect, plan.sql, plan.binds(values), plan.columns, plan.safe, plan.id, query)
        raise copy.copy(plan)


class Session(Builder):
    """Builds queries over a schema, and runs them on a connection.

    The dialect is that of the connection, or else it is given ("Pg", "Mysql", "Sqlite" or "Bracket"): without a connection a session
    builds statements alone. `engine` is the library or the program; by default it is found.

    With `guards` a session shows of each guarded table the rows for which its condition is true, of the tables in `shared` all rows, and
    of any other nothing. No call of such a session gives a statement without its guard.
    """

    def __init__(self, schema: Schema, connection: Any = None, *, dialect: Optional[str] = None, engine: Optional[Engine] = None,
                 guards: Optional[Mapping[Type[T], Expr[Any]]] = None, shared: Iterable[Type[Table]] = ()) -> None:
        self._driver: Optional[Driver] = None if connection is None else driver_of(connection)
        super().__init__(schema, dialect, self._driver.dialect if self._driver else None, engine, guards, shared)

    def all(self, query: Statement[R]) -> List[R]:
        """All rows."""
        return list(self.rows(query))

    def rows(self, query: Statement[R]) -> Iterator[R]:
        """The rows one after the other. The query is built, and refused, now."""
        built = self.build(query)
        if self._driver is None:
            raise HardieflaxError("this session has no connection: it builds statements alone")
        return self._read(self._driver, built)

    def first(self, query: Statement[R]) -> Optional[R]:
        """The first row, or None. It sets no limit."""
        for row in self.rows(query):
            return row
        return None

    def one(self, query: Statement[R]) -> R:
        """The one row. NoRow, SeveralRows: there is none, or more than one."""
        rows = self.rows(query)
        for row in rows:
            for _ in rows:
                raise SeveralRows(f"more than one row of {query!r}")
            return row
        raise NoRow(f"no row of {query!r}")

    def value(self, query: Statement[Tuple[A]]) -> A:
        """The one value of the one row, as of `query(Users).count()`."""
        return self.one(query)[0]

    def values(self, query: Statement[Tuple[A]]) -> List[A]:
        """The values of the one column."""
        return [row[0] for row in self.rows(query)]

    @staticmethod
    def _read(driver: Driver, built: Built[R]) -> Iterator[R]:
        read = built.row
        for row in driver.rows(built.sql, built.binds, built.safe):
            yield read(row)


__all__ = ["Builder", "Built", "EngineError", "Session"]
