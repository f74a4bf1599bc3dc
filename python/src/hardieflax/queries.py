"""Queries. Nothing changes one: each call gives another.

`query(Users)` reads rows of Users. A join adds the rows of its table beside them, and `select` says what is read instead.
"""
from __future__ import annotations

import json
from typing import Any, Generic, List, Optional, Sequence, Tuple, Type, TypeVar, Union, overload

from .errors import ValueRefused
from .expressions import HOLE, Expr, Order, Values, filled
from .outputs import Output, Scalar, WholeTable
from .sql_types import BigInt, Bool, Bound, Nullable, SqlType, bound
from .tables import Table, key_of

R_co = TypeVar("R_co", covariant=True)
R = TypeVar("R")
A = TypeVar("A")
B = TypeVar("B")
C = TypeVar("C")
D = TypeVar("D")
E = TypeVar("E")
F = TypeVar("F")
G = TypeVar("G")
H = TypeVar("H")
T1 = TypeVar("T1", bound=Table)
T2 = TypeVar("T2", bound=Table)
Q = TypeVar("Q", bound="Statement[Any]")
S = TypeVar("S", bound="Select[Any]")

Condition = Expr[Optional[bool]]
# The tables that are read, in order, each with whether its row may be missing.
Leaves = Tuple[Tuple[Type[Any], bool], ...]
# What may be selected: an expression, or all columns of a table.
Item = Union[Expr[A], Type[A], "Maybe[A]"]


class Maybe(Generic[A]):
    """All columns of a table whose row may be missing, as on the right side of a left join."""

    def __init__(self, table: Type[Any]) -> None:
        self.table = table


@overload
def nullable(of: Type[T1]) -> Maybe[Optional[T1]]: ...
@overload
def nullable(of: Expr[A]) -> Expr[Optional[A]]: ...
def nullable(of: Any) -> Any:
    """The table, or the expression, as one that may be missing: how what a left join has on its right is selected."""
    return of.nullable() if isinstance(of, Expr) else Maybe(of)


class Statement(Generic[R_co]):
    """What gives rows of the type R: a select statement or a combination of such."""

    def __init__(self, begin: str, calls: str, values: Values, leaves: Leaves, outputs: Optional[Tuple[Output, ...]]) -> None:
        self._begin, self._calls, self.values, self._leaves, self._outputs = begin, calls, values, leaves, outputs

    @property
    def shape(self) -> str:
        """The query as JSON, with a hole for each value."""
        return f'{self._begin},"calls":[{self._calls}]}}'

    def json(self) -> Any:
        """The query as a document has it."""
        return json.loads(filled(self.shape, self.values))

    def __repr__(self) -> str:
        from .rendering import rendered_query
        return rendered_query(self.json())

    def __bool__(self) -> bool:
        raise TypeError("a query has no truth value, and no rows of itself: ask a session for them")

    @property
    def outputs(self) -> Tuple[Output, ...]:
        """What makes a row's parts of its columns."""
        if self._outputs is not None:
            return self._outputs
        return tuple(WholeTable(table, is_optional) for table, is_optional in self._leaves)

    @property
    def is_row_alone(self) -> bool:
        """Whether a row is its one part, and not a tuple: so it is where one table is read, and nothing was selected."""
        return self._outputs is None and len(self._leaves) == 1

    def _called(self: Q, call: str, values: Values = ()) -> Q:
        made = object.__new__(type(self))
        made.__dict__.update(self.__dict__)
        made.__dict__["_calls"] = f"{self._calls},{call}" if self._calls else call
        made.__dict__["values"] = self.values + values
        return made

    def _numbered(self: Q, call: str, number: int) -> Q:
        if isinstance(number, int) and number < 0:
            raise ValueRefused(f"{call} takes a number from 0 on, and not {number}")
        return self._called(f'["{call}",{HOLE}]', (bound(BigInt, number),))

    def limit(self: Q, number: int) -> Q:
        """At most so many rows."""
        return self._numbered("limit", number)

    def offset(self: Q, number: int) -> Q:
        """Without the first so many rows."""
        return self._numbered("offset", number)

    def union(self, other: Statement[R_co]) -> Combination[R_co]:
        """UNION: what either has, each row once."""
        return self._combined("union", other)

    def union_all(self, other: Statement[R_co]) -> Combination[R_co]:
        """UNION ALL: the rows of both."""
        return self._combined("union_all", other)

    def intersect(self, other: Statement[R_co]) -> Combination[R_co]:
        """INTERSECT: what both have."""
        return self._combined("intersect", other)

    def intersect_all(self, other: Statement[R_co]) -> Combination[R_co]:
        """INTERSECT ALL (PostgreSQL, MySQL)."""
        return self._combined("intersect_all", other)

    def except_(self, other: Statement[R_co]) -> Combination[R_co]:
        """EXCEPT: what this has and the other has not."""
        return self._combined("except", other)

    def except_all(self, other: Statement[R_co]) -> Combination[R_co]:
        """EXCEPT ALL (PostgreSQL, MySQL)."""
        return self._combined("except_all", other)

    def _combined(self, by: str, other: Statement[Any]) -> Combination[Any]:
        if self.is_nullable_column() and other.is_nullable_column() is False:
            other = other.with_nullable_column()
        calls = f'{self._calls}{"," if self._calls else ""}["{by}",{other.shape}]'
        return Combination(self._begin, calls, self.values + other.values, self._leaves, self._outputs)

    def exists(self) -> Expr[bool]:
        """EXISTS of the query."""
        return Expr(f'{{"exists":{self.shape}}}', self.values, Bool)

    def single_value(self: Statement[Tuple[A]]) -> Expr[Optional[A]]:
        """The query as a value: NULL where it has no row."""
        type = self._column_type()
        if type is None:
            raise TypeError("a single value is one selected column")
        return Expr(f'{{"single_value":{self.shape}}}', self.values, Nullable(type))

    def _column_type(self) -> Optional[SqlType[Any]]:
        if self._outputs is not None and len(self._outputs) == 1 and isinstance(self._outputs[0], Scalar):
            return self._outputs[0].type
        return None

    def is_nullable_column(self) -> Optional[bool]:
        """Whether the one selected column may be NULL; None where not one column is selected."""
        type = self._column_type()
        return None if type is None else type.nullable

    def with_nullable_column(self) -> Statement[Any]:
        """The same, its one selected column as one that may be NULL, where it can be said."""
        return self


class Combination(Statement[R_co]):
    """Two statements, joined by UNION, INTERSECT or EXCEPT."""

    def positional_order_by(self, *places: Union[int, Tuple[int, str]]) -> Combination[R_co]:
        """Orders by the columns of these numbers, from 1 on: 2, or (2, "desc")."""
        return self._called(f'["positional_order_by",[{",".join(map(_place, places))}]]')


class Select(Statement[R_co]):
    """A select statement."""

    def filter(self: S, *conditions: Condition) -> S:
        """Rows for which each of the conditions is true."""
        made = self
        for condition in conditions:
            made = made._called(f'["filter",{_condition(condition).shape}]', condition.values)
        return made

    def or_filter(self: S, condition: Condition) -> S:
        """Also rows for which this condition is true: OR with what was filtered so far."""
        return self._called(f'["or_filter",{_condition(condition).shape}]', condition.values)

    def group_by(self: S, *columns: Expr[Any]) -> S:
        """GROUP BY these columns."""
        return self._listed("group_by", columns)

    def having(self: S, condition: Condition) -> S:
        """Groups for which the condition is true. It replaces an earlier one."""
        return self._called(f'["having",{_condition(condition).shape}]', condition.values)

    def order(self: S, *items: Union[Expr[Any], Order]) -> S:
        """The order of rows. It replaces an earlier one."""
        return self._listed("order", items)

    def then_order_by(self: S, *items: Union[Expr[Any], Order]) -> S:
        """Adds to the order of rows."""
        return self._listed("then_order_by", items)

    def distinct(self: S) -> S:
        """Each row once."""
        return self._called('["distinct"]')

    def distinct_on(self: S, *columns: Expr[Any]) -> S:
        """The first row of each of these values (PostgreSQL)."""
        return self._listed("distinct_on", columns)

    def find(self: S, *key: Any) -> S:
        """The row of this primary key: a value for each of its columns."""
        table = self._leaves[0][0]
        names = key_of(table)
        if len(key) != len(names):
            raise ValueRefused(f"the key of {table.__name__} is ({', '.join(names)}), and {len(key)} values are given")
        bounds = [bound(table.__columns__[name].type, each) for name, each in zip(names, key)]
        binds = ",".join(f'{{"bind":["{each.type.document_name}",{HOLE}]}}' for each in bounds)
        return self._called(f'["find",[{binds}]]', tuple(bounds))

    def for_update(self: S) -> S:
        """FOR UPDATE (PostgreSQL, MySQL)."""
        return self._called('["for_update"]')

    def for_no_key_update(self: S) -> S:
        """FOR NO KEY UPDATE (PostgreSQL)."""
        return self._called('["for_no_key_update"]')

    def for_share(self: S) -> S:
        """FOR SHARE (PostgreSQL, MySQL)."""
        return self._called('["for_share"]')

    def for_key_share(self: S) -> S:
        """FOR KEY SHARE (PostgreSQL)."""
        return self._called('["for_key_share"]')

    def skip_locked(self: S) -> S:
        """SKIP LOCKED, after a lock."""
        return self._called('["skip_locked"]')

    def no_wait(self: S) -> S:
        """NOWAIT, after a lock."""
        return self._called('["no_wait"]')

    def count(self) -> Selected[Tuple[int]]:
        """How many rows there are."""
        made = self._called('["count"]')
        return _selected(made, (Scalar(BigInt),))

    @overload
    def select(self, a: Item[A], /) -> Selected[Tuple[A]]: ...
    @overload
    def select(self, a: Item[A], b: Item[B], /) -> Selected[Tuple[A, B]]: ...
    @overload
    def select(self, a: Item[A], b: Item[B], c: Item[C], /) -> Selected[Tuple[A, B, C]]: ...
    @overload
    def select(self, a: Item[A], b: Item[B], c: Item[C], d: Item[D], /) -> Selected[Tuple[A, B, C, D]]: ...
    @overload
    def select(self, a: Item[A], b: Item[B], c: Item[C], d: Item[D], e: Item[E], /) -> Selected[Tuple[A, B, C, D, E]]: ...
    @overload
    def select(self, a: Item[A], b: Item[B], c: Item[C], d: Item[D], e: Item[E], f: Item[F], /) -> Selected[Tuple[A, B, C, D, E, F]]: ...
    @overload
    def select(self, a: Item[A], b: Item[B], c: Item[C], d: Item[D], e: Item[E], f: Item[F], g: Item[G], /,
               ) -> Selected[Tuple[A, B, C, D, E, F, G]]: ...
    @overload
    def select(self, a: Item[A], b: Item[B], c: Item[C], d: Item[D], e: Item[E], f: Item[F], g: Item[G], h: Item[H], /,
               ) -> Selected[Tuple[A, B, C, D, E, F, G, H]]: ...
    @overload
    def select(self, a: Item[Any], b: Item[Any], c: Item[Any], d: Item[Any], e: Item[Any], f: Item[Any], g: Item[Any], h: Item[Any], /,
               *more: Item[Any]) -> Selected[Tuple[Any, ...]]: ...
    def select(self, *items: Any) -> Selected[Any]:
        """What is read of each row: expressions, tables with all their columns, and `nullable` tables."""
        parts = [_item(each) for each in items]
        shapes, values = ",".join(shape for shape, _, _ in parts), tuple(v for _, vs, _ in parts for v in vs)
        made = self._called(f'["select",[{shapes}]]', values)
        return _selected(made, tuple(output for _, _, output in parts))

    def _listed(self: S, call: str, items: Sequence[Union[Expr[Any], Order]]) -> S:
        for each in items:
            if not isinstance(each, (Expr, Order)):
                raise TypeError(f"{call} takes columns and other expressions, and not {each!r}")
        values = tuple(value for each in items for value in each.values)
        return self._called(f'["{call}",[{",".join(each.shape for each in items)}]]', values)

    def _joining(self: S, call: str, table: Type[Any], on: Optional[Condition]) -> S:
        if not (isinstance(table, type) and issubclass(table, Table)):
            raise TypeError(f"a join takes a table, and not {table!r}")
        end, more = ("", ()) if on is None else ("," + _condition(on).shape, on.values)
        made = self._called(f'["{call}",{table.__source__}{end}]', table.__source_values__ + more)
        made._leaves = (*self._leaves, (table, call == "left_join"))
        return made


class Query(Select[R_co]):
    """A select statement that reads all columns of its tables."""

    @overload
    def join(self: Query[Tuple[A, B]], table: Type[T2], on: Optional[Condition] = None) -> Query[Tuple[A, B, T2]]: ...
    @overload
    def join(self: Query[Tuple[A, B, C]], table: Type[T2], on: Optional[Condition] = None) -> Query[Tuple[A, B, C, T2]]: ...
    @overload
    def join(self: Query[Tuple[A, B, C, D]], table: Type[T2], on: Optional[Condition] = None) -> Query[Tuple[A, B, C, D, T2]]: ...
    @overload
    def join(self: Query[Tuple[Any, ...]], table: Type[Any], on: Optional[Condition] = None) -> Query[Any]: ...
    @overload
    def join(self: Query[T1], table: Type[T2], on: Optional[Condition] = None) -> Query[Tuple[T1, T2]]: ...
    def join(self: Query[Any], table: Type[Any], on: Optional[Condition] = None) -> Query[Any]:
        """INNER JOIN. Without a condition it is that of the relation which the schema has of the two tables."""
        return self._joining("inner_join", table, on)

    @overload
    def left_join(self: Query[Tuple[A, B]], table: Type[T2], on: Optional[Condition] = None) -> Query[Tuple[A, B, Optional[T2]]]: ...
    @overload
    def left_join(self: Query[Tuple[A, B, C]], table: Type[T2], on: Optional[Condition] = None) -> Query[Tuple[A, B, C, Optional[T2]]]: ...
    @overload
    def left_join(self: Query[Tuple[A, B, C, D]], table: Type[T2], on: Optional[Condition] = None,
                  ) -> Query[Tuple[A, B, C, D, Optional[T2]]]: ...
    @overload
    def left_join(self: Query[Tuple[Any, ...]], table: Type[Any], on: Optional[Condition] = None) -> Query[Any]: ...
    @overload
    def left_join(self: Query[T1], table: Type[T2], on: Optional[Condition] = None) -> Query[Tuple[T1, Optional[T2]]]: ...
    def left_join(self: Query[Any], table: Type[Any], on: Optional[Condition] = None) -> Query[Any]:
        """LEFT OUTER JOIN: where no row of the table goes with it, a row stays, with None."""
        return self._joining("left_join", table, on)


class Selected(Select[R_co]):
    """A select statement that says what it reads."""

    def join(self, table: Type[Table], on: Optional[Condition] = None) -> Selected[R_co]:
        """INNER JOIN. What is read stays as it was selected."""
        return self._joining("inner_join", table, on)

    def left_join(self, table: Type[Table], on: Optional[Condition] = None) -> Selected[R_co]:
        """LEFT OUTER JOIN. What is read stays as it was selected."""
        return self._joining("left_join", table, on)

    def with_nullable_column(self) -> Statement[Any]:
        """The same, its one selected column as one that may be NULL."""
        outputs = self.outputs
        if len(outputs) != 1 or not isinstance(outputs[0], Scalar) or outputs[0].expression is None:
            return self
        return self.select(outputs[0].expression.nullable())


def query(table: Type[T1]) -> Query[T1]:
    """A query that reads the rows of a table, or of an alias."""
    if not (isinstance(table, type) and issubclass(table, Table)):
        raise TypeError(f"a query reads a table, and not {table!r}")
    return Query(f'{{"from":{table.__source__}', "", table.__source_values__, ((table, False),), None)


@overload
def select(a: Expr[A], /) -> Selected[Tuple[A]]: ...
@overload
def select(a: Expr[A], b: Expr[B], /) -> Selected[Tuple[A, B]]: ...
@overload
def select(a: Expr[A], b: Expr[B], c: Expr[C], /) -> Selected[Tuple[A, B, C]]: ...
@overload
def select(a: Expr[Any], b: Expr[Any], c: Expr[Any], d: Expr[Any], /, *more: Expr[Any]) -> Selected[Tuple[Any, ...]]: ...
def select(*items: Expr[Any]) -> Selected[Any]:
    """A query that reads no table: its one row has these values."""
    values = tuple(value for each in items for value in each.values)
    outputs = tuple(Scalar(each.type, each) for each in items)
    return Selected(f'{{"select":[{",".join(each.shape for each in items)}]', "", values, (), outputs)


def _selected(made: Select[Any], outputs: Tuple[Output, ...]) -> Selected[Any]:
    return Selected(made._begin, made._calls, made.values, made._leaves, outputs)


def _item(item: Any) -> Tuple[str, Values, Output]:
    """What is selected: its JSON, its values, and what makes the part of a row of it."""
    if isinstance(item, Expr):
        return item.shape, item.values, Scalar(item.type, item)
    is_maybe = isinstance(item, Maybe)
    table = item.table if is_maybe else item
    if not (isinstance(table, type) and issubclass(table, Table)):
        raise TypeError(f"what is selected is a column, another expression or a table, and not {item!r}")
    columns: List[Expr[Any]] = list(table.__expressions__.values())
    shapes = [each.nullable().shape if is_maybe else each.shape for each in columns]
    return f'[{",".join(shapes)}]', (), WholeTable(table, is_maybe)


def _condition(condition: Any) -> Expr[Any]:
    if isinstance(condition, Expr):
        return condition
    if isinstance(condition, bool):
        raise TypeError(f"a condition is an expression, and not {condition}: was a value compared with a value?")
    raise TypeError(f"a condition is an expression, and not {condition!r}")


def _place(place: Union[int, Tuple[int, str]]) -> str:
    number, direction = place if isinstance(place, tuple) else (place, None)
    if isinstance(number, bool) or not isinstance(number, int) or not 1 <= number < 1 << 32:
        raise ValueRefused(f"a column's place is a number from 1 on, and not {number!r}")
    if direction not in (None, "asc", "desc"):
        raise ValueError(f"a direction is 'asc' or 'desc', and not {direction!r}")
    return str(number) if direction is None else f'{{"{direction}":{number}}}'


__all__ = ["Bound", "Combination", "Condition", "Query", "Select", "Selected", "Statement", "nullable", "query", "select"]
