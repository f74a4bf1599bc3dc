"""Expressions over columns and values.

A part of a query is kept as the text of its JSON with a hole for each value, and the values beside it. So queries that differ only in
values have one text, by which a session finds the statement that it has already, and a value is never part of a text.
"""
from __future__ import annotations

import json
from typing import TYPE_CHECKING, Any, Generic, Iterable, List, Optional, Sequence, Set, Tuple, TypeVar, Union, cast, overload

from .errors import ValueRefused
from .sql_types import BigInt, Bool, Bound, Nullable, SqlType, bound, bound_list

if TYPE_CHECKING:
    from .queries import Statement

T_co = TypeVar("T_co", covariant=True)
T = TypeVar("T")
Truth = TypeVar("Truth", bound=Optional[bool])

# Where a value stands. JSON has an escape for this character, so it stands for nothing else.
HOLE = "\0"
Values = Tuple[Bound, ...]

_MAYBE: SqlType[Any] = Nullable(Bool)


def quoted(name: str) -> str:
    """A name as JSON has it."""
    return json.dumps(name)


class Expr(Generic[T_co]):
    """An expression whose values are of the type T in Python. Nothing changes one: each call gives another."""

    __slots__ = ("shape", "values", "type", "is_not")

    def __init__(self, shape: str, values: Values, type: SqlType[Any], is_not: bool = False) -> None:
        self.shape, self.values, self.type, self.is_not = shape, values, type, is_not

    def __repr__(self) -> str:
        from .rendering import rendered
        return rendered(json.loads(filled(self.shape, self.values)))

    def __bool__(self) -> bool:
        raise TypeError("an expression has no truth value: write & | ~ for AND, OR and NOT, with brackets around each comparison")

    __hash__ = object.__hash__

    def __eq__(self, other: Union[Expr[T_co], T_co]) -> Expr[Optional[bool]]:  # type: ignore[override]
        """`=`; with None it is IS NULL."""
        return self.is_null() if other is None else self._compared("eq", other)

    def __ne__(self, other: Union[Expr[T_co], T_co]) -> Expr[Optional[bool]]:  # type: ignore[override]
        """`!=`; with None it is IS NOT NULL."""
        return self.is_not_null() if other is None else self._compared("ne", other)

    def __lt__(self, other: Union[Expr[T_co], T_co]) -> Expr[Optional[bool]]:
        return self._compared("lt", other)

    def __le__(self, other: Union[Expr[T_co], T_co]) -> Expr[Optional[bool]]:
        return self._compared("le", other)

    def __gt__(self, other: Union[Expr[T_co], T_co]) -> Expr[Optional[bool]]:
        return self._compared("gt", other)

    def __ge__(self, other: Union[Expr[T_co], T_co]) -> Expr[Optional[bool]]:
        return self._compared("ge", other)

    def __and__(self: Expr[Optional[bool]], other: Expr[Optional[bool]]) -> Expr[Optional[bool]]:
        return _joined("and", self, other)

    def __or__(self: Expr[Optional[bool]], other: Expr[Optional[bool]]) -> Expr[Optional[bool]]:
        return _joined("or", self, other)

    def __invert__(self: Expr[Truth]) -> Expr[Truth]:
        return Expr(f'{{"not":{self.shape}}}', self.values, self.type, is_not=True)

    def is_null(self) -> Expr[bool]:
        """IS NULL."""
        return self._tested("is_null")

    def is_not_null(self) -> Expr[bool]:
        """IS NOT NULL."""
        return self._tested("is_not_null")

    def nullable(self) -> Expr[Optional[T_co]]:
        """The same, as one that may be NULL: so a column of the right side of a left join is selected. SQL sees no difference."""
        if self.type.nullable and '"nullable"' in self.shape[:12]:
            return cast("Expr[Optional[T_co]]", self)
        return Expr(f'{{"nullable":{self.shape}}}', self.values, Nullable(self.type), self.is_not)

    def between(self, least: Union[Expr[T_co], T_co], most: Union[Expr[T_co], T_co]) -> Expr[Optional[bool]]:
        """Both ends belong to it. It is written as two comparisons, joined by AND."""
        return (self >= least) & (self <= most)

    def in_(self, values: Union[Iterable[T_co], Statement[Tuple[Optional[T_co]]]]) -> Expr[Optional[bool]]:
        """IN a list of values, or in the one column of a query. On PostgreSQL a list is one value, an array."""
        return self._among("eq_any", values)

    def not_in(self, values: Union[Iterable[T_co], Statement[Tuple[Optional[T_co]]]]) -> Expr[Optional[bool]]:
        """NOT IN. Mind that it is never true where the list, or the query, has a NULL."""
        return self._among("ne_all", values)

    def asc(self) -> Order:
        """Ascending, in an order."""
        return Order(f'{{"asc":{self.shape}}}', self.values)

    def desc(self) -> Order:
        """Descending, in an order."""
        return Order(f'{{"desc":{self.shape}}}', self.values)

    def _compared(self, operator: str, other: Any) -> Expr[Optional[bool]]:
        left: Expr[Any] = self
        if isinstance(other, Expr):
            right: Expr[Any] = other
        elif other is None:
            raise ValueRefused("a comparison with None is never true: use is_null() or is_not_null()")
        else:
            right = Expr(_BINDS[self.type.document_name], (bound(self.type, other),), self.type)
        if left.is_not or right.is_not:
            raise TypeError("~ under a comparison is read otherwise by servers: compare the condition's column itself")
        left, right = _alike(left, right)
        type = _MAYBE if left.type.nullable else Bool
        return Expr(f'{{"{operator}":[{left.shape},{right.shape}]}}', left.values + right.values, type)

    def _tested(self, operator: str) -> Expr[bool]:
        if self.is_not:
            raise TypeError("~ under a null test is read otherwise by servers: test the condition itself")
        return Expr(f'{{"{operator}":{self.shape}}}', self.values, Bool)

    def _among(self, operator: str, values: Any) -> Expr[Optional[bool]]:
        from .queries import Statement
        if self.is_not:
            raise TypeError("~ under a membership is read otherwise by servers")
        left: Expr[Any] = self
        if isinstance(values, Statement):
            query = values
            if query.is_nullable_column() is not None and query.is_nullable_column() != left.type.nullable:
                left, query = left if left.type.nullable else left.nullable(), query.with_nullable_column()
            listed, inner = query.shape, query.values
        else:
            listed, inner = f'{{"list":["{self.type.document_name}",{HOLE}]}}', (bound_list(self.type, values),)
        type = _MAYBE if left.type.nullable else Bool
        return Expr(f'{{"{operator}":[{left.shape},{listed}]}}', left.values + inner, type)


class Order:
    """An item of an order, with its direction."""

    __slots__ = ("shape", "values")

    def __init__(self, shape: str, values: Values) -> None:
        self.shape, self.values = shape, values


_BINDS = {name + mark: f'{{"bind":["{name}{mark}",{HOLE}]}}'
          for name in ("SmallInt", "Integer", "BigInt", "Text", "Binary", "Bool") for mark in ("", "?")}


def _alike(left: Expr[Any], right: Expr[Any]) -> Tuple[Expr[Any], Expr[Any]]:
    """Both sides, so that either both may be NULL or none: that is what the sides of a comparison have to be."""
    if left.type.nullable == right.type.nullable or left.type.base != right.type.base:
        return left, right
    return (left, right.nullable()) if left.type.nullable else (left.nullable(), right)


def _joined(operator: str, left: Expr[Optional[bool]], right: Expr[Optional[bool]]) -> Expr[Optional[bool]]:
    if not isinstance(right, Expr):
        raise TypeError("the other side of & and | is a condition too: put brackets around each comparison")
    type = _MAYBE if left.type.nullable or right.type.nullable else Bool
    return Expr(f'{{"{operator}":[{left.shape},{right.shape}]}}', left.values + right.values, type)


def _balanced(operator: str, conditions: Sequence[Expr[Optional[bool]]]) -> Expr[Optional[bool]]:
    if len(conditions) == 1:
        return conditions[0]
    half = len(conditions) // 2
    return _joined(operator, _balanced(operator, conditions[:half]), _balanced(operator, conditions[half:]))


def all_of(*conditions: Expr[Optional[bool]]) -> Expr[Optional[bool]]:
    """All of the conditions, joined by AND as a balanced tree: thousands do not nest too deep. Of none it is TRUE."""
    return _balanced("and", conditions) if conditions else _truth(True)


def any_of(*conditions: Expr[Optional[bool]]) -> Expr[Optional[bool]]:
    """One of the conditions at least, joined by OR as a balanced tree. Of none it is FALSE."""
    return _balanced("or", conditions) if conditions else _truth(False)


def _truth(of: bool) -> Expr[Optional[bool]]:
    made: Expr[bool] = value(of, Bool)
    return made


def value(of: T, type: SqlType[T]) -> Expr[T]:
    """A value as an expression, bound by this type."""
    return Expr(_BINDS[type.document_name], (bound(type, of),), type)


@overload
def count() -> Expr[int]: ...
@overload
def count(of: Expr[Any]) -> Expr[int]: ...
def count(of: Optional[Expr[Any]] = None) -> Expr[int]:
    """COUNT(*), or COUNT of an expression, which leaves NULLs out."""
    if of is None:
        return Expr('"count_star"', (), BigInt)
    return Expr(f'{{"count":{of.shape}}}', of.values, BigInt)


def filled(shape: str, values: Values) -> str:
    """The text with the values in its holes."""
    if not values:
        return shape
    parts = shape.split(HOLE)
    assert len(parts) == len(values) + 1, "as many holes as values"
    made: List[str] = [parts[0]]
    for each, part in zip(values, parts[1:]):
        made += (json.dumps(each.wire, ensure_ascii=False), part)
    return "".join(made)


def tables_of(query: Any) -> Set[str]:
    """The names of the tables that a query reads or names a column of, in subselects too."""
    found: Set[str] = set()
    todo: List[Any] = [query]
    while todo:
        each = todo.pop()
        if isinstance(each, list):
            todo.extend(each)
        elif isinstance(each, dict):
            todo.extend(each.values())
            found.update(each[member] for member in ("table", "of") if isinstance(each.get(member), str))
            found.update(each[member][at] for member, at in (("col", 0), ("field", 1)) if member in each)
    return found
