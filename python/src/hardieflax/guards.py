"""What a guarded session lets through: of each guarded table the rows for which its predicate is true, of shared tables all rows, and of
other tables nothing (docs/GUARD.md)."""
from __future__ import annotations

import itertools
import json
from typing import Any, Dict, FrozenSet, Iterable, Iterator, List, Mapping, Tuple, Type, TypeVar

from .errors import NotShared, SchemaError
from .expressions import Expr, Values, filled, tables_of
from .schema import Schema
from .sql_types import Bound
from .tables import Table, declared

Json = Any
# Of a mapping that has one class alone, the key is that class.
T = TypeVar("T", bound=Table)


class Guard:
    """The guarded tables with their predicates, and the shared ones: the policies of a session."""

    def __init__(self, schema: Schema, guards: Mapping[Type[T], Expr[Any]], shared: Iterable[Type[Table]]) -> None:
        self._predicates: Dict[str, Expr[Any]] = {}
        for table, predicate in guards.items():
            name = _name_in(schema, table)
            if name in self._predicates:
                raise SchemaError(f"{name} is guarded twice: join both conditions by &")
            self._predicates[name] = _of_one_table(table, name, predicate)
        self.shared: FrozenSet[str] = frozenset(_name_in(schema, table) for table in shared)
        both = sorted(self.shared & set(self._predicates))
        if both:
            raise SchemaError(f"{both[0]} is guarded, and shared too")
        self.tables: FrozenSet[str] = self.shared | set(self._predicates)
        for name, other in _alike(schema, self.tables):
            raise SchemaError(f"{name} may be {other} by another name: a server may take both for one table. Let the session have one")
        guarded = "".join(f"{name}\0{predicate.shape}\n" for name, predicate in self._predicates.items())
        self.key = f"{guarded}\n{sorted(self.shared)}"
        self.values: Values = tuple(value for predicate in self._predicates.values() for value in predicate.values)

    def look_at(self, tables: Iterable[str]) -> None:
        """NotShared: one of the tables is closed in the session."""
        closed = sorted(set(tables) - self.tables)
        if closed:
            raise NotShared(f"{closed[0]} is neither guarded nor shared in this session")

    def policies(self, values: Values, tables: FrozenSet[str]) -> List[Json]:
        """The policies for these tables, with these values in the predicates."""
        made: List[Json] = []
        at = 0
        for name, predicate in self._predicates.items():
            end = at + len(predicate.values)
            if name in tables:
                made.append({"table": name, "predicate": json.loads(filled(predicate.shape, values[at:end]))})
            at = end
        return made + [{"table": name} for name in sorted(self.shared & tables)]


def places_of(values: Values) -> Values:
    """A place for each value, and for each of a list: what stands in the policies of a session in place of a tenant's values."""
    return tuple(Bound(each.type, tuple(map(_place, names)) if each.is_list else _place(names[0]), each.is_list)
                 for each, names in zip(values, _names(values)))


def values_at_places(values: Values) -> Dict[str, Json]:
    """The values by the names of their places."""
    return {name: wire for each, names in zip(values, _names(values)) for name, wire in zip(names, each.wire if each.is_list else [each.wire])}


def _place(name: str) -> Json:
    return {"value": name}


def _names(values: Values) -> Iterator[List[str]]:
    for at, each in enumerate(values):
        yield [f"{at}.{number}" for number in range(len(each.wire))] if each.is_list else [str(at)]


def _of_one_table(table: Type[Table], name: str, predicate: Any) -> Expr[Any]:
    """The predicate, if it is a condition on this table alone."""
    if not isinstance(predicate, Expr):
        raise TypeError(f"the guard of {table.__name__} is a condition, as {table.__name__}.tenant_id == 7, and not {predicate!r}")
    others = sorted(tables_of(json.loads(filled(predicate.shape, predicate.values))) - {name})
    if others:
        raise SchemaError(f"the guard of {table.__name__} names {others[0]}: it is a condition on the columns of {table.__name__} alone")
    return predicate


def _alike(schema: Schema, names: Iterable[str]) -> Iterator[Tuple[str, str]]:
    """The pairs of declarations that a server may take for one table."""
    by_name: Dict[bytes, List[str]] = {}
    for each in sorted(names):
        by_name.setdefault(_seen(schema[each].__sql_name__ or each), []).append(each)
    for listed in by_name.values():
        for name, other in itertools.combinations(listed, 2):
            schemas = {_seen(schema[each].__schema__) for each in (name, other) if schema[each].__schema__ is not None}
            if len(schemas) < 2:
                yield name, other


def _seen(name: str) -> bytes:
    """A name as a server may see it: it may leave case aside, and what comes after 63 bytes."""
    return name.lower().encode("utf-8", "replace")[:63]


def _name_in(schema: Schema, table: Type[Table]) -> str:
    if table not in schema:
        raise SchemaError(f"{table.__name__} is not in the schema")
    return declared(table).__table__
