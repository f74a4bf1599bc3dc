"""The types of a statement's columns, by the schema and the statement alone (docs/RULES.md, TypeMismatch)."""
from __future__ import annotations

from statements import Combination, Expr, Schema, Statement


def columns_of(schema: Schema, s: Statement) -> list[str]:
    """A combination has the columns of its left side; those of a boxed statement are nullable where it was called so."""
    if isinstance(s, Combination):
        return columns_of(schema, s.left)
    found = element_types(schema, s.selection)
    return list(map(as_nullable, found)) if s.is_nullable else found


def element_types(schema: Schema, e: Expr) -> list[str]:
    """The types of a selection: those of a list's elements, in order."""
    if e[0] == "list":
        return [each for element in e[1] for each in element_types(schema, element)]
    if e[0] == "nullable":
        return list(map(as_nullable, element_types(schema, e[1])))
    return [type_of(schema, e)]


def type_of(schema: Schema, e: Expr) -> str:
    """The type of an expression of a statement that breaks no rule."""
    tag = e[0]
    if tag == "column":
        (_, table), name = e[1], e[2]
        return str(schema.columns(table)[schema.index[table][name]]["type"])
    if tag == "value":
        return str(e[1])
    if tag in ("count", "count_star"):
        return "BigInt"
    if tag in ("null_test", "exists"):
        return "Bool"
    if tag == "not":
        return type_of(schema, e[1])
    if tag == "single":
        return as_nullable(columns_of(schema, e[1])[0])
    if tag in ("list", "nullable"):
        (only,) = element_types(schema, e)
        return only
    operands = e[2:4] if tag in ("compare", "connect") else e[2:3]
    return "Bool?" if any(type_of(schema, each).endswith("?") for each in operands) else "Bool"


def as_nullable(told: str) -> str:
    return told.rstrip("?") + "?"
