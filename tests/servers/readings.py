"""Known differences between what a text means and what servers make of it, as changes of the statement (docs/SERVERS.md)."""
from __future__ import annotations

from dataclasses import replace
from typing import Callable, Optional

from statements import Combination, Expr, Select, Source, Statement, nodes, statements_in

OfStatement = Callable[[Statement], Statement]
OfExpression = Callable[[Expr], Expr]

# The types whose bound values MariaDB takes for numbers.
WHOLE = ("SmallInt", "Integer", "BigInt", "Bool")
# What depends on a row, or on a subselect.
ROWS = ("column", "exists", "single", "among_rows", "count", "count_star")


def mapped(s: Statement, of_statement: OfStatement, of_expression: OfExpression) -> Statement:
    """The statement with each statement in it changed by the one function, and each expression by the other, from the inside out."""
    def statement(s: Statement) -> Statement:
        if isinstance(s, Combination):
            return of_statement(replace(s, left=statement(s.left), right=statement(s.right)))
        order = None if s.order is None else [(expression(e), descends) for e, descends in s.order]
        distinct = expression(s.distinct) if isinstance(s.distinct, tuple) else s.distinct
        return of_statement(replace(
            s, selection=expression(s.selection), source=source(s.source), distinct=distinct, where=optional(s.where),
            group_by=optional(s.group_by), having=optional(s.having), order=order))

    def source(x: Optional[Source]) -> Optional[Source]:
        return x if x is None or x[0] != "join" else (*x[:2], source(x[2]), source(x[3]), optional(x[4]))

    def optional(e: Optional[Expr]) -> Optional[Expr]:
        return None if e is None else expression(e)

    def expression(e: Expr) -> Expr:
        return of_expression(with_parts(e, statement, expression))

    return statement(s)


def with_parts(e: Expr, statement: OfStatement, expression: OfExpression) -> Expr:
    """The expression with each expression and each statement right below it changed."""
    tag = e[0]
    if tag == "list":
        return "list", [expression(each) for each in e[1]]
    if tag in ("exists", "single", "skipped"):
        return tag, statement(e[1])
    if tag in ("not", "nullable", "count"):
        return tag, expression(e[1])
    if tag in ("compare", "connect"):
        return (*e[:2], expression(e[2]), expression(e[3]))
    if tag in ("null_test", "among_values"):
        return (*e[:2], expression(e[2]), *e[3:])
    if tag == "among_rows":
        return (*e[:2], expression(e[2]), statement(e[3]))
    if tag in ("column", "value", "count_star", "either"):
        return e
    raise ValueError(f"no expression: {tag}")


def bare(e: Expr) -> Expr:
    """What is under nullables."""
    while e[0] == "nullable":
        e = e[1]
    return e


def as_servers_read(s: Statement) -> Statement:
    """`NOT (a)` as the left operand of a comparison, a null test or a membership takes the whole of it, since for servers NOT binds less
    tightly than these."""
    def expression(e: Expr) -> Expr:
        if e[0] not in ("compare", "null_test", "among_values", "among_rows") or bare(e[2])[0] != "not":
            return e
        return "not", (*e[:2], bare(e[2])[1], *e[3:])

    return mapped(s, same_statement, expression)


def same_statement(s: Statement) -> Statement:
    return s


def same_expression(e: Expr) -> Expr:
    return e


def elements(e: Expr) -> list[Expr]:
    """The elements of a list, those of lists in it in their place."""
    e = bare(e)
    return [found for each in e[1] for found in elements(each)] if e[0] == "list" else [e]


def by_position(s: Statement) -> Statement:
    """A bound whole number or truth value alone in ORDER BY or GROUP BY is the position of a column."""
    def statement(s: Statement) -> Statement:
        if isinstance(s, Combination):
            return s
        columns = elements(s.selection)
        order = None if s.order is None else [(at_position(columns, e), descends) for e, descends in s.order]
        group_by = None if s.group_by is None else ("list", [at_position(columns, e) for e in elements(s.group_by)])
        return replace(s, order=order, group_by=group_by)

    return mapped(s, statement, same_expression)


def at_position(columns: list[Expr], e: Expr) -> Expr:
    number = bare(e)
    is_position = number[0] == "value" and number[1].rstrip("?") in WHOLE and number[2] is not None
    at = int(number[2]) - 1 if is_position else -1
    return columns[at] if 0 <= at < len(columns) else e


def by_position_after(first: Statement) -> OfStatement:
    """The same where the text was executed for another statement first: an item that repeated an earlier one then is gone for good."""
    kept: list[tuple[list[int], list[int]]] = []

    def look(s: Statement) -> Statement:
        if isinstance(s, Select):
            kept.append((first_of_each([e for e, _ in s.order or []]), first_of_each(elements(s.group_by) if s.group_by is not None else [])))
        return s

    def change(s: Statement) -> Statement:
        indexes = iter(kept)

        def drop(s: Statement) -> Statement:
            if isinstance(s, Combination):
                return s
            order, group = next(indexes)
            groups = [] if s.group_by is None else elements(s.group_by)
            return replace(s, order=None if s.order is None else [s.order[at] for at in order],
                           group_by=None if s.group_by is None else ("list", [groups[at] for at in group]))

        return mapped(by_position(s), drop, same_expression)

    mapped(by_position(first), look, same_expression)
    return change


def first_of_each(items: list[Expr]) -> list[int]:
    """The indexes of the items that repeat no earlier one."""
    found = [bare(e) for e in items]
    return [at for at, e in enumerate(found) if e not in found[:at]]


def without_negative_offsets(s: Statement) -> Statement:
    """A negative offset is read as one of 64 bits without a sign."""
    def statement(s: Statement) -> Statement:
        return replace(s, offset=s.offset + (1 << 64)) if s.offset is not None and s.offset < 0 else s

    return mapped(s, statement, same_expression)


def with_open_combinations(s: Statement) -> Statement:
    """EXISTS of a combination of which a side is a combination, and a membership in an INTERSECT or EXCEPT, give any value: MariaDB pushes
    into the sides what it should ask of the whole."""
    def is_open(e: Expr) -> bool:
        if e[0] == "exists":
            return isinstance(e[1], Combination) and any(isinstance(side, Combination) for side in (e[1].left, e[1].right))
        return e[0] == "among_rows" and any(is_difference(inner) for inner in statements_in(e[3]))

    def is_difference(s: Statement) -> bool:
        return isinstance(s, Combination) and s.operator != "union"

    return mapped(s, same_statement, lambda e: ("either",) if is_open(e) else e)


def distinct_after_page(s: Statement) -> Statement:
    """DISTINCT over values alone is a limit of one row, after the offset."""
    def statement(s: Statement) -> Statement:
        if isinstance(s, Combination) or s.distinct != "distinct" or any(node[0] in ROWS for node in nodes(s.selection)):
            return s
        return replace(s, distinct=None, limit=0 if s.limit == 0 else 1)

    return mapped(s, statement, same_expression)


def with_lost_offsets(s: Statement) -> Statement:
    """A statement with DISTINCT loses that under EXISTS, and as a value it gives a row that its offset skips where it skips all: two faults
    of SQLite."""
    def expression(e: Expr) -> Expr:
        if e[0] not in ("exists", "single") or isinstance(e[1], Combination) or e[1].distinct != "distinct":
            return e
        return ("exists", replace(e[1], distinct=None)) if e[0] == "exists" else ("skipped", e[1])

    return mapped(s, same_statement, expression)
