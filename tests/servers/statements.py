"""The statement that a query of a document stands for: what its calls make, one after the other (docs/USING.md, "What each
call changes"). Expressions and sources are tuples, whose first element says what they are:

    ("column", (alias or None, table), column)      ("value", type, value)      ("list", [expression..])      ("count_star",)
    ("compare", operator, a, b)   ("connect", operator, a, b)   ("not", a)   ("null_test", is_negated, a)   ("nullable", a)
    ("count", a)   ("exists", statement)   ("single", statement)   ("among_values", is_negated, a, type, [value..])
    ("among_rows", is_negated, a, statement)   and of readings.py ("either",)   ("skipped", statement)
    ("table", table, is_partial, is_sampled)   ("alias", alias, table)   ("join", kind, left, right, on or None)
"""
from __future__ import annotations

from dataclasses import dataclass, field, replace
from typing import Any, Dict, Iterable, Iterator, List, Optional, Tuple, Union

Expr = Tuple[Any, ...]
Source = Tuple[Any, ...]
Origin = Tuple[Optional[str], str]  # an alias or None, and the table
Row = Tuple[Any, ...]
Database = Dict[str, List[Row]]

COMPARISONS = ("eq", "ne", "gt", "ge", "lt", "le")
CONNECTIVES = ("and", "or")
LOCKS = ("for_update", "for_no_key_update", "for_share", "for_key_share")
MODIFIERS = ("skip_locked", "no_wait")
COMBINATIONS = ("union", "union_all", "intersect", "intersect_all", "except", "except_all")
JOINS = {"inner_join": "inner", "left_outer_join": "left", "left_join": "left"}


@dataclass
class Select:
    """A select statement, or a boxed one."""
    selection: Expr
    source: Source | None
    is_default: bool = False
    distinct: str | Expr | None = None  # "distinct", or the expression of DISTINCT ON
    where: Expr | None = None
    group_by: Expr | None = None
    having: Expr | None = None
    order: list[tuple[Expr, bool]] | None = None  # of an expression and whether it descends
    limit: int | None = None
    offset: int | None = None
    lock: str | None = None
    modifier: str | None = None
    is_boxed: bool = False
    is_nullable: bool = False  # a boxed one, by the call nullable


@dataclass
class Combination:
    """Two statements as one."""
    operator: str  # "union", "intersect" or "except"
    keeps_all: bool
    left: Statement
    right: Statement
    order: list[tuple[int, bool]] = field(default_factory=list)  # of the number of a column and whether it descends
    limit: int | None = None
    offset: int | None = None


Statement = Union[Select, Combination]


class Schema:
    """The declarations of a document."""

    def __init__(self, declared: dict[str, Any]) -> None:
        self.tables: dict[str, dict[str, Any]] = {table["name"]: table for table in declared["tables"]}
        self.joinable: list[dict[str, str]] = declared.get("joinable", [])
        self.index: dict[str, dict[str, int]] = {name: {column["name"]: at for at, column in enumerate(table["columns"])}
                                                 for name, table in self.tables.items()}

    def columns(self, table: str) -> list[dict[str, Any]]:
        columns: list[dict[str, Any]] = self.tables[table]["columns"]
        return columns

    def key(self, table: str) -> list[str]:
        key: list[str] = self.tables[table].get("primary_key", ["id"])
        return key

    def relation(self, a: Origin, b: Origin) -> tuple[str, Origin, Origin] | None:
        """The column of the child and the two origins, child first, where a relation is declared between these two origins."""
        for declared in self.joinable:
            if (declared["child"], declared["parent"]) == (a[1], b[1]):
                return declared["key"], a, b
            if (declared["child"], declared["parent"]) == (b[1], a[1]):
                return declared["key"], b, a
        return None


def python_value(kind: str, value: Any) -> Any:
    """A value of a document or of an answer: Binary as bytes, a list as a list."""
    if isinstance(value, list):
        return [python_value(kind, each) for each in value]
    return bytes.fromhex(value) if kind.startswith("Binary") and value is not None else value


def statement(schema: Schema, query: dict[str, Any]) -> Statement:
    """The statement of a query."""
    if "from" in query:
        source = source_of(schema, query["from"])
        made: Statement = Select(default_selection(schema, source), source, is_default=True)
    else:
        made = Select(expression(schema, query["select"]), None)
    for name, *arguments in query.get("calls", []):
        made = called(schema, made, name, arguments)
    return made


# ---- sources

def source_of(schema: Schema, source: dict[str, Any]) -> Source:
    if "table" in source:
        return "table", source["table"], source.get("only", False) or "sample" in source, "sample" in source
    if "alias" in source:
        return "alias", source["alias"], source["of"]
    kind, left, right = source["join"]
    return joined(schema, kind, source_of(schema, left), source_of(schema, right), source.get("on"))


def joined(schema: Schema, kind: str, left: Source, right: Source, on: Any) -> Source:
    condition = implicit_on(schema, left, right) if on is None else expression(schema, on)
    return "join", kind, left, right, condition


def implicit_on(schema: Schema, left: Source, right: Source) -> Expr | None:
    """child.key = parent.key, by the leftmost leaves of both sides."""
    found = schema.relation(leaves(left)[0][0], leaves(right)[0][0])
    if found is None:
        return None
    key, child, parent = found
    return "compare", "eq", ("nullable", ("column", child, key)), ("nullable", ("column", parent, schema.key(parent[1])[0]))


def leaves(source: Source, paddings: int = 0) -> list[tuple[Origin, int]]:
    """The tables and aliases of a source from left to right, each as its origin and how many left joins it is on the right of."""
    if source[0] == "table":
        return [((None, source[1]), paddings)]
    if source[0] == "alias":
        return [((source[1], source[2]), paddings)]
    return leaves(source[2], paddings) + leaves(source[3], paddings + (source[1] == "left"))


def default_selection(schema: Schema, source: Source) -> Expr:
    selected: list[Expr] = []
    for origin, paddings in leaves(source):
        for column in schema.columns(origin[1]):
            taken: Expr = ("column", origin, column["name"])
            for _ in range(paddings):
                taken = "nullable", taken
            selected.append(taken)
    return "list", selected


# ---- expressions

def expression(schema: Schema, e: Any) -> Expr:
    if isinstance(e, list):
        return "list", [expression(schema, each) for each in e]
    if e == "count_star":
        return ("count_star",)
    (name, argument), = e.items()
    if name == "col":
        return "column", (None, argument[0]), argument[1]
    if name == "field":
        return "column", (argument[0], argument[1]), argument[2]
    if name == "bind":
        return "value", argument[0], python_value(*argument)
    if name in COMPARISONS or name in CONNECTIVES:
        kind = "compare" if name in COMPARISONS else "connect"
        return kind, name, expression(schema, argument[0]), expression(schema, argument[1])
    if name in ("is_null", "is_not_null"):
        return "null_test", name == "is_not_null", expression(schema, argument)
    if name in ("not", "nullable", "count"):
        return name, expression(schema, argument)
    if name == "exists":
        return "exists", statement(schema, argument)
    if name == "single_value":
        return "single", replace(statement(schema, argument), limit=1)
    if name in ("eq_any", "ne_all"):
        return membership(schema, name == "ne_all", *argument)
    raise ValueError(f"no expression: {name}")


def membership(schema: Schema, is_negated: bool, operand: Any, among: dict[str, Any]) -> Expr:
    given = expression(schema, operand)
    if "list" in among:
        kind, values = among["list"]
        return "among_values", is_negated, given, kind, python_value(kind, values)
    return "among_rows", is_negated, given, statement(schema, among)


def item(schema: Schema, e: Any) -> tuple[Expr, bool]:
    """The expression of an item of an order, and whether it descends."""
    if isinstance(e, dict) and ("asc" in e or "desc" in e):
        (direction, inner), = e.items()
        return expression(schema, inner), direction == "desc"
    return expression(schema, e), False


def place(e: Any) -> tuple[int, bool]:
    if isinstance(e, dict):
        (direction, number), = e.items()
        return number, direction == "desc"
    return e, False


# ---- calls

def called(schema: Schema, s: Statement, name: str, arguments: list[Any]) -> Statement:
    """The statement after a call. A combination takes limit, offset, an order by places and a further combination."""
    if name in COMBINATIONS:
        operator, _, rest = name.partition("_")
        return Combination(operator, rest == "all", s, statement(schema, arguments[0]))
    if name in ("limit", "offset"):
        return replace(s, **{name: arguments[0]})
    if name == "positional_order_by":
        assert isinstance(s, Combination)
        return replace(s, order=[place(each) for each in arguments[0]])
    assert isinstance(s, Select)
    if name in JOINS:
        return with_join(schema, s, JOINS[name], *arguments)
    if name == "find":
        return found(schema, s, arguments[0])
    if name in ("order", "order_by", "then_order_by"):
        before = s.order or [] if name == "then_order_by" else []
        return replace(s, order=before + [item(schema, each) for each in arguments[0]])
    if name in LOCKS:
        return replace(s, lock=name, modifier=None)
    if name in MODIFIERS:
        return replace(s, modifier=name)
    if name == "into_boxed":
        return replace(s, is_boxed=True, lock=None, modifier=None)
    return with_clause(schema, s, name, arguments)


def with_clause(schema: Schema, s: Select, name: str, arguments: list[Any]) -> Statement:
    if name == "distinct":
        return replace(s, distinct="distinct")
    if name == "count":
        return replace(s, selection=("count_star",), is_default=False, is_nullable=False)
    if name == "nullable":
        return replace(s, is_nullable=True) if s.is_boxed else replace(s, selection=("nullable", s.selection), is_default=False)
    given = expression(schema, arguments[0])
    if name == "select":
        return replace(s, selection=given, is_default=False, is_nullable=False)
    if name == "filter":
        return replace(s, where=beside("and", s.where, given))
    if name == "or_filter":
        return replace(s, where=beside("or", s.where, given))
    clause = {"distinct_on": "distinct", "group_by": "group_by", "having": "having"}[name]
    return replace(s, **{clause: given})


def beside(by: str, old: Expr | None, new: Expr) -> Expr:
    return new if old is None else ("connect", by, old, new)


def with_join(schema: Schema, s: Select, kind: str, right: dict[str, Any], on: Any = None) -> Statement:
    assert s.source is not None
    source = joined(schema, kind, s.source, source_of(schema, right), on)
    stays = s.is_boxed or not s.is_default
    return replace(s, source=source, selection=s.selection if stays else default_selection(schema, source))


def found(schema: Schema, s: Select, values: list[Any]) -> Statement:
    """One more condition, `(a AND (b AND c))`: each column of the key equals the value at its index."""
    assert s.source is not None
    origin = leaves(s.source)[0][0]
    condition: Expr | None = None
    for column, value in reversed(list(zip(schema.key(origin[1]), values))):
        equal: Expr = ("compare", "eq", ("column", origin, column), expression(schema, value))
        condition = equal if condition is None else ("connect", "and", equal, condition)
    assert condition is not None
    return replace(s, where=beside("and", s.where, condition))


# ---- what is in a statement

def statements_in(s: Statement) -> Iterator[Statement]:
    """The statement and all inside it."""
    yield s
    if isinstance(s, Combination):
        yield from statements_in(s.left)
        yield from statements_in(s.right)
        return
    for e in clauses(s):
        for inner in subselects(e):
            yield from statements_in(inner)


def clauses(s: Select) -> list[Expr]:
    """The expressions of a select statement's clauses, those of ON too."""
    distinct = s.distinct if isinstance(s.distinct, tuple) else None
    order = [e for e, _ in s.order or []]
    conditions = [] if s.source is None else conditions_of(s.source)
    return [e for e in (s.selection, distinct, s.where, s.group_by, s.having, *order, *conditions) if e is not None]


def conditions_of(source: Source) -> list[Expr]:
    if source[0] != "join":
        return []
    own = [] if source[4] is None else [source[4]]
    return conditions_of(source[2]) + conditions_of(source[3]) + own


def children(e: Expr) -> Iterable[Expr]:
    """The expressions right below an expression."""
    if e[0] == "list":
        elements: list[Expr] = e[1]
        return elements
    if e[0] in ("compare", "connect"):
        return e[2:4]
    if e[0] in ("not", "nullable", "count"):
        return e[1:2]
    if e[0] in ("null_test", "among_values", "among_rows"):
        return e[2:3]
    return ()


def nodes(e: Expr) -> Iterator[Expr]:
    """The expression and all inside it, outside subselects."""
    yield e
    for child in children(e):
        yield from nodes(child)


def subselects(e: Expr) -> Iterator[Statement]:
    for node in nodes(e):
        if node[0] in ("exists", "single"):
            yield node[1]
        elif node[0] == "among_rows":
            yield node[3]


def tables_of(s: Statement) -> set[str]:
    """The names of the tables that a statement reads."""
    return {origin[1] for inner in statements_in(s) if isinstance(inner, Select) and inner.source is not None
            for origin, _ in leaves(inner.source)}


def has_count(e: Expr) -> bool:
    """Whether an aggregate stands in the expression, outside subselects."""
    return any(node[0] in ("count", "count_star") for node in nodes(e))


def is_aggregated(s: Select) -> bool:
    """Whether its rows are groups: it has GROUP BY, or an aggregate where one may stand."""
    after = [s.selection, s.having, *(e for e, _ in s.order or [])]
    after += [s.distinct] if isinstance(s.distinct, tuple) else []
    return s.group_by is not None or any(e is not None and has_count(e) for e in after)


def is_grouped(s: Statement) -> bool:
    """Whether it, a side of it or a subselect is aggregated."""
    return any(isinstance(inner, Select) and is_aggregated(inner) for inner in statements_in(s))


def is_determined(s: Statement) -> bool:
    """Whether its rows, their order aside, are the same in each of its answers: nothing in it chooses some of several rows."""
    return all(inner.limit is None and inner.offset is None and is_whole(inner) for inner in statements_in(s))


def is_whole(s: Statement) -> bool:
    if isinstance(s, Combination):
        return True
    partial = s.source is not None and any(source[0] == "table" and source[2] for source in sources_in(s.source))
    return not partial and not isinstance(s.distinct, tuple) and s.modifier != "skip_locked"


def sources_in(source: Source) -> list[Source]:
    """The tables and aliases of a source from left to right."""
    return sources_in(source[2]) + sources_in(source[3]) if source[0] == "join" else [source]
