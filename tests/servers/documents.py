"""Random documents over all forms of docs/DOCUMENT.md, most of whose requests break no rule.

    python3 tests/servers/documents.py 7 > document.json      the document of seed 7

Expressions are made for a type that is wanted, over the leaves that their clause sees, so that few requests are refused.
"""
from __future__ import annotations

import json
import random
import sys
from typing import Any, Optional, Sequence

from values import some

BASES = ("SmallInt", "Integer", "BigInt", "Text", "Binary", "Bool")
KEY_BASES = ("Integer", "Integer", "BigInt", "SmallInt", "Text")
NAMES = ("users", "posts", "tags", "notes")
ODD_NAMES = ("order", "a b", 'q"r', "x`y", "é", "Mixed", "$1", "?", "a.b", "it's", "@p1", "--", "from")
Json = Any

DIALECTS = ("Pg", "Pg", "Mysql", "Mysql", "Sqlite", "Sqlite", "Bracket")
PG_LOCKS = ("for_update", "for_no_key_update", "for_share", "for_key_share")
COMPARISONS = ("eq", "ne", "gt", "ge", "lt", "le")
REQUESTS = 60


def told(base: str, is_nullable: bool) -> str:
    return base + "?" if is_nullable else base


# ---- schemas

def schema(chance: random.Random) -> dict[str, Any]:
    """Two to four tables, some of which refer to others."""
    tables: list[dict[str, Any]] = []
    joinable = []
    for name in NAMES[:chance.randint(2, 4)]:
        made = table(chance, name)
        if tables and chance.random() < 0.8:
            parent = chance.choice(tables)
            if len(parent["primary_key"]) == 1:
                key = next(column for column in parent["columns"] if column["name"] == parent["primary_key"][0])
                made["columns"].append({"name": "parent", "type": told(key["type"], chance.random() < 0.3)})
                joinable.append({"child": name, "key": "parent", "parent": parent["name"]})
        tables.append(made)
    names = [each["name"] for each in tables]
    together = [[a, b] for at, a in enumerate(names) for b in names[at + 1:] if chance.random() < 0.97]
    return {"tables": tables, "joinable": joinable, "together": together}


def table(chance: random.Random, name: str) -> dict[str, Any]:
    made: dict[str, Any] = {"name": name, "primary_key": ["id"], "columns": [{"name": "id", "type": chance.choice(KEY_BASES)}]}
    if chance.random() < 0.2:
        made["primary_key"] = ["id", "part"]
        made["columns"].append({"name": "part", "type": chance.choice(KEY_BASES)})
    for number in range(chance.randint(1, 4)):
        made["columns"].append({"name": f"c{number}", "type": told(chance.choice(BASES), chance.random() < 0.5)})
    if chance.random() < 0.2:
        made["sql_name"] = f"{chance.choice(ODD_NAMES)}{name}"
    if chance.random() < 0.2:
        made["schema"] = chance.choice(("app", "s 1", 'o"dd'))
    for column, odd in zip(made["columns"], chance.sample(ODD_NAMES, len(ODD_NAMES))):
        if chance.random() < 0.15:
            column["sql_name"] = odd
    return made


class Leaf:
    """A table or an alias that a clause sees. A padded one may lack its row."""

    def __init__(self, alias: Optional[str], table: dict[str, Any], is_padded: bool = False) -> None:
        self.alias = alias
        self.table = table
        self.is_padded = is_padded

    def column(self, name: str) -> Json:
        return {"col": [self.table["name"], name]} if self.alias is None else {"field": [self.alias, self.table["name"], name]}

    def columns(self) -> list[tuple[Json, str, bool]]:
        return [(self.column(column["name"]), column["type"].rstrip("?"), column["type"].endswith("?")) for column in self.table["columns"]]


class Writer:
    """Writes the requests of one document in one dialect."""

    def __init__(self, chance: random.Random, declared: dict[str, Any], dialect: str) -> None:
        self.chance = chance
        self.tables: list[dict[str, Any]] = declared["tables"]
        self.joinable = {frozenset((each["child"], each["parent"])) for each in declared["joinable"]}
        self.dialect = dialect
        self.aliases = 0

    def happens(self, probability: float) -> bool:
        return self.chance.random() < probability

    # ---- expressions

    def expr(self, seen: Sequence[Leaf], base: str, is_nullable: bool, depth: int, selects: bool = False) -> Json:
        """An expression of this very type. In a selection, columns of padded leaves are under nullable."""
        ways = ["bind", "bind"]
        columns = self.columns_of(seen, base, is_nullable, selects)
        if columns:
            ways += ["column"] * 8
        if base == "Bool" and depth > 0:
            ways += ["logic"] * 6
        if is_nullable and depth > 0:
            ways += ["single_value", "nullable"]
        way = self.chance.choice(ways)
        if way == "column":
            return self.chance.choice(columns)
        if way == "logic":
            return self.truth(seen, is_nullable, depth, selects)
        if way == "single_value":
            return {"single_value": self.query(seen, depth - 1, [(base, self.happens(0.5))])}
        if way == "nullable":
            return {"nullable": self.expr(seen, base, self.happens(0.3), depth - 1)}
        return self.bind(base, is_nullable)

    def columns_of(self, seen: Sequence[Leaf], base: str, is_nullable: bool, selects: bool) -> list[Json]:
        found: list[Json] = []
        for leaf in seen:
            for column, of_base, of_nullable in leaf.columns():
                if of_base != base or of_nullable and not is_nullable:
                    continue
                bare = of_nullable == is_nullable and not (selects and leaf.is_padded)
                if bare:
                    found.append(column)
                elif is_nullable:
                    found.append({"nullable": column})
        return found

    def bind(self, base: str, is_nullable: bool) -> Json:
        kind = told(base, is_nullable)
        return {"bind": [kind, some(self.chance, kind)]}

    def truth(self, seen: Sequence[Leaf], is_nullable: bool, depth: int, selects: bool = False) -> Json:
        """A condition that is Bool, or nullable Bool."""
        ways = ["compare"] * 5 + ["and", "or", "not", "list", "list"] + ["rows"] * (depth > 0)
        if not is_nullable:
            ways += ["is_null", "is_not_null"] + ["exists"] * 2 * (depth > 0)
        way = self.chance.choice(ways)
        base = self.base(seen)
        if way == "compare":
            return {self.chance.choice(COMPARISONS): [self.expr(seen, base, is_nullable, depth - 1, selects) for _ in range(2)]}
        if way in ("and", "or"):
            first = is_nullable and self.happens(0.5)
            sides = [first, is_nullable and not (first and self.happens(0.5))]
            return {way: [self.expr(seen, "Bool", each, depth - 1, selects) for each in sides]}
        if way == "not":
            return {"not": self.expr(seen, "Bool", is_nullable, depth - 1, selects)}
        if way in ("is_null", "is_not_null"):
            return {way: self.expr(seen, base, self.happens(0.7), depth - 1, selects)}
        if way == "exists":
            return {"exists": self.query(seen, depth - 1)}
        operand = self.expr(seen, base, is_nullable, depth - 1, selects)
        return {self.chance.choice(("eq_any", "ne_all")): [operand, self.among(seen, base, is_nullable, depth, way)]}

    def among(self, seen: Sequence[Leaf], base: str, is_nullable: bool, depth: int, way: str) -> Json:
        if way == "rows":
            return self.query(seen, depth - 1, [(base, is_nullable)])
        kind = told(base, is_nullable)
        return {"list": [kind, [some(self.chance, kind) for _ in range(self.chance.randint(0, 3))]]}

    def base(self, seen: Sequence[Leaf]) -> str:
        """A base, mostly one of a column that is seen."""
        if seen and self.happens(0.8):
            return self.chance.choice(self.chance.choice(seen).columns())[1]
        return self.chance.choice(BASES)

    def any_type(self, seen: Sequence[Leaf] = ()) -> tuple[str, bool]:
        return self.base(seen), self.happens(0.5)

    # ---- sources

    def leaf(self, taken: Sequence[Leaf]) -> tuple[Leaf, Json]:
        """A table, or an alias where the table is taken, and its source."""
        table = self.chance.choice(self.tables)
        if any(each.table is table and each.alias is None for each in taken) or self.happens(0.2):
            self.aliases += 1
            alias = f"a{self.aliases}_"
            return Leaf(alias, table), {"alias": alias, "of": table["name"]}
        source: dict[str, Any] = {"table": table["name"]}
        if self.dialect == "Pg" and self.happens(0.05):
            source["only"] = True
        if self.dialect == "Pg" and self.happens(0.05):
            seed = [self.chance.randint(-5, 5)] * self.chance.randint(0, 1)
            source["sample"] = [self.chance.choice(("bernoulli", "system")), self.chance.randint(0, 100), *seed]
        return Leaf(None, table), source

    def on(self, left: list[Leaf], right: list[Leaf], depth: int) -> list[Json]:
        """The condition of a join: none where a relation gives it, now and then."""
        if frozenset((left[0].table["name"], right[0].table["name"])) in self.joinable and self.happens(0.8):
            return []
        seen = left + right
        if self.happens(0.5):
            for column, base, is_nullable in self.chance.sample(left[0].columns(), len(left[0].columns())):
                others = self.columns_of(right, base, is_nullable, False)
                if others:
                    return [{"eq": [column, self.chance.choice(others)]}]
        if self.happens(0.01):
            return [{"gt": ["count_star", self.bind("BigInt", False)]}]
        return [self.truth(seen, self.happens(0.3), min(depth, 1))]

    def source(self, taken: Sequence[Leaf], depth: int) -> tuple[list[Leaf], Json]:
        """A source, and its leaves."""
        leaf, source = self.leaf(taken)
        leaves = [leaf]
        while len(leaves) < 3 and self.happens(0.12):
            right, other = self.leaf([*taken, *leaves])
            kind, on = self.chance.choice(("inner", "left")), self.on(leaves, [right], depth)
            source = {"join": [kind, source, other], **({"on": on[0]} if on else {})}
            right.is_padded = kind == "left"
            leaves = leaves + [right]
        return leaves, source

    def joins(self, taken: Sequence[Leaf], leaves: list[Leaf], depth: int) -> tuple[list[Leaf], list[Json]]:
        """Join calls, and the leaves with those that they add."""
        calls: list[Json] = []
        while len(leaves) < 3 and self.happens(0.3):
            if self.happens(0.1):
                right, other = self.source([*taken, *leaves], depth)
            else:
                one, other = self.leaf([*taken, *leaves])
                right = [one]
            on = self.on(leaves, right, depth)
            kind = self.chance.choice(("inner_join", "left_outer_join", "left_join"))
            calls.append([kind, other, *on])
            for leaf in right:
                leaf.is_padded = leaf.is_padded or kind != "inner_join"
            leaves = leaves + right
        return leaves, calls

    # ---- statements

    def query(self, outer: Sequence[Leaf], depth: int, wanted: Optional[list[tuple[str, bool]]] = None) -> Json:
        """A query whose columns have the wanted types, or any."""
        if depth > 0 and self.happens(0.12):
            return self.combination(outer, depth, wanted or [self.any_type() for _ in range(self.chance.randint(1, 3))])
        if self.happens(0.04):
            types = wanted or [self.any_type() for _ in range(self.chance.randint(1, 3))]
            query = {"select": [self.expr([], *each, min(depth, 1)) for each in types]}
            return {**query, "calls": self.page()} if self.happens(0.3) else query
        return self.select(outer, depth, wanted)

    def select(self, outer: Sequence[Leaf], depth: int, wanted: Optional[list[tuple[str, bool]]]) -> Json:
        leaves, source = self.source(outer, depth)
        is_single = len(leaves) == 1
        leaves, joins = self.joins(outer, leaves, depth)
        boxed = self.happens(0.15)
        where = leaves if boxed else [*leaves, *outer]
        calls = list(joins)
        for _ in range(self.chance.choice((0, 0, 1, 1, 2))):
            calls.append([self.chance.choice(("filter", "filter", "or_filter")), self.truth(where, self.happens(0.4), depth)])
        if is_single and not joins and self.happens(0.1):
            calls.append(["find", self.key_values(leaves[0])])
        if self.happens(0.2 if wanted is None else 0.1):
            calls += self.grouped(leaves, depth) if wanted is None else self.grouped_as(leaves, wanted)
        else:
            calls += self.ungrouped(leaves, depth, wanted, boxed)
        calls += self.page()
        return {"from": source, "calls": self.boxed(calls) if boxed else calls} if calls else {"from": source}

    def key_values(self, leaf: Leaf) -> list[Json]:
        types = {column["name"]: column["type"] for column in leaf.table["columns"]}
        return [self.bind(types[name], False) for name in leaf.table["primary_key"]]

    def boxed(self, calls: list[Json]) -> list[Json]:
        """The calls with a boxing among those that a boxed statement takes."""
        last = max((at for at, call in enumerate(calls, 1) if call[0] in ("find", "distinct_on", "group_by")), default=0)
        at = self.chance.randint(last, len(calls))
        box = ["into_boxed"] if self.happens(0.7) else ["into_boxed", self.dialect]
        return calls[:at] + [box] + calls[at:]

    def ungrouped(self, leaves: list[Leaf], depth: int, wanted: Optional[list[tuple[str, bool]]], boxed: bool) -> list[Json]:
        """A selection of values for each row, how it is distinct and ordered, and a lock."""
        calls: list[Json] = []
        selection: Optional[list[Json]] = None
        is_distinct = self.happens(0.12)
        repeated = self.repeated(leaves) if is_distinct and wanted is None else []
        if repeated and self.happens(0.7):
            selection = self.chance.sample(repeated, min(len(repeated), self.chance.randint(1, 2)))
            calls.append(["select", self.nested(selection)])
        elif wanted is not None or self.happens(0.7):
            types = wanted or [self.any_type(leaves) for _ in range(self.chance.randint(1, 3))]
            selection = [self.expr(leaves, *each, min(depth, 1), selects=True) for each in types]
            calls.append(["select", selection[0] if len(selection) == 1 and self.happens(0.5) else self.nested(selection)])
        if wanted is None and self.happens(0.05):
            return calls + [[self.chance.choice(("count", "nullable"))]]
        order = self.order(leaves, depth, selection)
        if is_distinct:
            calls.append(["distinct"])
            order = [self.item(each) for each in selection or [] if self.happens(0.5) and ("bind" not in each or self.happens(0.1))]
        elif self.dialect == "Pg" and not boxed and self.happens(0.15):
            key = [self.expr(leaves, *self.any_type(leaves), 0, selects=True) for _ in range(self.chance.randint(1, 2))]
            key = [each for each in key if "bind" not in each] or [self.columns_of(leaves, *leaves[0].columns()[0][1:], False)[0]]
            key = [{"nullable": each} if leaves[0].is_padded and "nullable" not in each else each for each in key]
            calls.append(["distinct_on", key])
            order = [self.item(each) for each in key] + order if self.happens(0.8) else []
        elif self.dialect in ("Pg", "Mysql") and not boxed and self.happens(0.08 if wanted is None else 0.01):
            calls += self.lock()
        if order:
            at = self.chance.randint(1, len(order)) if self.happens(0.3) else len(order)
            calls.append([self.chance.choice(("order", "order_by")), order[:at]])
            calls += [["then_order_by", order[at:]]] if order[at:] else []
        return calls

    def repeated(self, leaves: list[Leaf]) -> list[Json]:
        """Columns beside the keys, of which rows often have equal values."""
        found = [(leaf, name["name"]) for leaf in leaves for name in leaf.table["columns"] if name["name"] not in leaf.table["primary_key"]]
        return [{"nullable": leaf.column(name)} if leaf.is_padded else leaf.column(name) for leaf, name in found]

    def nested(self, selection: list[Json]) -> list[Json]:
        """The same list, now and then with lists in it."""
        return [selection[0], [[], selection[1:]]] if self.happens(0.05) else selection

    def order(self, leaves: list[Leaf], depth: int, selection: Optional[list[Json]]) -> list[Json]:
        if not self.happens(0.45):
            return []
        items = []
        for _ in range(self.chance.randint(1, 3)):
            if selection and self.happens(0.3):
                items.append(self.item(self.chance.choice(selection)))
            else:
                base, is_nullable = self.chance.choice(self.chance.choice(leaves).columns())[1:]
                items.append(self.item(self.expr(leaves, base, is_nullable, min(depth, 1) if self.happens(0.2) else 0)))
        return items

    def item(self, expr: Json) -> Json:
        return self.chance.choice((expr, {"asc": expr}, {"desc": expr}))

    def lock(self) -> list[Json]:
        modes = PG_LOCKS if self.dialect == "Pg" else ("for_update", "for_update", "for_share")
        modifiers: Sequence[str] = self.chance.choice((("skip_locked",), ("no_wait",), ()))
        return [[self.chance.choice(modes)]] + [[each] for each in modifiers]

    def grouped(self, leaves: list[Leaf], depth: int) -> list[Json]:
        """Groups, or one group of all rows, and what is counted."""
        counts = self.counts(leaves)
        columns = [each[0] if not leaf.is_padded else {"nullable": each[0]} for leaf in leaves for each in leaf.columns()]
        if self.happens(0.2):
            return [["select", self.chance.choice((counts[:1], counts, counts[1]))]]
        group = self.chance.sample(columns, min(len(columns), self.chance.randint(1, 2)))
        if self.happens(0.5):
            group = self.repeated(leaves)[:1] or group
        shown = self.chance.sample(group + counts, self.chance.randint(1, len(group) + len(counts)))
        if self.happens(0.15):
            group = group + [self.expr(leaves, *self.any_type(leaves), min(depth, 1), selects=True)]
        return [["group_by", group], ["select", shown], *self.having(leaves, counts), *self.ordered_groups(group[:1], group + counts, shown)]

    def grouped_as(self, leaves: list[Leaf], wanted: list[tuple[str, bool]]) -> list[Json]:
        """Groups that show these types: a count, or what the rows are grouped by."""
        counts = self.counts(leaves)
        shown = [self.chance.choice(counts) if each == ("BigInt", False) else self.expr(leaves, *each, 0, selects=True) for each in wanted]
        group = [each for each in shown if each not in counts and "bind" not in each]
        grouped = [["group_by", group]] if group else []
        return [*grouped, ["select", shown], *(self.having(leaves, counts) if group else [])]

    def counts(self, leaves: list[Leaf]) -> list[Json]:
        return ["count_star", {"count": self.expr(leaves, *self.any_type(leaves), 0)}]

    def having(self, leaves: list[Leaf], counts: list[Json]) -> list[Json]:
        if self.happens(0.05):
            return [["having", self.truth(leaves, self.happens(0.3), 0)]]
        if self.happens(0.3):
            return [["having", {self.chance.choice(COMPARISONS): [self.chance.choice(counts), self.bind("BigInt", False)]}]]
        return []

    def ordered_groups(self, key: list[Json], items: list[Json], shown: list[Json]) -> list[Json]:
        """How groups are distinct and ordered, by one to three items."""
        calls: list[Json] = []
        order = self.chance.sample(items, self.chance.randint(1, min(3, len(items)))) if self.happens(0.5) else []
        if self.happens(0.1):
            calls.append(["distinct"])
            order = [each for each in order if each in shown]
        elif self.dialect == "Pg" and self.happens(0.2):
            calls.append(["distinct_on", key])
            order = key + order if order else []
        return calls + ([["order", [self.item(each) for each in order]]] if order else [])

    def page(self) -> list[Json]:
        calls: list[Json] = []
        if self.happens(0.25):
            calls.append(["limit", self.number()])
        if (calls or self.dialect != "Mysql") and self.happens(0.2):
            calls.append(["offset", self.number()])
        return calls

    def number(self) -> int:
        return -1 if self.happens(0.01) else self.chance.randint(0, 3)

    def combination(self, outer: Sequence[Leaf], depth: int, types: list[tuple[str, bool]]) -> Json:
        """Two or three statements of one list of types."""
        query = self.select(outer, depth - 1, types)
        query["calls"] = query.get("calls", [])
        names = ["union", "union_all", "intersect", "except"]
        names += ["intersect_all", "except_all"] if self.dialect in ("Pg", "Mysql") else []
        for _ in range(self.chance.choice((1, 1, 1, 2))):
            query["calls"].append([self.chance.choice(names), self.query(outer, depth - 1, types)])
        if self.happens(0.4):
            places = [self.chance.randint(1, len(types)) for _ in range(self.chance.randint(1, 2))]
            query["calls"].append(["positional_order_by", [self.item(place) for place in places]])
        query["calls"] += self.page()
        return query


def guard(chance: random.Random, declared: dict[str, Any]) -> dict[str, Any]:
    """A guard: a table, and a predicate over its columns alone."""
    guarded = chance.choice(declared["tables"])
    return {"table": guarded["name"], "predicate": predicate(Writer(chance, declared, "Pg"), Leaf(None, guarded), chance.randint(0, 3))}


def predicate(writer: Writer, leaf: Leaf, depth: int) -> Json:
    """A condition of this depth. NOT stands beside AND, OR and NOT alone, where servers read it as the grammar does."""
    way = writer.chance.choice(("and", "or", "not")) if depth > 0 else "test"
    if way == "not":
        return {"not": predicate(writer, leaf, depth - 1)}
    if way != "test":
        return {way: [predicate(writer, leaf, depth - 1), predicate(writer, leaf, writer.chance.randint(0, depth - 1))]}
    base, is_nullable = writer.chance.choice(leaf.columns())[1:]
    columns = writer.columns_of([leaf], base, is_nullable, False)
    column = writer.chance.choice(columns)
    if writer.happens(0.2):
        return {writer.chance.choice(("is_null", "is_not_null")): column}
    if writer.happens(0.3):
        return {writer.chance.choice(("eq_any", "ne_all")): [column, writer.among([leaf], base, is_nullable, 0, "list")]}
    other = writer.chance.choice(columns) if writer.happens(0.2) else writer.bind(base, is_nullable)
    return {writer.chance.choice(COMPARISONS): [column, other]}


def document(chance: random.Random, requests: int = REQUESTS, is_guarded: bool = False) -> dict[str, Any]:
    declared = schema(chance)
    made = []
    for _ in range(requests):
        dialect = chance.choice(DIALECTS)
        writer = Writer(chance, declared, dialect)
        made.append({"dialect": dialect, "query": writer.query([], chance.choice((0, 1, 1, 2)))})
    guarded = {"guard": guard(chance, declared)} if is_guarded else {}
    return {"schema": declared, "requests": made, **guarded}


if __name__ == "__main__":
    json.dump(document(random.Random(int(sys.argv[1]))), sys.stdout)
