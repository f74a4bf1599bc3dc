"""Documents as the back end of a shop sends them: `python3 bench/realistic.py 1000 [SHAPES] > document.json`.

Twelve tables, up to three joins and an alias, lists of 1 to 50 values, boxed filters, pages. The requests are of SHAPES shapes in turn, by
default 60, and each has values of its own; 0 says that each request has a shape of its own.
"""
import itertools
import json
import random
import sys

COLUMNS = {
    "users": "email:Text name:Text phone:Text? city:Text? created:BigInt active:Bool score:Integer",
    "accounts": "user_id:Integer currency:Text balance:BigInt opened:BigInt closed:BigInt?",
    "addresses": "user_id:Integer street:Text city:Text country:Text postcode:Text? main:Bool",
    "orders": "user_id:Integer address_id:Integer status:Text total:BigInt currency:Text created:BigInt shipped:BigInt? note:Text?",
    "order_lines": "order_id:Integer product_id:Integer quantity:SmallInt price:BigInt discount:SmallInt?",
    "products": "category_id:Integer supplier_id:Integer name:Text price:BigInt stock:Integer weight:Integer? hidden:Bool",
    "categories": "name:Text parent:Integer? position:SmallInt",
    "suppliers": "name:Text country:Text rating:SmallInt? email:Text",
    "payments": "order_id:Integer method:Text amount:BigInt paid:BigInt? reference:Text?",
    "shipments": "order_id:Integer carrier:Text tracking:Text? sent:BigInt arrived:BigInt?",
    "reviews": "product_id:Integer author_id:Integer stars:SmallInt title:Text? text:Text created:BigInt",
    "coupons": "code:Text percent:SmallInt starts:BigInt ends:BigInt? uses:Integer",
}
TABLES = {name: {"id": "Integer", **dict(column.split(":") for column in columns.split())} for name, columns in COLUMNS.items()}
PARENTS = {"user_id": "users", "address_id": "addresses", "order_id": "orders", "product_id": "products", "category_id": "categories",
           "supplier_id": "suppliers", "author_id": "users"}
RELATIONS = [(child, key, PARENTS[key]) for child, columns in TABLES.items() for key in columns if key in PARENTS]
RELATED = {name: sorted({other for child, _, parent in RELATIONS if name in (child, parent) for other in (child, parent)} - {name})
           for name in TABLES}
OPERATORS = {"Text": ["eq", "ne"], "Bool": ["eq"]}
WORDS = ["Amsterdam", "Berlin", "card", "paid", "open", "EUR", "Zoë O'Brien", "sent by courier", "a longer note, as people write it"]


def schema():
    tables = [{"name": name, "columns": [{"name": column, "type": kind} for column, kind in columns.items()]}
              for name, columns in TABLES.items()]
    joinable = [{"child": child, "key": key, "parent": parent} for child, key, parent in RELATIONS]
    return {"tables": tables, "joinable": joinable, "together": [list(pair) for pair in itertools.combinations(TABLES, 2)]}


def value(kind, values):
    """A value of the type."""
    base = kind.rstrip("?")
    if base == "Text":
        return values.choice(WORDS)
    if base == "Bool":
        return values.random() < 0.5
    return values.randrange(30000 if base == "SmallInt" else 1000000)


def source(shape):
    """A source of one to four tables that are related, those of inner joins, and those that a left join may leave empty."""
    start = shape.choice(sorted(TABLES))
    tree, inner, padded = {"table": start}, [start], []
    for _ in range(shape.choice([0, 1, 1, 2, 2, 3])):
        # As in diesel, a join without a condition takes the relation of the first table.
        fitting = [name for name in RELATED[start] if name not in inner + padded]
        if not fitting:
            break
        right = shape.choice(fitting)
        kind = shape.choice(["inner", "inner", "left"])
        tree = {"join": [kind, tree, {"table": right}]}
        (inner if kind == "inner" else padded).append(right)
    return tree, inner, padded


def column(shape, names):
    name = shape.choice(names)
    key = shape.choice(sorted(TABLES[name]))
    return {"col": [name, key]}, TABLES[name][key]


def condition(shape, values, names):
    """A comparison, a list of 1 to 50 values, or a test on NULL."""
    expr, kind = column(shape, names)
    if kind.endswith("?") and shape.random() < 0.5:
        return {shape.choice(["is_null", "is_not_null"]): expr}
    if kind.rstrip("?") != "Bool" and shape.random() < 0.25:
        count = shape.randint(1, 50)
        return {"eq_any": [expr, {"list": [kind, [value(kind, values) for _ in range(count)]]}]}
    operator = shape.choice(OPERATORS.get(kind.rstrip("?"), ["eq", "ne", "gt", "ge", "lt", "le"]))
    return {operator: [expr, {"bind": [kind, value(kind, values)]}]}


def selected(shape, inner, padded):
    """Three to ten columns; those of tables that may be left empty are nullable."""
    chosen = []
    for _ in range(shape.randint(3, 10)):
        expr, _ = column(shape, inner + padded)
        chosen.append({"nullable": expr} if expr["col"][0] in padded else expr)
    return chosen


def request(form, values):
    """A request of the form that this number stands for."""
    shape = random.Random(form)
    tree, inner, padded = source(shape)
    calls = [["into_boxed"]] if shape.random() < 0.4 else []
    calls.append(["select", selected(shape, inner, padded)])
    calls += [["filter", condition(shape, values, inner)] for _ in range(shape.randint(1, 5))]
    if shape.random() < 0.7:
        expr, _ = column(shape, inner)
        calls += [["order", [{"desc": expr}, {"asc": {"col": [inner[0], "id"]}}]], ["limit", shape.choice([10, 20, 50, 100])]]
        if shape.random() < 0.6:
            calls.append(["offset", values.randrange(0, 2000, 20)])
    return {"dialect": shape.choice(["Pg", "Pg", "Mysql", "Sqlite"]), "query": {"from": tree, "calls": calls}}


def main():
    count = int(sys.argv[1])
    shapes = int(sys.argv[2]) if len(sys.argv) > 2 else 60
    values = random.Random(1)
    requests = [request(number % shapes if shapes else number, values) for number in range(count)]
    json.dump({"schema": schema(), "requests": requests}, sys.stdout, separators=(",", ":"), ensure_ascii=False)


main()
