"""Documents that grow in one direction, for `bench/scale.py`: `python3 bench/documents.py filters 100 > document.json`.

Each direction is a function of a count, and gives the schema and the requests of a document.
"""
import json
import math
import sys

KINDS = ["Integer", "Text", "BigInt", "Bool"]
# A statement nests at most so deep (`MAX_DEPTH` of `sql_build_depth`).
MAX_DEPTH = 2500
# PostgreSQL allows a table so many columns, and MySQL so many.
MAX_COLUMNS = 1600
MYSQL_COLUMNS = 4096


def table(name, columns):
    return {"name": name, "columns": [{"name": column, "type": kind} for column, kind in columns]}


def wide(name, count):
    """A table of so many columns, the key among them."""
    return table(name, [("id", "Integer")] + [(f"c{number}", "Integer") for number in range(count - 1)])


USERS = table("users", [("id", "Integer"), ("name", "Text")])
POSTS = table("posts", [("id", "Integer"), ("user_id", "Integer"), ("title", "Text")])
IDENTITY = {"col": ["users", "id"]}
FROM_USERS = {"from": {"table": "users"}}


def integer(number):
    return {"bind": ["Integer", number]}


def one(query, tables=(USERS,), **more):
    """A document of one request."""
    return {"tables": list(tables), **more}, [{"dialect": "Pg", "query": query}]


def called(calls, start=FROM_USERS, tables=(USERS,), **more):
    """A document of one request with these calls."""
    return one({**start, "calls": calls}, tables, **more)


def is_number(number):
    return {"eq": [IDENTITY, integer(number)]}


def requests(count):
    """Requests of one shape."""
    return {"tables": [USERS]}, [{"dialect": "Pg", "query": {**FROM_USERS, "calls": [["filter", is_number(n)]]}} for n in range(count)]


def selected_by_digits(number):
    """A request of a shape of its own: it selects the columns of a table of ten in the order of the number's digits."""
    digits = [int(digit) for digit in str(number)]
    selection = [{"col": ["wide", "id" if digit == 0 else f"c{digit - 1}"]} for digit in digits]
    return {"dialect": "Pg", "query": {"from": {"table": "wide"}, "calls": [["select", selection]]}}


def shapes(count):
    """Requests of as many shapes."""
    return {"tables": [wide("wide", 10)]}, [selected_by_digits(number) for number in range(count)]


def repeated(count):
    """Requests of which ten in a row have one shape."""
    return {"tables": [wide("wide", 10)]}, [selected_by_digits(number // 10) for number in range(count)]


def selecting(width, selected, number):
    """A request of a shape of its own over a table of that width: it selects so many columns, the last three by the number's digits."""
    digits = (number % width, number // width % width, number // width // width % width)
    chosen = [*range(max(0, selected - len(digits))), *digits]
    selection = [{"col": ["wide", "id" if place == 0 else f"c{place - 1}"]} for place in chosen]
    return {"dialect": "Pg", "query": {"from": {"table": "wide"}, "calls": [["select", selection]]}}


def wide_requests(width, selected, count):
    """Requests of as many shapes over one table."""
    return {"tables": [wide("wide", width)]}, [selecting(width, selected, number) for number in range(count)]


def widths(count):
    """Columns of a table, of which 500 requests of as many shapes select 40."""
    return wide_requests(max(40, count), 40, 500)


def selections(count):
    """Columns that 100 requests of as many shapes select, of a widest table."""
    return wide_requests(MAX_COLUMNS, count, 100)


def wide_shapes(count):
    """Requests of as many shapes that select 40 of 200 columns."""
    return wide_requests(200, 40, count)


def widest_shapes(count):
    """Requests of as many shapes that select 60 columns of a widest table."""
    return wide_requests(MAX_COLUMNS, 60, count)


def widths_and_shapes(count):
    """As many columns as requests, each of a shape of its own that selects 10 of them."""
    return wide_requests(max(10, count), 10, count)


def widths_and_selections(count):
    """Columns of a table, all of which are selected by 20 requests of as many shapes."""
    return wide_requests(count, count, 20)


def selections_and_shapes(count):
    """So many selected columns in all: as many requests as each selects, of a widest table."""
    side = min(MAX_COLUMNS, math.isqrt(count))
    return wide_requests(MAX_COLUMNS, side, side)


def limits(count):
    """Calls that nest nothing."""
    return called([["limit", number] for number in range(count)])


def filters(count):
    return called([["filter", is_number(number)] for number in range(count)])


def or_filters(count):
    return called([["or_filter", is_number(number)] for number in range(count)])


def unions(count):
    return called([["union", FROM_USERS]] * count)


def nullables(count):
    return called([["nullable"]] * count)


def aliases(count):
    """Aliases of one table that are joined, each on the users' key."""
    on = [{"eq": [{"field": [f"a{number}", "users", "id"]}, IDENTITY]} for number in range(count)]
    return called([["inner_join", {"alias": f"a{number}", "of": "users"}, on[number]] for number in range(count)] + [["select", IDENTITY]])


def left_joins(count):
    """The same by left joins, with the default selection."""
    on = [{"eq": [{"field": [f"a{number}", "users", "id"]}, IDENTITY]} for number in range(count)]
    return called([["left_join", {"alias": f"a{number}", "of": "users"}, on[number]] for number in range(count)])


def finds(count):
    """A key of so many columns."""
    key = wide("wide", count)
    key["primary_key"] = [column["name"] for column in key["columns"]]
    return called([["find", [integer(number) for number in range(count)]]], {"from": {"table": "wide"}}, [key])


def nested_filters(count):
    """Filters on statements that are inside each other by EXISTS, as deep as JSON allows."""
    levels = min(20, count)
    query = FROM_USERS
    for level in range(levels):
        inside = [["filter", {"exists": query}]] if level else []
        query = {**FROM_USERS, "calls": inside + [["filter", is_number(number)] for number in range(count // levels)]}
    return one(query)


def nested_unions(count):
    """Combinations on the right of each other, as deep as JSON allows."""
    levels = min(25, count)
    query = FROM_USERS
    for _ in range(levels):
        query = {**FROM_USERS, "calls": [["union", query]] + [["union", FROM_USERS]] * (count // levels - 1)}
    return one(query)


def nots(count):
    """NOT inside each other, which JSON allows 117 times here."""
    condition = is_number(1)
    for _ in range(count):
        condition = {"not": condition}
    return called([["filter", condition]])


def subselects(count):
    """Subselects that stand beside each other in a selection."""
    inside = {"single_value": {**FROM_USERS, "calls": [["select", IDENTITY]]}}
    return one({"select": [inside] * count})


def selected(count):
    return called([["select", [IDENTITY] * count]])


def ordered(count):
    return called([["order", [{"desc": IDENTITY}] * count]])


def ordered_then(count):
    """Items that are added one by one."""
    return called([["then_order_by", [{"desc": IDENTITY}]]] * count)


def listed(count):
    return called([["filter", {"eq_any": [IDENTITY, {"list": ["Integer", list(range(count))]}]}]])


def compared(count):
    """Values that have a placeholder each, as a list has none in PostgreSQL."""
    schema, written = listed(count)
    return schema, [{**written[0], "dialect": "Sqlite"}]


def tables(count):
    """Tables with a request each."""
    names = [f"t{number}" for number in range(count)]
    schema = {"tables": [table(name, [("id", "Integer")]) for name in names]}
    return schema, [{"dialect": "Pg", "query": {"from": {"table": name}}} for name in names]


def columns(count):
    """Columns of one table, of which three are selected."""
    some = [{"col": ["wide", name]} for name in ("id", "c0", f"c{count - 2}")]
    return called([["select", some]], {"from": {"table": "wide"}}, [wide("wide", count)])


def default_selection(count):
    """All columns of a table."""
    return one({"from": {"table": "wide"}}, [wide("wide", count)])


def default_selections(count):
    """The same twice, so that two keys of as many columns are compared."""
    schema, requests_of_it = default_selection(count)
    return schema, requests_of_it * 2


def relations(count):
    """Tables that are related to one, and joined to it in a request each."""
    children = [f"t{number}" for number in range(count)]
    schema = {
        "tables": [USERS] + [table(name, [("id", "Integer"), ("user_id", "Integer")]) for name in children],
        "joinable": [{"child": name, "key": "user_id", "parent": "users"} for name in children],
        "together": [["users", name] for name in children],
    }
    return schema, [{"dialect": "Pg", "query": {**FROM_USERS, "calls": [["inner_join", {"table": name}]]}} for name in children]


def grouped(count):
    """Different columns that are grouped by and selected."""
    every = [{"col": ["wide", column["name"]]} for column in wide("wide", count)["columns"]]
    return called([["group_by", every], ["select", every]], {"from": {"table": "wide"}}, [wide("wide", count)])


def distinct_ordered(count):
    """Different columns under DISTINCT ON and in the order."""
    every = [{"col": ["wide", column["name"]]} for column in wide("wide", count)["columns"]]
    return called([["distinct_on", every], ["order", every]], {"from": {"table": "wide"}}, [wide("wide", count)])


def name_bytes(count):
    """The bytes of one name."""
    return one({"from": {"table": "users"}}, [{**USERS, "sql_name": "\"" * count}])


def value_bytes(count):
    """The bytes of one value."""
    value = {"bind": ["Text", "x" * count]}
    return called([["filter", {"eq": [{"col": ["users", "name"]}, value]}]])


# Each direction, and the largest count that it is made with where that is not as many as a document holds.
DIRECTIONS = {
    "requests": (requests, None),
    "shapes": (shapes, None),
    "repeated": (repeated, None),
    "widths": (widths, None),
    "selections": (selections, MAX_COLUMNS),
    "wide_shapes": (wide_shapes, None),
    "widest_shapes": (widest_shapes, None),
    "widths_and_shapes": (widths_and_shapes, None),
    "widths_and_selections": (widths_and_selections, None),
    "selections_and_shapes": (selections_and_shapes, None),
    "limits": (limits, None),
    "filters": (filters, MAX_DEPTH - 4),
    "or_filters": (or_filters, MAX_DEPTH - 4),
    "unions": (unions, MAX_DEPTH // 2 - 2),
    "nullables": (nullables, MAX_DEPTH - 4),
    "aliases": (aliases, MAX_DEPTH - 4),
    "left_joins": (left_joins, MAX_DEPTH - 4),
    "finds": (finds, MAX_DEPTH - 4),
    "nested_filters": (nested_filters, MAX_DEPTH - 80),
    "nested_unions": (nested_unions, MAX_DEPTH // 2 - 50),
    "nots": (nots, 117),
    "too_many_filters": (filters, None),
    "too_many_unions": (unions, None),
    "subselects": (subselects, None),
    "selected": (selected, None),
    "ordered": (ordered, None),
    "ordered_then": (ordered_then, None),
    "listed": (listed, None),
    "compared": (compared, None),
    "tables": (tables, None),
    "columns": (columns, None),
    "default_selection": (default_selection, None),
    "default_selections": (default_selections, MYSQL_COLUMNS),
    "relations": (relations, None),
    "grouped": (grouped, MAX_COLUMNS),
    "distinct_ordered": (distinct_ordered, MAX_COLUMNS),
    "name_bytes": (name_bytes, None),
    "value_bytes": (value_bytes, None),
}

# Those of calls and parts that hold each other.
NESTING = ["filters", "or_filters", "unions", "nullables", "aliases", "left_joins", "finds", "nested_filters", "nested_unions", "nots"]


def document(direction, count):
    schema, written = DIRECTIONS[direction][0](count)
    return json.dumps({"schema": schema, "requests": written}, separators=(",", ":"))


if __name__ == "__main__":
    print(document(sys.argv[1], int(sys.argv[2])))
