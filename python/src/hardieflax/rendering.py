"""The JSON of a query in the words of this package, for messages. Values are not shown, but their types: a message may go into a log."""
from __future__ import annotations

from typing import Any

_COMPARED = {"eq": "==", "ne": "!=", "lt": "<", "le": "<=", "gt": ">", "ge": ">=", "and": "&", "or": "|"}
_CALLED = {"is_null": "is_null", "is_not_null": "is_not_null", "nullable": "nullable"}
_RENAMED = {"inner_join": "join", "left_outer_join": "left_join", "order_by": "order", "except": "except_"}


def rendered(x: Any) -> str:
    """An expression."""
    if isinstance(x, list):
        return ", ".join(map(rendered, x))
    if x == "count_star":
        return "count()"
    if not isinstance(x, dict) or len(x) != 1:
        return rendered_query(x) if isinstance(x, dict) and ("from" in x or "select" in x) else repr(x)
    (word, of), = x.items()
    if word in ("col", "field"):
        return ".".join([of[0], of[-1]])
    if word == "bind":
        return f"<{of[0]}>"
    if word in _COMPARED:
        return f"({rendered(of[0])} {_COMPARED[word]} {rendered(of[1])})"
    if word in _CALLED:
        return f"{rendered(of)}.{_CALLED[word]}()"
    return _rendered_operation(word, of)


def _rendered_operation(word: str, of: Any) -> str:
    if word == "not":
        return f"~{rendered(of)}"
    if word == "count":
        return f"count({rendered(of)})"
    if word in ("exists", "single_value"):
        return f"{rendered_query(of)}.{word}()"
    if word in ("asc", "desc"):
        return f"{rendered(of)}.{word}()"
    if word in ("eq_any", "ne_all"):
        listed = f"<{of[1]['list'][0]} list>" if "list" in of[1] else rendered_query(of[1])
        return f"{rendered(of[0])}.{'in_' if word == 'eq_any' else 'not_in'}({listed})"
    return f"{word}(..)"


def rendered_source(x: Any) -> str:
    """A table, an alias or a join."""
    if "alias" in x:
        return f"alias({x['of']}, {x['alias']!r})"
    if "join" in x:
        return f"{rendered_source(x['join'][1])} {x['join'][0]} join {rendered_source(x['join'][2])}"
    return str(x.get("table"))


def rendered_call(call: Any) -> str:
    """A call on a query, as `.filter((users.id == <Integer>))`."""
    name, *arguments = call
    if name == "positional_order_by":
        return f".{name}({', '.join(map(_rendered_place, arguments[0]))})"
    shown = []
    for each in arguments:
        if isinstance(each, dict) and ("table" in each or "alias" in each or "join" in each):
            shown.append(rendered_source(each))
        elif isinstance(each, (dict, list)) or each == "count_star":
            shown.append(rendered(each))
        else:
            shown.append("<BigInt>" if isinstance(each, int) else str(each))
    return f".{_RENAMED.get(name, name)}({', '.join(shown)})"


def _rendered_place(place: Any) -> str:
    if isinstance(place, dict):
        (direction, number), = place.items()
        return f"({number}, {direction!r})"
    return str(place)


def rendered_query(x: Any) -> str:
    """A query."""
    begin = f"query({rendered_source(x['from'])})" if "from" in x else f"select({rendered(x['select'])})"
    return begin + "".join(map(rendered_call, x.get("calls", [])))
