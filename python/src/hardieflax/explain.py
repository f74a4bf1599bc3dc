"""Which part of a query breaks a rule: as the engine's command `explain` tells, where it has one, or found by taking parts away and
asking again.
"""
from __future__ import annotations

import copy
from typing import Any, Callable, Iterator, List, Optional, Sequence, Tuple

from .rendering import rendered, rendered_call, rendered_query, rendered_source

Json = Any
Path = Tuple[Any, ...]
# Answers queries: for each an accepted line, a refused one, or an error where it is none.
Ask = Callable[[Sequence[Json]], List[Any]]

MOST_PARTS = 4
MOST_EDITS = 2000
_TESTS = ("eq", "ne", "lt", "le", "gt", "ge", "not", "is_null", "is_not_null", "exists", "eq_any", "ne_all")
_SIDES = ("eq", "ne", "lt", "le", "gt", "ge", "and", "or")


# Where the query of a document's one request stands.
_QUERY = "/requests/0/query"


def as_told(lines: Sequence[Any], query: Json, rule: str) -> List[str]:
    """The parts that lines of `explain` point to, in words. None, where they point to the whole query."""
    made: List[str] = []
    for line in lines:
        at = str(line.get("at", ""))
        if line.get("refused") == rule and at.startswith(_QUERY + "/"):
            path = _path(query, at[len(_QUERY) + 1:])
            if path is None:
                continue
            call = _call_of(query, path)
            where = "" if call is None or call is _at(query, path) else f", in {_name(call)}"
            made.append(f"{_shown(path, _at(query, path))}: {line.get('says', 'breaks the rule')}{where}")
    return made


def _path(query: Json, pointer: str) -> Optional[Path]:
    """The steps of a JSON Pointer into the query; None where it leads nowhere."""
    path: List[Any] = []
    x = query
    try:
        for word in pointer.split("/"):
            step: Any = int(word) if isinstance(x, list) else word.replace("~1", "/").replace("~0", "~")
            path.append(step)
            x = x[step]
    except (LookupError, TypeError, ValueError):
        return None
    return tuple(path)


def why(ask: Ask, query: Json, rule: str) -> List[str]:
    """The smallest parts without which the query does not break the rule, in words.

    Where more than one part breaks it, so that taking one away mends nothing, those of the first calls that break it.
    """
    return _parts(ask, query, rule) or _first_of_several(ask, query, rule)


def _first_of_several(ask: Ask, query: Json, rule: str) -> List[str]:
    calls = query.get("calls", [])
    begins = [{**query, "calls": calls[:count]} for count in range(len(calls))]
    for begin, answer in zip(begins, ask(begins)):
        if isinstance(answer, dict) and answer.get("refused") == rule:
            return _parts(ask, begin, rule)
    return []


def _parts(ask: Ask, query: Json, rule: str) -> List[str]:
    tried = list(_edits(query, ()))[:MOST_EDITS]
    told = ask([_without(query, place, new) for _, place, new in tried])
    guilty = list(dict.fromkeys(path for (path, _, _), answer in zip(tried, told) if _is_mended(answer, rule)))
    deepest = [path for path in guilty if not any(other != path and other[:len(path)] == path for other in guilty)]
    return [_described(ask, query, path, rule) for path in deepest[:MOST_PARTS]]


def _is_mended(answer: Any, rule: str) -> bool:
    return isinstance(answer, dict) and answer.get("refused") != rule


def _edits(x: Json, path: Path) -> Iterator[Tuple[Path, Path, Json]]:
    """(the part, the place that changes, what it becomes) for each part that may be away."""
    if isinstance(x, dict):
        if len(x) == 1:
            (word, of), = x.items()
            if word in ("and", "or"):
                yield (*path, word, 1), path, of[0]
                yield (*path, word, 0), path, of[1]
            if word in _TESTS:
                yield path, path, {"bind": ["Bool", True]}
        for key, each in x.items():
            yield from _edits(each, (*path, key))
    elif isinstance(x, list):
        is_calls = bool(path) and path[-1] == "calls"
        is_list = is_calls or len(x) > 1 and bool(path) and path[-1] in (1, "select") and all(isinstance(each, (dict, list)) for each in x)
        for at, each in enumerate(x):
            if is_list:
                yield (*path, at), path, x[:at] + x[at + 1:]
            yield from _edits(each, (*path, at))


def _at(x: Json, path: Path) -> Json:
    for step in path:
        x = x[step]
    return x


def _without(query: Json, place: Path, new: Json) -> Json:
    if not place:
        return new
    made = copy.deepcopy(query)
    _at(made, place[:-1])[place[-1]] = new
    return made


def _described(ask: Ask, query: Json, path: Path, rule: str) -> str:
    part = _at(query, path)
    text = _shown(path, part)
    if rule == "TypeMismatch" and isinstance(part, dict) and len(part) == 1:
        (word, of), = part.items()
        if word in _SIDES:
            text += f", whose sides are {' and '.join(_types(ask, query, of))}"
    call = _call_of(query, path)
    return text if call is None or call == part else f"{text}, in {_name(call)}"


def _shown(path: Path, part: Json) -> str:
    if path and path[-1] == "from":
        return rendered_source(part)
    if len(path) >= 2 and path[-2] == "calls":
        return rendered_call(part)
    if isinstance(part, dict) and ("from" in part or "select" in part):
        return rendered_query(part)
    return rendered(part)


def _call_of(query: Json, path: Path) -> Any:
    """The call of the query that the part belongs to."""
    return query["calls"][path[1]] if len(path) >= 2 and path[0] == "calls" else None


def _name(call: Sequence[Any]) -> str:
    return str(call[0]).replace("inner_join", "join")


def _types(ask: Ask, query: Json, operands: Sequence[Json]) -> List[str]:
    """The types of operands over what the query reads, as the engine tells them."""
    if "from" not in query:
        return ["?"] * len(operands)
    joins = [call for call in query.get("calls", []) if "join" in call[0]]
    made: List[str] = []
    for each in operands:
        plain, marked = ask([{"from": query["from"], "calls": [*joins, ["select", form]]} for form in (each, {"nullable": each})])
        columns = [answer["columns"][0] for answer in (plain, marked) if isinstance(answer, dict) and "columns" in answer]
        made.append(columns[0] if columns else "of no type")
    return made
